// Title, names and words of two sides of a comparison, which stand beside the steps and not in them.
import { isolated } from "../shared/names.mjs";

const MOST = 8;
const quoted = words => `\u201c${isolated(words)}\u201d`;
const given = ({ title, takes, texts }) => title !== "" || takes.some(Boolean) || Object.keys(texts).length > 0;

/** One value on the left, another on the right. */
function both(what, verb, left, right) {
  if (left && right) return `${what} ${verb} ${quoted(left)} on the left, ${quoted(right)} on the right.`;
  return `${what} ${verb} ${quoted(left || right)} on the ${left ? "left" : "right"}, and nothing on the ${left ? "right" : "left"}.`;
}

function titles(a, b) {
  return a.title === b.title ? [] : [both("The hearing", "is called", a.title, b.title)];
}

function takes(a, b) {
  const count = Math.max(a.takes.length, b.takes.length), found = [];
  for (let t = 0; t < count; t++) if ((a.takes[t] || "") !== (b.takes[t] || "")) found.push(both(`Take ${t}`, "is called", a.takes[t], b.takes[t]));
  return found;
}

function texts(a, b) {
  const numbers = [...new Set([...Object.keys(a.texts), ...Object.keys(b.texts)])].sort((x, y) => Number(x) - Number(y));
  return numbers.filter(n => (a.texts[n] || "") !== (b.texts[n] || "")).map(n => both(`Text ${n}`, "is", a.texts[n], b.texts[n]));
}

const wordless = side => Object.keys(side.texts).length === 0;

/** What is to be said of them; nothing where neither side has any. */
export function besideDifference(a, b) {
  const [left, right] = [given(a), given(b)];
  if (!left && !right) return [];
  if (!left || !right) return [`Names and words are not compared: the ${left ? "right" : "left"} file has none.`];
  if (wordless(a) !== wordless(b)) {
    return [...told([...titles(a, b), ...takes(a, b)], "names"), `Words are not compared: the ${wordless(a) ? "left" : "right"} file has none.`];
  }
  return told([...titles(a, b), ...takes(a, b), ...texts(a, b)], "names and words");
}

function told(found, what) {
  if (!found.length) return [`The ${what} are the same.`];
  const more = found.length > MOST ? [`${found.length - MOST} more differ.`] : [];
  return [`The ${what} differ: ${[...found.slice(0, MOST), ...more].join(" ")}`];
}

