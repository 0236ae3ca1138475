// The words of the trade, each explained once. In a text, a word is explained where it first stands: on hover, on focus, on a touch.
import { el } from "./dom.mjs";

/** @type {[string, RegExp, string][]} name, how it stands in a sentence, what it means */
export const GLOSSARY = [
  ["set from", /\bset (again )?from\b/i, "One sends what it has, the other takes it in and writes its own text from it. From then on it rests on the one it was set from."],
  ["rests on", /\brests? on\b|\bstands? on\b/i, "A page rests on what it was set from, and on all that this rests on. Only what is signed need not be looked at any more."],
  ["draft", /\bdrafts?\b/i, "Still being edited. If a draft is withdrawn and was never signed, it vanishes."],
  ["frozen", /\bfrozen\b|\bfreez(e|es|ing)\b/i, "Its editor leaves it alone until it is signed or falls. It does not fall by itself, but it can lose its ground."],
  ["signed", /\bsigned\b|\bsigning(s)?\b/i, "The text is kept for good. Later work goes on in a new life, and can fall back to the signed text."],
  ["volume", /\bvolumes?\b/i, "What is signed together. All of it must be frozen, and rest on nothing but signed lives and each other."],
  ["held", /\bheld\b/i, "The ledger\u2019s answer when something frozen is asked to write or to fall: nothing happens to its text."],
  ["withdraw", /\bwithdraw(s|n|al)?\b/i, "Its editor takes a page or a list back. A page that was signed falls back to its signed text; one that never was vanishes."],
  ["falls, falls back", /\bf(a|e)lls?\b( back\b)?/i, "What is withdrawn falls, and so does what learns that its ground is gone: back to its signed text, in the next life. What was never signed vanishes."],
  ["vanish", /\bvanish(es|ed)?\b/i, "Withdrawn and never signed: nothing is left but the fact that it was there."],
  ["ground gone", /\bground (is|was) gone\b|\bloses? its ground\b/i, "What it rests on was withdrawn. Its text is still there, but it can\u2019t be signed in this life any more."],
  ["reached", /\breach(es|ed)?\b/i, "A withdrawal reaches every page that rests on what is withdrawn, also through others."],
  ["life", /\bli(fe|ves)\b/i, "A stretch of a page\u2019s or list\u2019s history. A fall begins the next life, one higher; a signing closes it, and the count starts at 0 again."],
  ["note", /\bnotes?\b/i, "What one sends another: the documents call it a parcel. It waits until it is taken in, turned away or lost."],
];

/**
 * A text in which each word that is explained, and was not yet (seen), can be asked about.
 * @param {string} text
 * @param {Set<string>} [seen]
 * @returns {(string | Node)[]}
 */
export function explained(text, seen = new Set()) {
  const found = GLOSSARY.flatMap(([name, pattern, words]) => {
    const at = seen.has(name) ? null : pattern.exec(text);
    return at ? [{ name, words, index: at.index, word: at[0] }] : [];
  });
  const [first] = found.sort((a, b) => a.index - b.index || b.word.length - a.word.length);
  if (!first) return [text];
  const { name, words, index, word } = first;
  seen.add(name);
  return [text.slice(0, index), term(word, words), ...explained(text.slice(index + word.length), seen)];
}

let terms = 0;

/**
 * @param {string} word
 * @param {string} words
 */
function term(word, words) {
  const id = `term-${++terms}`;
  return el("span", { class: "term", tabindex: "0", role: "note", "aria-describedby": id, onkeydown: e => e.key === "Escape" && e.target.blur() }, word,
    el("span", { class: "tip", role: "tooltip", id }, words));
}

/** The whole of it, as a list. */
export function glossary() {
  return el("dl", {}, GLOSSARY.map(([name, , words]) => [el("dt", {}, name), el("dd", {}, words)]));
}
