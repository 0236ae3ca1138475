// A step list written as text: its packed steps, the line of each, and the names that comments give to takes.
import { replyText, toSteps } from "../../../bindings/js/notation.mjs";
import { kindOf, REFUSED } from "./words.mjs";
import { Names } from "./names.mjs";

const commentOf = line => (line.includes("#") ? line.slice(line.indexOf("#") + 1).trim() : "");

/** The steps with the place (from 0) and the comment of each one's line, or the first fault. */
export function readText(text) {
  const { steps, fault } = toSteps(text);
  if (fault) return { fault, steps: null };
  const places = [], comments = [];
  text.split("\n").forEach((line, i) => {
    if (!toSteps(line).steps?.length) return;
    places.push(i);
    comments.push(commentOf(line));
  });
  return { fault: null, steps, places, comments };
}

const opens = (step, reply) => ["root", "new"].includes(kindOf(step)) && reply.outcome < REFUSED;

/** The name in a comment after an opening: none in a reply as `listing` writes it, that in brackets behind one as `ledger run` does. */
function nameIn(step, comment) {
  for (let i = 0; i < 32; i++) {
    const reply = new Uint8Array(8);
    reply[i < 16 ? 1 : 0] = i; // done, by the take opened; from there on a refusal
    const said = replyText(step, reply, 0).trim();
    if (comment === said) return "";
    if (comment.startsWith(`${said} (`) && comment.endsWith(")")) return comment.slice(said.length + 2, -1);
  }
  return comment;
}

/** A comment after an opening is the name of the take that it opened. */
export function namesFrom(record, comments) {
  const takes = [];
  record.steps.forEach((step, i) => {
    const reply = record.replies[i];
    if (opens(step, reply)) takes[reply.take] = nameIn(record.list.subarray(8 * i, 8 * i + 8), comments[i]);
  });
  return new Names(takes);
}

/** The text of lines with names after the openings. */
export function namedText(lines, record, names) {
  return lines.map((line, i) => {
    const reply = record.replies[i], name = opens(record.steps[i], reply) && names.takes[reply.take];
    return `${name ? `${line.padEnd(20)} # ${name.replace(/\s+/g, " ")}` : line}\n`;
  }).join("");
}
