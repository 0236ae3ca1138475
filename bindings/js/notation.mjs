// Step lists as text and back, replies and images in words. The grammar and the words are the library's; this passes bytes to it.
import { memory, accepted } from "./modules.mjs";
import { wide } from "./memory.mjs";
import { joined } from "./packed.mjs";

export { refusalText } from "./modules.mjs";

const STEP = 8, LONGEST = 8192, STEP_LINE = 45, LINE = 256, IMAGE_LINES = 1330;

/** @typedef {{line: number, column: number, expected: string}} Fault */
/** @typedef {import("./memory.mjs").Memory} Memory */

/**
 * The packed steps of a text, or its first fault (line and column from 1, the column in bytes).
 * @param {string} text
 * @returns {{steps: Uint8Array, fault: null} | {steps: null, fault: Fault}}
 */
export function toSteps(text) {
  const bytes = new TextEncoder().encode(text), m = memory("notation"), room = STEP * text.split("\n").length;
  const from = m.lend(bytes), out = m.room(room), line = m.room(8), column = m.room(8), lacking = m.room(1);
  const count = m.calls.notation_parse(from, wide(bytes.length), out, wide(room), line, column, lacking), expected = m.byte(lacking);
  if (expected === 0) return { steps: m.copy(out, STEP * Number(count)), fault: null };
  return { steps: null, fault: { line: m.word(line), column: m.word(column), expected: expectedText(expected) } };
}

/**
 * The bytes that a call writes to the front of so much room.
 * @param {number} room
 * @param {(m: Memory, answer: number) => (out: number) => void} call lends what it needs and gives the call itself
 * @returns {Uint8Array}
 */
function given(room, call) {
  const m = memory("notation"), answer = m.room(16), ask = call(m, answer), out = m.room(room);
  ask(out);
  accepted(m.byte(answer + 8));
  return m.copy(out, m.word(answer));
}

/** @param {Uint8Array} bytes */
const words = bytes => new TextDecoder().decode(bytes);

/**
 * What a fault's number says was expected there.
 * @param {number} expected
 */
const expectedText = expected => words(given(LINE, (m, answer) => out => m.calls.notation_expected_text(answer, expected, out, wide(LINE))));

/**
 * The canonical text of a list, a line a step.
 * @param {Uint8Array} list
 * @returns {string}
 */
export function toText(list) {
  const parts = [];
  for (let at = 0; at < list.length; at += LONGEST) parts.push(partText(list.subarray(at, at + LONGEST)));
  return words(joined(parts));
}

/** @param {Uint8Array} list */
function partText(list) {
  const room = Math.ceil(list.length / STEP) * STEP_LINE;
  return given(room, (m, answer) => {
    const from = m.lend(list);
    return out => m.calls.notation_print(answer, from, wide(list.length), out, wide(room));
  });
}

/**
 * The reply to step i of a list, in the documents' words.
 * @param {Uint8Array} list
 * @param {Uint8Array} replies
 * @param {number} i
 * @returns {string}
 */
export function replyText(list, replies, i) {
  return words(given(LINE, (m, answer) => {
    const steps = m.lend(list), told = m.lend(replies), length = wide(list.length);
    return out => m.calls.notation_reply(answer, steps, length, told, wide(replies.length), wide(i), out, wide(LINE));
  }));
}

/**
 * An image in words, for people and for comparison line by line.
 * @param {Uint8Array} image
 * @returns {string}
 */
export function imageText(image) {
  const m = memory("notation"), answer = m.room(16), at = m.lend(image), out = m.room(LINE), lines = [];
  for (let n = 0; n < IMAGE_LINES; n++) {
    m.calls.notation_image(answer, at, wide(image.length), wide(n), out, wide(LINE));
    accepted(m.byte(answer + 8));
    lines.push(m.copy(out, m.word(answer)));
  }
  return words(joined(lines));
}
