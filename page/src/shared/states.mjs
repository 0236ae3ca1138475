// The state of a take, and the lives that it has had. The answers are the library's, on copies where something is tried.
import { compare } from "../../../bindings/js/ledger.mjs";
import { packStep, readReply } from "../../../bindings/js/packed.mjs";
import { packMark, readHead, readTake } from "../../../bindings/js/image.mjs";
import { FALLEN_BACK } from "./words.mjs";

/** @typedef {import("../../../bindings/js/ledger.mjs").Session} Session */
/** @typedef {import("../../../bindings/js/image.mjs").Mark} Mark */
/** @typedef {import("./record.mjs").Record} Record */
/** @typedef {import("./marks.mjs").State} State */

/**
 * Whether nothing of the take is left to be signed: withdrawn on a copy, it falls back to the same text, resting on the same.
 * @param {Session} session
 * @param {number} take
 */
export function settled(session, take) {
  const copy = session.copy(), reply = readReply(copy.run(packStep("fail", { take })), 0);
  if (reply.outcome !== FALLEN_BACK) return false;
  const rests = (/** @type {Uint8Array} */ image) => {
    const { text, state, creation } = readTake(image, take);
    return JSON.stringify([text, state.map((mark, u) => (u === take ? null : mark)), creation]);
  };
  return rests(session.image) === rests(copy.image);
}

/**
 * Vanished; ground gone, where no volume with it can ever be signed at this life; frozen; signed, where nothing is left to be signed; or draft.
 * @param {Session} session
 * @param {number} take
 * @returns {State}
 */
export function stateOf(session, take) {
  const { status, mark } = readHead(session.image, take);
  if (status === "vanished") return "vanished";
  if (session.impediment(take).kind === "withdrawn") return "gone";
  if (mark?.frozen) return "frozen";
  return settled(session, take) ? "signed" : "draft";
}

/**
 * What became of a life, by its take's present mark: present, signed or withdrawn.
 * @param {Mark} mark
 * @param {Mark | null} now null where the take vanished
 * @returns {"present" | "signed" | "withdrawn"}
 */
export function fateOf(mark, now) {
  const relation = now ? compare(packMark(mark), packMark(now)).relation : "left withdrawn";
  return relation === "same life" ? "present" : relation === "left signed" ? "signed" : "withdrawn";
}

/**
 * Whether nothing has changed in a mark but its flag, so that nobody need be asked.
 * @param {Mark} a
 * @param {Mark | null} b
 */
function alike(a, b) {
  return b !== null && a.n === b.n && a.list.length === b.list.length && a.list.every((x, i) => x === b.list[i]);
}

/** @typedef {{mark: Mark, end: "present" | "signed" | "withdrawn", from: number, text: number}} Life */

/**
 * The lives of a take up to a moment, oldest first, each with how it ended and the step after which it began.
 * @param {Record} record
 * @param {number} take
 * @param {number} count
 * @returns {Life[]}
 */
export function livesOf(record, take, count) {
  /** @type {Life[]} */
  const lives = [];
  for (let i = 0; i <= count; i++) {
    const head = record.heads[i][take], last = lives.at(-1);
    if (!head) continue;
    if (last?.end === "present" && !alike(last.mark, head.mark)) last.end = fateOf(last.mark, head.mark);
    if (head.mark && last?.end !== "present") lives.push({ mark: head.mark, end: "present", from: i, text: head.text });
    else if (head.mark) Object.assign(lives[lives.length - 1], { mark: head.mark, text: head.text });
  }
  return lives;
}
