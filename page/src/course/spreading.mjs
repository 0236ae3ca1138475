// A change shown as it spreads: first where it began, then what stands on that, then what stands on that again. Each ring is drawn a
// moment after the one before, so that the eye can follow the cause; where the reader wants no motion, all at once.
import { linesOf } from "../shared/grounds.mjs";
import { stateOf } from "../shared/states.mjs";
import { kindOf, takesIn } from "../shared/words.mjs";
import { takesOf } from "../../../bindings/js/packed.mjs";

/** @typedef {import("../shared/record.mjs").Record} Record */

// The pause between two rings, in milliseconds; the reply of a frozen take that is asked to change.
const PAUSE = 700, HELD = 1;

/** @param {Record} record */
const shownAt = (record, /** @type {number} */ count) => {
  const session = record.at(count);
  return record.heads[count].map((head, t) => JSON.stringify([stateOf(session, t), head.text, head.mark]));
};

/**
 * The takes that look otherwise after some steps, in rings: those that the steps are about, then those that stand on them, and so on.
 * @param {Record} record
 * @param {number} from
 * @param {number} to
 * @returns {number[][]}
 */
export function rings(record, from, to) {
  const before = shownAt(record, from), now = shownAt(record, to), lines = linesOf(record, from);
  const about = new Set(record.steps.slice(from, to).flatMap((step, i) => takesIn(step, record.replies[from + i])));
  const open = new Set(now.flatMap((look, t) => (before[t] !== undefined && look !== before[t] && !about.has(t) ? [t] : []))), found = [[...about]];
  while (open.size) {
    const last = found[found.length - 1], next = [...open].filter(t => lines.some(l => l.from === t && last.includes(l.to)));
    found.push(next.length ? next : [...open]);
    for (const t of found[found.length - 1]) open.delete(t);
  }
  return found;
}

/**
 * What some steps did that is shown by a motion of its own: the takes that were held, asked to change though frozen, and those that were signed.
 * @param {Record} record
 * @param {number} from
 * @param {number} to
 */
export function newsOf(record, from, to) {
  const moves = Array.from({ length: to - from }, (_, i) => record.move(from + i + 1));
  const held = moves.filter(({ reply }) => reply.outcome === HELD).map(({ reply }) => reply.take);
  return { held, stamped: moves.flatMap(({ step, reply }) => (kindOf(step) === "sign" && reply.outcome === 0 ? takesOf(step.parcel) : [])) };
}

export class Spreading {
  /**
   * @param {number[][]} found in rings
   * @param {(ring: number[], late: number[], first: boolean) => void} draw told which takes change now, which are still to come, and
   * whether these are the first
   */
  constructor(found, draw) {
    const still = matchMedia("(prefers-reduced-motion: reduce)").matches;
    this.rest = still ? [] : found.slice(1);
    this.draw = draw;
    /** @type {ReturnType<typeof setTimeout> | undefined} */
    this.timer = undefined;
    this.next(still ? found.flat() : found[0], true);
  }

  next(/** @type {number[]} */ ring, first = false) {
    this.draw(ring, this.rest.flat(), first);
    const [coming] = this.rest;
    if (!coming) return;
    this.timer = setTimeout(() => {
      this.rest = this.rest.slice(1);
      this.next(coming);
    }, PAUSE);
  }

  stop() {
    clearTimeout(this.timer);
  }
}
