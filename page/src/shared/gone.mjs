// From when to when a take's ground is gone, for the lanes: the library is asked after each step that can change it, a slice at a time.
import { tone, kindOf, REFUSED } from "./words.mjs";

/** @typedef {import("./record.mjs").Record} Record */
/** @typedef {{take: number, from: number, to: number | null}} Span from a step on, up to a step or (null) to the end */

const CHANGING = new Set(["receive", "new", "write", "fall", "fail", "sign"]), SLICE = 8;

/**
 * Yields after each question, so that a long list can be asked in slices.
 * @param {Record} record
 * @param {number} shown
 * @returns {Generator<void, Span[]>}
 */
function* spans(record, shown) {
  const session = record.at(0), found = /** @type {Span[]} */ ([]), open = new Map();
  let fallen = record.heads[0].length > 0;
  for (let i = 1; i <= shown; i++) {
    session.run(record.list, 8 * i - 8, 8 * i);
    const { step, reply } = record.move(i);
    fallen ||= tone(reply) === "fell";
    if (!fallen || reply.outcome >= REFUSED || !CHANGING.has(kindOf(step))) continue;
    record.heads[i].forEach((head, take) => {
      const gone = head.status !== "vanished" && session.impediment(take).kind === "withdrawn";
      if (gone && !open.has(take)) open.set(take, i);
      if (gone || !open.has(take)) return;
      found.push({ take, from: open.get(take), to: i });
      open.delete(take);
    });
    yield;
  }
  return [...found, ...[...open].map(([take, from]) => ({ take, from, to: null }))];
}

/**
 * @param {Record} record
 * @param {number} shown
 * @returns {Span[]}
 */
export function goneSpans(record, shown) {
  const asking = spans(record, shown);
  for (;;) {
    const { done, value } = asking.next();
    if (done) return value;
  }
}

/**
 * The same in slices of some milliseconds, as long as somebody waits for it.
 * @param {Record} record
 * @param {number} shown
 * @param {() => boolean} wanted
 * @param {(spans: Span[]) => void} found
 */
export function goneLater(record, shown, wanted, found) {
  const asking = spans(record, shown), slice = () => {
    if (!wanted()) return;
    for (const end = performance.now() + SLICE; performance.now() < end;) {
      const { done, value } = asking.next();
      if (done) return found(value);
    }
    setTimeout(slice, SLICE);
  };
  setTimeout(slice, 10 * SLICE);
}
