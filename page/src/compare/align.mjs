// Two lists of steps aligned: runs that are the same, runs that are the same up to order, and runs that differ. Whether two neighbouring
// steps may change places, the library says.
import { fates } from "../shared/parcels.mjs";
import { kindOf } from "../shared/words.mjs";

/** @typedef {import("../shared/record.mjs").Record} Record */
/** @typedef {{kind: "same" | "order" | "other", left: number[], right: number[]}} Run places (from 0) in both lists */

// A run that is the same up to order has at most so many steps; a table of two rests has at most so many places.
const LONGEST_RUN = 40, LARGEST_TABLE = 4000000;

/**
 * Steps that can be told apart: a receipt by the parcel's way, and not by its number, which another list may have given otherwise.
 * @param {Record} record
 * @returns {string[]}
 */
export function keysOf(record) {
  const way = new Map(), seen = new Map();
  for (const p of fates(record)) {
    const path = `${p.from}>${p.to}:${p.text}`, nth = seen.get(path) ?? 0;
    seen.set(path, nth + 1);
    way.set(p.number, `${path}#${nth}`);
  }
  return record.steps.map((step, i) => {
    const { kind, take, other, zero, parcel, text } = step, by = ["receive", "lose"].includes(kindOf(step)) ? way.get(parcel) ?? parcel : parcel;
    return [kind, take, other, zero, by, text, record.replies[i].outcome].join();
  });
}

/**
 * How many keys two rests have in common, in order; a flat table from the ends on.
 * @param {string[]} a
 * @param {string[]} b
 */
function common(a, b) {
  const wide = b.length + 1, table = new Uint16Array((a.length + 1) * wide);
  for (let i = a.length - 1; i >= 0; i--) for (let j = b.length - 1; j >= 0; j--) {
    table[i * wide + j] = a[i] === b[j] ? table[(i + 1) * wide + j + 1] + 1 : Math.max(table[(i + 1) * wide + j], table[i * wide + j + 1]);
  }
  return (/** @type {number} */ i, /** @type {number} */ j) => table[i * wide + j];
}

/**
 * The smallest number of steps from both places on that are the same steps in another order; 0 where there is none.
 * @param {string[]} a
 * @param {string[]} b
 */
function permuted(a, b) {
  const balance = new Map(), add = (/** @type {string} */ key, /** @type {number} */ by) => {
    const now = (balance.get(key) ?? 0) + by;
    if (now) balance.set(key, now);
    else balance.delete(key);
  };
  for (let k = 0; k < Math.min(a.length, b.length, LONGEST_RUN); k++) {
    add(a[k], 1);
    add(b[k], -1);
    if (!balance.size) return k + 1;
  }
  return 0;
}

/**
 * Whether steps of the left list come into the order of the right one by exchanging neighbours that the library calls independent.
 * @param {Record} left
 * @param {number} at
 * @param {string[]} from
 * @param {string[]} to
 */
function exchanged(left, at, from, to) {
  const order = from.map((key, k) => ({ key, step: left.list.subarray(8 * (at + k), 8 * (at + k) + 8) })), start = left.at(at);
  for (let p = 0; p < to.length; p++) {
    for (let q = order.findIndex((s, k) => k >= p && s.key === to[p]); q > p; q--) {
      const session = start.copy();
      for (const { step } of order.slice(0, q - 1)) session.run(step);
      if (!session.independent(order[q - 1].step, order[q].step)) return false;
      [order[q - 1], order[q]] = [order[q], order[q - 1]];
    }
  }
  return true;
}

/**
 * @param {Record} left
 * @param {Record} right
 * @returns {Run[]}
 */
export function align(left, right) {
  const a = keysOf(left), b = keysOf(right), runs = /** @type {Run[]} */ ([]);
  const add = (/** @type {Run["kind"]} */ kind, /** @type {number[]} */ is, /** @type {number[]} */ js) => {
    const last = runs.at(-1);
    if (last?.kind === kind && kind !== "order") (last.left.push(...is), last.right.push(...js));
    else runs.push({ kind, left: is, right: js });
  };
  let i = 0, j = 0;
  while (i < a.length && a[i] === b[j]) add("same", [i++], [j++]);
  const [p, q] = [i, j], rest = (a.length - p) * (b.length - q), lcs = rest <= LARGEST_TABLE ? common(a.slice(p), b.slice(q)) : () => 0;
  while (i < a.length || j < b.length) {
    const size = a[i] === b[j] ? 0 : permuted(a.slice(i), b.slice(j)), places = (/** @type {number} */ from) => Array.from({ length: size }, (_, k) => from + k);
    if (a[i] === b[j] && i < a.length) add("same", [i++], [j++]);
    else if (size && exchanged(left, i, a.slice(i, i + size), b.slice(j, j + size))) (add("order", places(i), places(j)), i += size, j += size);
    else if (j >= b.length || (i < a.length && lcs(i + 1 - p, j - q) >= lcs(i - p, j + 1 - q))) add("other", [i++], []);
    else add("other", [], [j++]);
  }
  return runs;
}
