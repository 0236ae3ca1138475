// What became of each parcel of a record: where it was made, by whom and for whom, and where it ended.
import { readParcels } from "../../../bindings/js/image.mjs";
import { kindOf, REFUSED } from "./words.mjs";

const RECEIVED = ["taken", "", "dropped", "fell", "fell"];

/**
 * A parcel made at a step (from 1; 0: before the first), from a take or (null) from outside. It waits until it has ended at a step.
 * @typedef {{number: number, made: number, from: number | null, to: number, text: number, ended: number | null, how: string}} Fate
 */

/**
 * @param {number} number
 * @param {number} made
 * @param {number | null} from
 * @param {number} to
 * @param {number} text
 * @returns {Fate}
 */
function parcel(number, made, from, to, text) {
  return { number, made, from, to, text, ended: null, how: "waiting" };
}

/**
 * @param {Pick<import("./record.mjs").Record, "at" | "steps" | "replies">} record
 * @returns {Fate[]}
 */
export function fates(record) {
  const found = new Map(readParcels(record.at(0).image).map(p => [p.number, parcel(p.number, 0, null, p.to, p.text)]));
  record.steps.forEach((step, i) => {
    const reply = record.replies[i], number = reply.parcel, kind = reply.outcome < REFUSED ? kindOf(step) : "refused";
    if (kind === "letter") found.set(number, parcel(number, i + 1, null, step.take, step.text));
    if (kind === "send") found.set(number, parcel(number, i + 1, step.take, step.other, step.text));
    const parcelled = found.get(number), how = kind === "lose" ? "lost" : RECEIVED[reply.outcome];
    if (parcelled && (kind === "receive" || kind === "lose")) Object.assign(parcelled, { ended: i + 1, how });
  });
  return [...found.values()];
}

/**
 * The parcels that wait after so many steps, with who sent them.
 * @param {Fate[]} parcels
 * @param {number} count
 */
export function waitingAt(parcels, count) {
  return parcels.filter(p => p.made <= count && (p.ended === null || p.ended > count));
}
