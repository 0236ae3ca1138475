// The strip of a take's lives, in the order of time: a life ends in a tear, where it was withdrawn, or at a seal, where it was signed. Its
// height is its number, so that the newer life 0 stands low and to the right of a tall life 2.
import { el } from "./dom.mjs";
import { mark } from "./marks.mjs";
import { life as lifeWords } from "../../../bindings/js/image.mjs";

/** @typedef {import("./states.mjs").Life} Life */

// So many lives stand in one row.
const MOST = 6;
const KIND = { present: "now", signed: "closed", withdrawn: "torn" };
const WORD = { present: "now", signed: "signed", withdrawn: "withdrawn" };

// How a life ends in the picture, for whoever hears it.
const DRAWN = { present: "now", signed: "ends at a seal", withdrawn: "ends in a tear" };

/** @param {number} n */
export const ordinal = n => `${n}${n % 100 > 10 && n % 100 < 14 ? "th" : ["th", "st", "nd", "rd"][n % 10] ?? "th"}`;

/**
 * @param {Life[]} lives
 * @param {string} title whose lives
 * @param {{pick?: ((i: number) => void) | null, lit?: number[], picked?: number[], slots?: Node[], codes?: boolean, fresh?: number, bare?: boolean}} how
 *   bare: how a life ended is drawn and not said in a word; slots: what may come next; fresh: a life that has just begun
 */
export function strip(lives, title, { pick = null, lit = [], picked = [], slots = [], codes = false, fresh = -1, bare = false } = {}) {
  const parts = lives.flatMap((life, i) => [
    box(life, i, { pick, lit: lit.includes(i), picked: picked.includes(i), codes, bare, from: i === fresh ? lives[i - 1] ?? null : null }),
    ending(life, lives.slice(0, i + 1).filter(l => l.end === "signed").length, i + 1 === fresh),
  ]);
  const fork = slots.length ? [seal("signed now"), el("div", { class: "fork" }, slots)] : [];
  return el("div", { class: "lives" },
    el("div", { class: `strip${lives.length > MOST ? " many" : ""}`, role: "group", "aria-label": `lives of ${title}, oldest first` }, parts, fork),
    el("div", { class: "axis", "aria-hidden": "true" }, el("span", {}, "older"), el("span", {}, `lives of ${title}`), el("span", {}, "newer")));
}

/**
 * @param {Life} life
 * @param {number} i
 * @param {{pick: ((i: number) => void) | null, lit: boolean, picked: boolean, codes: boolean, bare: boolean, from: Life | null}} how from: the life before one that
 *   has just begun, from whose height it comes down
 */
function box(life, i, { pick, lit, picked, codes, bare, from }) {
  const { mark: own, end } = life, frozen = end === "present" && own.frozen, word = frozen ? "frozen, now" : bare ? DRAWN[end] : WORD[end];
  const classes = `life ${KIND[end]}${frozen ? " ice" : ""}${lit ? " lit" : ""}${picked ? " picked" : ""}${from ? " fresh" : ""}`;
  const said = `life ${own.n}, ${word}, after ${own.list.length === 1 ? "1 signing" : `${own.list.length} signings`}`;
  const clicked = pick ? { type: "button", "aria-pressed": String(picked), onclick: () => pick(i) } : { role: "img" };
  const drawn = el(pick ? "button" : "div", { class: classes, "data-life": i, "data-focus": `life ${i}`, "aria-label": said, ...clicked },
    el("span", { class: "w" }, "life"), el("span", { class: "n" }, own.n), bare && end !== "present" ? null : el("span", { class: "w" }, word),
    codes ? el("span", { class: "w code" }, lifeWords(own)) : null);
  drawn.style.setProperty("--n", String(Math.min(own.n, 4)));
  if (from) drawn.style.setProperty("--was", String(Math.min(from.mark.n, 4)));
  return drawn;
}

/**
 * @param {Life} life
 * @param {number} signings
 * @param {boolean} fresh
 */
function ending(life, signings, fresh) {
  if (life.end === "signed") return seal(`${ordinal(signings)} signing`, fresh);
  return life.end === "withdrawn" ? el("span", { class: "gap-fall", "aria-hidden": "true" }, mark("tear", 22), "fell") : null;
}

const seal = (/** @type {string} */ words, fresh = false) => {
  return el("span", { class: `gap-seal${fresh ? " fresh" : ""}`, "aria-hidden": "true" }, mark("signed", 34), el("span", {}, words));
};
