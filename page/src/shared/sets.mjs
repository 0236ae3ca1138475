// The two sets that a signing compares, side by side: the unsigned lives that the members of a volume rest on, and the present lives of
// those members that are frozen. Whether it can be signed, the library says.
import { el } from "./dom.mjs";
import { mark } from "./marks.mjs";
import { takesOf } from "../../../bindings/js/packed.mjs";
import { readHead, sameLife } from "../../../bindings/js/image.mjs";
import { Refusal } from "../../../bindings/js/ledger.mjs";
import { unsignedGrounds } from "./grounds.mjs";
import { capital } from "./names.mjs";

/** @typedef {import("../../../bindings/js/ledger.mjs").Session} Session */
/** @typedef {import("../../../bindings/js/image.mjs").Mark} Mark */
/** @typedef {{take: number, mark: Mark, partner: boolean, why: string, state: import("./marks.mjs").State}} Member */

/**
 * The left set, each life with whether it has its partner in the right one, and in words why not.
 * @param {Session} session
 * @param {number} volume
 * @returns {Member[]}
 */
export function leftSet(session, volume) {
  const image = session.image, inside = (/** @type {number} */ t) => (volume >> t) & 1;
  /** @type {Member[]} */
  const found = [];
  for (const t of takesOf(volume)) {
    const own = readHead(image, t).mark;
    for (const g of [...(own ? [{ take: t, mark: own, withdrawn: false }] : []), ...unsignedGrounds(image, t)]) {
      if (found.some(f => f.take === g.take && sameLife(f.mark, g.mark))) continue;
      const frozen = readHead(image, g.take).mark?.frozen ?? false, partner = Boolean(inside(g.take) && frozen && !g.withdrawn);
      const why = g.withdrawn ? "withdrawn: it can never stand here" : inside(g.take) ? "in the volume, but not frozen" : "not in the volume";
      found.push({ take: g.take, mark: g.mark, partner, why: partner ? "" : why, state: g.withdrawn ? "gone" : frozen ? "frozen" : "draft" });
    }
  }
  return found;
}

/**
 * Whether the volume can be signed now; an empty one, or one that the library refuses, can't.
 * @param {Session} session
 * @param {number} volume
 */
export function canSign(session, volume) {
  try {
    return volume !== 0 && session.obstacle(volume).kind === "nothing";
  } catch (e) {
    if (!(e instanceof Refusal)) throw e;
    return false;
  }
}

/**
 * @param {Session} session
 * @param {number} volume
 * @param {import("./names.mjs").Names} names
 * @param {{pick?: ((member: Member) => void) | null, hidden?: boolean, lives?: boolean}} how pick: told which life was clicked; hidden: partners are not
 *   shown; lives: their numbers are told, not only where a take has two of them there
 */
export function twoSets(session, volume, names, { pick = null, hidden = false, lives = true } = {}) {
  const left = leftSet(session, volume), ready = canSign(session, volume);
  const verdict = ready ? "The two sets are equal: it can be signed." : "Not equal: it can\u2019t be signed.";
  return el("section", { class: `sets${ready ? " equal" : ""}${volume ? "" : " empty"}${hidden ? " unknown" : ""}`, "aria-label": "the two sets of a signing" },
    el("div", { class: "sets-head" }, el("span", {}, "The volume and what it rests on, unsigned"), el("span", {}), el("span", {}, "Frozen members of the volume")),
    el("ul", {}, left.map(m => pair(m, names, pick, lives || left.some(n => n !== m && n.take === m.take)))),
    hidden ? null : el("p", { class: "sets-verdict", role: "status" }, ready ? mark("tick", 18) : null, volume ? verdict : "Put something into the volume."));
}

/**
 * @param {Member} member
 * @param {import("./names.mjs").Names} names
 * @param {((member: Member) => void) | null} pick
 * @param {boolean} numbered
 */
function pair(member, names, pick, numbered) {
  const label = () => [capital(names.take(member.take)), numbered ? el("span", { class: "lf" }, ` life ${member.mark.n}`) : null];
  const chip = (/** @type {string} */ tag, /** @type {string} */ state, more = {}) => {
    return el(tag, { class: `chip big s-${state}`, ...more }, mark(state, 16), label());
  };
  const clicked = pick ? { type: "button", "data-chip": member.take, "data-focus": `chip ${member.take}`, onclick: () => pick(member) } : { "data-chip": member.take };
  return el("li", { class: `pair ${member.partner ? "paired" : "alone"}` },
    chip(pick ? "button" : "span", member.state, clicked),
    el("span", { class: "eq", "aria-hidden": "true" }, member.partner ? "=" : "\u2260"),
    member.partner ? chip("span", "frozen") : el("span", { class: "hole" }, el("b", {}, "missing"), ` ${member.why}`));
}
