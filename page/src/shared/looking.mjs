// Other looks at the moment after a step, folded away until somebody asks: the takes as cards, and the strips of their lives.
import { el, replace } from "./dom.mjs";
import { Picture } from "./picture.mjs";
import { livesOf } from "./states.mjs";
import { strip } from "./strip.mjs";

/** @typedef {import("./record.mjs").Record} Record */

// Room for a card.
const TALL = 110, WIDE = 110;
// What is unfolded stays so from step to step.
const open = new Set();

/**
 * @param {string} id
 * @param {string} title
 * @param {(host: HTMLElement) => void} fill
 */
function folded(id, title, fill) {
  const host = el("div", { class: `look ${id}` }), part = el("details", { class: "fold", open: open.has(id) }, el("summary", {}, title), host);
  const show = () => {
    if (part.open) open.add(id);
    else open.delete(id);
    if (part.open && !host.hasChildNodes()) fill(host);
  };
  part.addEventListener("toggle", show);
  return part;
}

/**
 * @param {Record} record
 * @param {number} count
 * @param {import("./names.mjs").Names} names
 */
export function looks(record, count, names) {
  if (!record.heads[count].length) return null;
  const cards = (/** @type {HTMLElement} */ host) => {
    const room = el("div", { class: "picture-host" });
    host.append(room);
    new Picture(room).show(record, count, names, { trace: true });
    Object.assign(room.style, { height: `${TALL * Number(room.dataset.levels) + TALL}px`, minWidth: `${WIDE * Number(room.dataset.columns)}px` });
  };
  const lives = (/** @type {HTMLElement} */ host) => {
    const all = record.heads[count].map((_, t) => ({ t, lives: livesOf(record, t, count) })).filter(l => l.lives.length > 1);
    replace(host, all.length ? all.map(l => strip(l.lives, names.take(l.t), { codes: true })) : el("p", { class: "soft" }, "Every take is in its first life."));
  };
  return [folded("cards-look", "The takes as cards", cards), folded("lives-look", "Their lives, in the order of time", lives)];
}
