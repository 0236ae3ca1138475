// What two images hold otherwise: take by take with names, who rests on those, the parcels that wait, and where an image is no whole one
// the fields of the bytes.
import { el } from "../shared/dom.mjs";
import { badge } from "../shared/marks.mjs";
import { stateOf } from "../shared/states.mjs";
import { reachOf } from "../shared/grounds.mjs";
import { capital, counted, listed } from "../shared/names.mjs";
import { Session } from "../../../bindings/js/ledger.mjs";
import { fieldAt, life, markWords, readHeads, readParcels, readTake, MAPS } from "../../../bindings/js/image.mjs";

const MOST = 12;
const same = (/** @type {unknown} */ a, /** @type {unknown} */ b) => JSON.stringify(a) === JSON.stringify(b);

/** The takes that two images hold otherwise. */
export function otherTakes(a, b) {
  const count = Math.max(readHeads(a).length, readHeads(b).length);
  return Array.from({ length: count }, (_, t) => t).filter(t => !same(takeIn(a, t), takeIn(b, t)));
}

/** A take of an image, or null where it is not opened there. */
const takeIn = (image, t) => (t < readHeads(image).length ? readTake(image, t) : null);

/** A line of a card; marked where the other end has something else. */
function fact(label, words, differs) {
  return el("p", { class: `fact${differs ? " differs" : ""}` }, el("span", { class: "soft" }, `${label} `), words);
}

/** The marks in a take's maps that the other end does not have, or has otherwise. */
function otherMarks(now, then, t, names) {
  const entries = MAPS.flatMap(map => now[map].map((mark, u) => ({ map, u, mark, there: then?.[map][u] ?? null })));
  const found = entries.filter(e => !same(e.mark, e.there) && (e.u !== t || e.map !== "state"));
  return found.slice(0, MOST).map(e => fact(`${e.map} map, ${names.take(e.u)}`, markWords(e.mark), true));
}

/** A take at one end: its card, and what it holds that the other end does not. */
function card({ image, names }, other, t) {
  const now = takeIn(image, t), then = takeIn(other.image, t), title = el("span", { class: "ttl" }, capital(names.take(t)));
  if (!now) return el("div", { class: "card s-vanished" }, title, el("span", { class: "soft" }, "is not opened here"));
  const state = stateOf(new Session(image), t), differs = (/** @type {string} */ field) => then !== null && !same(now[field], then[field]);
  const signed = now.mark?.list.length, ever = signed || then?.mark?.list.length;
  return el("div", { class: `card s-${state}`, "data-take": t }, title, badge(state, 18),
    fact("text", names.plain(now.text), differs("text")),
    ever ? fact("signed text", signed ? names.plain(now.saved) : "never signed", differs("saved")) : null,
    now.mark ? fact("life", `${life(now.mark)}${now.mark.frozen ? ", frozen" : ""}`, differs("mark")) : null,
    fact("status", now.status, differs("status")),
    otherMarks(now, then, t, names));
}

/** Who rests on what ends otherwise, and does not end otherwise itself. */
function affected({ image, names }, takes) {
  const session = new Session(image), heads = readHeads(image), live = takes.filter(t => heads[t] && heads[t].status !== "vanished");
  const reached = [...new Set(live.flatMap(t => reachOf(session, t)))].filter(t => !takes.includes(t));
  if (!reached.length) return null;
  return el("p", {}, `${capital(listed(reached.map(t => names.take(t))))} ${reached.length === 1 ? "rests" : "rest"} on what differs.`);
}

function waiting({ image, names }) {
  return listed(readParcels(image).map(p => `parcel ${p.number} for ${names.take(p.to)}, ${names.text(p.text)}`)) || "nothing";
}

/** Both ends, side by side, take by take. */
export function endsPart(a, b) {
  if (same([...a.image], [...b.image])) return el("p", { class: "prose" }, "Both end in the same image, byte for byte.");
  const takes = otherTakes(a.image, b.image), rest = Math.max(readHeads(a.image).length, readHeads(b.image).length) - takes.length;
  const bytes = (from, to) => [a, b].map(({ image }) => [...image.slice(from, to)]), differ = (/** @type {any[]} */ both) => !same(both[0], both[1]);
  const row = t => el("div", { class: "end-row" }, card(a, b, t), el("span", { class: "unequal", "aria-hidden": "true" }, "\u2260"), card(b, a, t));
  const parcels = `Waiting on the left: ${waiting(a)}; on the right: ${waiting(b)}.`;
  return [
    takes.map(row),
    takes.length && rest ? el("p", { class: "soft" }, `The other ${counted(rest, "is", "are")} the same in both.`) : null,
    affected(a, takes),
    differ(bytes(4, 7)) ? el("p", {}, "The two sessions were begun with other limits.") : null,
    differ(bytes(1, 3)) ? el("p", {}, "The next parcel gets another number.") : null,
    differ([readParcels(a.image), readParcels(b.image)]) ? el("p", {}, parcels) : null,
  ];
}

/** The fields in which two images of bytes differ, in words: for images that are not whole ones too. */
export function fieldsPart({ image: a }, { image: b }) {
  const found = new Map();
  a.forEach((byte, i) => {
    if (byte !== b[i] && !found.has(fieldAt(i))) found.set(fieldAt(i), `byte ${i} is ${byte} on the left, ${b[i]} on the right`);
  });
  const all = [...found], more = all.length > MOST ? el("li", {}, `and ${counted(all.length - MOST, "more field", "more fields")}`) : null;
  return el("ul", { class: "fields" }, all.slice(0, MOST).map(([field, words]) => el("li", {}, el("b", {}, capital(field)), `: ${words}`)), more);
}
