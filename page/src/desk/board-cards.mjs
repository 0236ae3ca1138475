// The board: a lane for each speaker with the pages set from the name, then the pages of no speaker. It fits the window: cards get smaller
// until all of them are in view.
import { el, replace } from "../shared/dom.mjs";
import { mark, badge, STATE_WORDS } from "../shared/marks.mjs";
import { isolated } from "../shared/names.mjs";
import { staleWords } from "./saying.mjs";
import { drawWires } from "./wires.mjs";

/** @typedef {import("./cards.mjs").Card} Card */

const DENSITIES = 5;
const shortened = (words, most = 60) => (words.length > most ? `${words.slice(0, most)}\u2026` : words);

/**
 * Which cards light up, which are dimmed, and what is said on them.
 * @typedef {{chosen: number | null, lit: Map<number, string>, torn: Map<number, string>, dim: boolean}} Light
 */

/** @type {{cards: Card[], light: Light}} the board as it was drawn last */
let drawn = { cards: [], light: { chosen: null, lit: new Map(), torn: new Map(), dim: false } };

/** The lane of a page: the speaker that it was set from directly, or through others. */
function laneOf(card, cards) {
  const names = [...card.below.keys()].filter(t => cards[t].kind === "name");
  return names.find(t => card.grounds.includes(t)) ?? names[0] ?? null;
}

/**
 * @param {HTMLElement} host
 * @param {Card[]} cards
 * @param {Light} light
 * @param {{order: string, hide: boolean, pick: (take: number) => void, texts: {[text: number]: string}}} how
 */
export function showBoard(host, cards, light, how) {
  const shown = cards.filter(c => !how.hide || !(c.state === "vanished" || c.withdrawn)), card = c => cardOf(c, cards, light, how);
  const pages = shown.filter(c => c.kind === "page"), names = shown.filter(c => c.kind === "name");
  const lanes = how.order === "page" ? byPage(names, pages, card) : bySpeaker(names, pages, cards, card);
  replace(host, lanes.length ? lanes : el("p", { class: "soft empty" }, "No name and no page yet. Write the first name below."));
  drawn = { cards, light };
  fit(host);
}

/** A lane, with words for whoever listens. */
function lane(label, head, cards, name = "") {
  return el("section", { class: `speaker-lane ${name}`, "aria-label": label }, head, el("div", { class: "lane-cards" }, cards));
}

function bySpeaker(names, pages, all, card) {
  const mine = n => pages.filter(p => laneOf(p, all) === n.take), with_ = names.filter(n => mine(n).length), without = names.filter(n => !mine(n).length);
  const loose = pages.filter(p => !with_.some(n => laneOf(p, all) === n.take));
  const lanes = with_.map(n => lane(`${n.title} and the pages set from it`, card(n), mine(n).map(card)));
  if (without.length) lanes.push(lane("names without pages", null, without.map(card), "plain"));
  if (loose.length) lanes.push(lane("pages of no speaker", el("p", { class: "lane-word" }, el("b", {}, "No speaker"), el("span", {}, "set from no name")), loose.map(card)));
  return lanes;
}

function byPage(names, pages, card) {
  const lanes = names.length ? [lane("names", null, names.map(card), "plain")] : [];
  return pages.length ? [...lanes, lane("pages", null, pages.map(card), "plain")] : lanes;
}

/** One card: a button, whose name says all that is on it. */
function cardOf(card, cards, light, { pick, texts }) {
  const lit = light.lit.has(card.take), torn = light.torn.has(card.take), state = torn ? "gone" : card.withdrawn ? "vanished" : card.state, chosen = light.chosen === card.take;
  const classes = ["card", `s-${state}`, card.kind === "name" && "name-card", (lit || torn) && "lit", chosen && "picked", light.dim && !torn && !chosen && "dim"];
  const chips = chipsOf(card, cards, torn ? light.torn.get(card.take) : light.lit.get(card.take), torn, texts), word = stateWord(card, state);
  const label = [card.title, card.kind === "page" && card.words, word, ...chips.map(c => c.dataset.said ?? c.textContent)].filter(Boolean).join(", ");
  const head = el("span", { class: "head" }, el("span", { class: "ttl", dir: "auto" }, shortened(card.title)), stateBadge(state, word));
  const words = card.kind === "page" ? card.words || "no words yet" : [card.role, card.was[0] && !card.withdrawn && `was ${card.was[0]}`].filter(Boolean).join(", ");
  return el("button", { type: "button", class: classes.filter(Boolean).join(" "), "data-card": card.take, "aria-label": label, "aria-pressed": String(chosen), onclick: () => pick(card.take) },
    head, el("span", { class: "txt", dir: "auto" }, isolated(shortened(words, 120))), el("span", { class: "chips" }, chips));
}

function stateWord(card, state) {
  if (card.withdrawn) return "withdrawn";
  return state === "draft" && card.blank ? "blank" : STATE_WORDS[state];
}

/** A card's state with its mark. */
export function cardBadge(card) {
  const state = card.withdrawn ? "vanished" : card.state;
  return stateBadge(state, stateWord(card, state));
}

function stateBadge(state, word) {
  return word === STATE_WORDS[state] ? badge(state, 16) : el("span", { class: `st s-${state}` }, mark(state, 16), word);
}

/** The chips of a card: what it was set from, what of that is old, and how it is reached. */
function chipsOf(card, cards, said, torn, texts) {
  const chips = [];
  if (said) chips.push(el("span", { class: `chip ${torn ? "reached" : "said"}` }, said));
  const [old] = card.older.values(), was = old && texts[old.text] ? `: \u201c${isolated(shortened(texts[old.text], 22))}\u201d` : "";
  if (old) chips.push(el("span", { class: "chip old", "data-said": `set from an older text${was}` }, mark("older", 14), was ? `older${was}` : "set from an older text"));
  if (!old && card.stale.length) chips.push(el("span", { class: "chip old", "data-said": staleWords(card) }, mark("older", 14), `says \u201c${isolated(shortened(card.stale[0].old, 22))}\u201d`));
  if (!said) for (const g of card.grounds) chips.push(el("span", { class: `chip ground s-${cards[g].state}` }, shortSpeaker(cards[g])));
  return chips;
}

const shortSpeaker = card => (card.kind === "page" ? card.title.replace(/^Page /, "p. ") : shortened(card.title, 24));

/** How wide a card must be so that no word of a title is broken or cut. */
function longestIn(host) {
  const wide = e => e.scrollWidth + 40;
  host.style.setProperty("--longest", "0px");
  return Math.max(0, ...[...host.querySelectorAll(".ttl")].filter(e => e.scrollWidth > e.clientWidth).map(wide));
}

/** Makes the cards smaller until they fit, and draws the lines between them. */
export function fit(host) {
  for (const old of host.querySelectorAll("svg.wires")) old.remove();
  for (let d = 0; d < DENSITIES; d++) {
    host.dataset.density = String(d);
    host.style.setProperty("--longest", `${longestIn(host)}px`);
    if (host.scrollHeight <= host.clientHeight) break;
  }
  drawWires(host, drawn.cards, drawn.light);
}
