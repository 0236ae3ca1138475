// The bar over the board: the hearing's title and how it stands, the order of the cards, spreadsheet, record, undo and redo, details.
import { el, replace, byId, unpressed } from "../shared/dom.mjs";
import { mark, STATES, STATE_WORDS } from "../shared/marks.mjs";
import { wish } from "./side.mjs";

/** @param {any} front */
export function showFrontBar(front) {
  const { cards, ui, desk } = front, title = el("input", { type: "text", id: "front-title", "aria-label": "title of the hearing", placeholder: "Title of the hearing", value: desk.hearing.title, onchange: () => unpressed(() => desk.entitle(title.value)) });
  const counts = STATES.map(s => [s, cards.filter(c => c.state === s && !(c.blank && s === "draft")).length]).filter(([, n]) => n);
  const dead = cards.some(c => c.withdrawn || c.state === "vanished");
  const order = (name, words) => el("button", { type: "button", "data-order": name, "aria-pressed": String(ui.order === name), onclick: () => front.order(name) }, words);
  replace(byId("desk-top"), title,
    el("span", { class: "sum" }, counts.map(([s, n]) => el("span", { class: "st" }, mark(s, 17), `${n} ${STATE_WORDS[s]}`))),
    el("span", { class: "push" }),
    el("span", { class: "seg", role: "group", "aria-label": "order" }, order("speaker", "By speaker"), order("page", "By page")),
    dead && wish(ui.hide ? "Show withdrawn" : "Hide withdrawn", () => front.hide(), { class: "btn bare", id: "front-hide" }),
    front.tools(),
    wish("Undo", () => front.undo(), { class: "btn bare", id: "front-undo", off: desk.past.length ? "" : "Nothing to take back" }),
    wish("Redo", () => front.redo(), { class: "btn bare", id: "front-redo", off: desk.future.length ? "" : "Nothing to do again" }),
    wish("Details", () => front.details(), { class: "btn bare", id: "front-details" }));
}
