// The record for the file, on paper: title and date, a summary first, the names, the pages, and lines for signatures.
import { el, replace, byId } from "../shared/dom.mjs";
import { isolated } from "../shared/names.mjs";
import { cardBadge } from "./board-cards.mjs";
import { dateOf, timeOf, leftOf, summaryOf } from "./exports.mjs";
import { setFromIt } from "./cards.mjs";
import { listOf, staleWords } from "./saying.mjs";

const cell = words => el("td", { dir: "auto" }, words);

function table(heads, rows) {
  return el("table", {}, el("thead", {}, el("tr", {}, heads.map(h => el("th", { scope: "col" }, h)))), el("tbody", {}, rows.map(r => el("tr", {}, r.map(cell)))));
}

/** @param {any} front */
export function showRecord(front) {
  const { cards, desk } = front, names = cards.filter(c => c.kind === "name"), pages = cards.filter(c => c.kind === "page"), now = Date.now(), { times } = desk.hearing;
  const first = dateOf(times.find(Boolean)), last = dateOf(times.filter(Boolean).at(-1)), kept = !first ? "" : first === last ? `Worked on ${first}. ` : `Worked on from ${first} to ${last}. `;
  footing(`${desk.hearing.title || "Hearing"}: record of names and pages`);
  replace(byId("desk-record"), el("h1", {}, isolated(desk.hearing.title || "Hearing")), el("p", {}, `Record of names and pages, ${dateOf(now)}, ${timeOf(now).slice(0, 5)}. ${kept}${desk.hearing.house ? `Kept by ${isolated(desk.hearing.house)}.` : ""}`),
    el("h2", {}, "Summary"), summaryOf(front).map(w => el("p", {}, w)),
    names.length > 0 && [el("h2", {}, "Names"), table(["Name", "Role", "State", "Earlier spelling", "Pages set from it"], names.map(c => [el("b", {}, isolated(c.title)), c.role, cardBadge(c), c.was.join(", "), listOf(cards, setFromIt(cards, c.take).map(p => p.take))]))],
    pages.length > 0 && [el("h2", {}, "Pages"), table(["Page", "State", "Words", "Set from", "Left to do"], pages.map(c => [el("b", {}, c.title.replace(/^Page /, "")), cardBadge(c), wordsOf(c), listOf(cards, c.grounds), leftOf(front, c)]))],
    el("div", { class: "end" }, sumPart(front), el("div", { class: "signatures" }, ["Stenographer", "Date", "For the house", "Date"].map(w => el("span", {}, w)))));
}

const wordsOf = c => [isolated(c.words), c.older.size > 0 && el("b", { class: "old-word" }, " set from an older text"), c.stale.length > 0 && el("b", { class: "old-word" }, ` ${staleWords(c)}`)];

/** The last sum of the hearing's log, so that paper and file can be held together. */
function sumPart({ sum }) {
  return sum ? el("p", { class: "sum-line" }, "Last sum (SHA-256) of the log in the hearing\u2019s file: ", el("span", { class: "digits" }, sum.match(/.{8}/g).join(" "))) : null;
}

/** The hearing's title at the foot of each sheet. */
const foot = new CSSStyleSheet();

/** @param {string} title */
export function footing(title) {
  const plain = title.replace(/[^\p{L}\p{N} ,.;:()-]/gu, c => `\\${(c.codePointAt(0) ?? 32).toString(16)} `).slice(0, 200);
  foot.replaceSync(`@page { @bottom-left { content: "${plain}"; font: 9pt sans-serif; } }`);
  document.adoptedStyleSheets = [...document.adoptedStyleSheets.filter(s => s !== foot), foot];
}
