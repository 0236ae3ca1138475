// The dialog for spreadsheets: rows that come in, each with how it is read; and what goes out.
import { el, replace, byId } from "../shared/dom.mjs";
import { mark } from "../shared/marks.mjs";
import { save, opener } from "../shared/files.mjs";
import { counted, isolated } from "../shared/names.mjs";
import { roomOf } from "./cards.mjs";
import { decoded, sheetOf, csvOf } from "./sheet.mjs";
import { namesSheet, pagesSheet, restsSheet, recordSheet } from "./exports.mjs";
import { opening } from "./wishes.mjs";
import { baseOf } from "./saving.mjs";
import { wish } from "./side.mjs";

const NAMED = ["Name", "Role, spelling", "First page", "Reading"], PAGED = ["Page", "Words", "Set from", "Reading"];
const plain = word => word.toLocaleLowerCase().replace(/[.\s]/g, "");

/** How each row is read: a name or page that is new, is here already, or is not known. */
export function readingOf(cards, text) {
  const { pages, rows } = sheetOf(text), known = cards.filter(c => c.kind === "name"), seen = new Set();
  const nameOf = word => known.find(c => c.title === word) ?? known.find(c => plain(c.title) === plain(word));
  const read = row => (pages ? pageRow(row, cards, nameOf) : nameRow(row, nameOf));
  return rows.map(row => {
    const found = read(row), twice = seen.has(found.title);
    seen.add(found.title);
    return twice && found.note === "new" ? { ...found, note: "here", said: "twice" } : found;
  });
}

function nameRow({ name, role = "", spelling = "", first = "" }, nameOf) {
  const title = name || spelling, words = spelling || name, known = nameOf(words) ?? nameOf(title);
  return { kind: "name", title, words, role, first, grounds: [], note: known ? "here" : "new", said: known ? "is here already" : "new name" };
}

function pageRow({ page, from = "", name = "", words = "" }, cards, nameOf) {
  const title = /^\d/.test(page) ? `Page ${page}` : page, asked = from || name, number = /^p(?:age|\.)? ?(\d\S*)$/i.exec(asked)?.[1];
  const ground = number ? cards.find(c => c.title === `Page ${number}`) : asked ? nameOf(asked) : null;
  const here = cards.some(c => c.title === title), said = here ? "is here already" : asked && !ground ? `\u201c${isolated(asked)}\u201d is no name here` : ground && ground.title !== asked && !number ? `taken as ${ground.title}` : "new page";
  return { kind: "page", title, words, role: "", first: asked, grounds: ground ? [ground.take] : [], note: here ? "here" : "new", said };
}

/** @param {any} front */
export function spreadsheetDialog(front) {
  const dialog = byId("desk-dialog"), area = el("textarea", { id: "sheet-rows", spellcheck: "false", "aria-label": "rows of the spreadsheet", placeholder: "name\trole\tspelling\tfirst page", oninput: () => fill() });
  const table = el("div", { class: "scroll", tabindex: "0", role: "group", "aria-label": "how the rows are read" }), without = new Set();
  const go = wish("Add", () => added(front, comingOf(front, area.value, without), dialog, area), { class: "btn go", id: "sheet-add" }), fill = () => showReading(front, area.value, table, go, without);
  const file = opener("Open a CSV file", (name, bytes) => {
    area.value = decoded(bytes);
    fill();
  }, "sheet-file");
  replace(dialog, el("div", { class: "sheet" }, el("h2", { id: "dialog-title" }, "Spreadsheet"),
    el("p", {}, "Copy the rows of a spreadsheet and paste them here, or open a CSV file: name, role, spelling, first page. Pages come in where a head says page, set from, words. Nothing is signed by this."),
    el("div", { class: "two" }, area, table), el("div", { class: "foot" }, file, el("span", { class: "push" }), go),
    el("h3", {}, "Out of the desk, as CSV"), el("div", { class: "foot" }, outputs(front), el("span", { class: "push" }), wish("Close", () => dialog.close(), { id: "sheet-close" }))));
  fill();
  dialog.dataset.from = "front-sheet";
  dialog.showModal();
  area.focus();
}

/** The rows that are new and were not left out by hand. */
const comingOf = (front, text, without) => readingOf(front.cards, text).filter(r => r.note === "new" && !without.has(r.title));

/** A row's card, with a box to leave it out. */
function boxFor(r, without, changed) {
  if (r.note !== "new") return isolated(r.title);
  const box = el("input", { type: "checkbox", checked: !without.has(r.title), onchange: () => {
    if (box.checked) without.delete(r.title);
    else without.add(r.title);
    changed();
  } });
  return el("label", {}, box, " ", isolated(r.title));
}

function showReading(front, text, table, go, without) {
  const rows = readingOf(front.cards, text), { left } = roomOf(front.session), said = el("p", { class: "warned", role: "status" });
  const tally = () => {
    const n = comingOf(front, text, without).length, room = Math.max(left, 0), over = n - room;
    said.textContent = over > 0 ? `This session has room for ${counted(room, "more card")}: the first ${room} come in, the other ${over} stay here for a fresh session. Or untick what is not needed here.` : "";
    go.disabled = !n || left <= 0;
    go.textContent = n ? `Add ${counted(Math.min(n, room), "card")}` : "Add";
  };
  const row = r => el("tr", {}, el("td", {}, boxFor(r, without, tally)), el("td", {}, isolated(r.kind === "name" ? [r.role, r.words !== r.title && r.words].filter(Boolean).join(", ") : r.words)), el("td", {}, r.first),
    el("td", {}, r.note === "new" ? mark("plus", 12) : mark("tick", 14), ` ${r.said}`));
  replace(table, rows.length ? el("table", {}, el("thead", {}, el("tr", {}, (rows[0].kind === "name" ? NAMED : PAGED).map(h => el("th", { scope: "col" }, h)))), el("tbody", {}, rows.map(row))) : el("p", { class: "soft" }, "How each row is read is shown here."), said);
  tally();
}

/** Adds the rows that are new and find room, as one deed; the others stay in the dialog. */
function added(front, fresh, dialog, area) {
  const { left } = roomOf(front.session), session = front.session.copy(), parts = [], first = front.cards.length;
  const come = fresh.slice(0, left);
  for (const row of come) {
    const list = opening(session, front.number(row.words), row.grounds);
    if (!list) break;
    session.runAll(list);
    parts.push(...list);
  }
  front.do(`${counted(come.length, "card")} came in from the spreadsheet.`, Uint8Array.from(parts), { edit: hearing => come.forEach((row, i) => {
    hearing.takes[first + i] = row.title;
    hearing.about[first + i] = { kind: row.kind, ...(row.role && { role: row.role }), ...(row.kind === "name" && row.first && { first: row.first }) };
  }) });
  if (fresh.length > come.length) area.value = csvOf([["name", "role", "spelling", "first page"], ...fresh.slice(come.length).map(r => [r.title, r.role, r.words, r.first])]).slice(1);
  else (dialog.close(), front.backFrom());
}

function outputs(front) {
  const base = baseOf(front.desk.hearing.title);
  const out = (label, name, rows) => wish(label, () => save(`${base}-${name}.csv`, csvOf(rows(front)), "text/csv"), { class: "btn sm", id: `out-${name}` });
  return [out("Names", "names", namesSheet), out("Pages", "pages", pagesSheet), out("What rests on what", "rests", restsSheet), out("The record of steps", "record", recordSheet)];
}
