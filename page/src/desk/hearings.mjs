// The list of hearings: with dates, searched by title, names and words; to be opened, doubled, saved as a file, or removed.
import { el, replace, byId } from "../shared/dom.mjs";
import { opener } from "../shared/files.mjs";
import { emptyHearing } from "../shared/hearing.mjs";
import { counted, isolated } from "../shared/names.mjs";
import { all, remove, restore } from "./journal.mjs";
import { dateOf, timeOf } from "./exports.mjs";
import { fileOf } from "./saving.mjs";
import { wish } from "./side.mjs";

/** All that is searched of a hearing. */
const contents = ({ title, takes, texts }) => [title, ...takes, ...Object.values(texts)].join("\n").toLocaleLowerCase();

/** @param {any} front */
export async function hearingsDialog(front) {
  const { desk } = front, dialog = byId("desk-dialog");
  await desk.keeper.keep("listed");
  const heads = await all(), found = await Promise.all(heads.map(async head => ({ head, hearing: (await restore(head.id))?.hearing }))), known = found.filter(f => f.hearing);
  const search = el("input", { type: "search", id: "hearings-search", "aria-label": "search hearings", placeholder: "Search titles, names and words", oninput: () => fill() }), list = el("ul", { class: "hearings" });
  const fill = () => {
    const asked = search.value.trim().toLocaleLowerCase(), shown = known.filter(f => contents(f.hearing).includes(asked));
    replace(list, shown.length ? shown.map(f => row(front, f)) : el("li", { class: "soft" }, known.length ? "No hearing has these words." : "No hearing yet."));
  };
  replace(dialog, el("div", { class: "sheet" }, el("h2", { id: "dialog-title" }, "Hearings"), search, list,
    el("div", { class: "foot" }, wish("New hearing", () => begun(front, emptyHearing(), "A new hearing."), { id: "hearings-new" }), opener("Open a file", (name, bytes) => opened(front, name, bytes), "hearings-open"),
      el("span", { class: "push" }), keeping(desk), wish("Close", () => dialog.close(), { id: "hearings-close" }))));
  fill();
  dialog.dataset.from = "front-hearings";
  if (!dialog.open) dialog.showModal();
  search.focus();
}

/** Who keeps the hearing on the desk: stands in its record beside each step. A log that came from elsewhere has its house already. */
function keeping(desk) {
  const field = el("input", { type: "text", id: "hearings-keeper", value: desk.hearing.house ?? "", placeholder: "your name", autocomplete: "off", disabled: Boolean(desk.hearing.log), onchange: () => desk.keptBy(field.value) });
  return el("label", { class: "keeping" }, "Kept by ", field);
}

/** Puts a hearing onto the desk as a new one of the list. */
function begun(front, hearing, words) {
  byId("desk-dialog").close();
  front.desk.begin(hearing, words);
}

function opened(front, name, bytes) {
  byId("desk-dialog").close();
  front.desk.openFile(name, bytes);
}

/** From when to when a hearing was worked on. */
function spanOf({ from, to }) {
  const first = `${dateOf(from)}, ${timeOf(from).slice(0, 5)}`, last = `${dateOf(to)}, ${timeOf(to).slice(0, 5)}`;
  return `${first} to ${dateOf(from) === dateOf(to) ? timeOf(to).slice(0, 5) : last}`;
}

function row(front, { head, hearing }) {
  const { desk } = front, mine = head.id === desk.keeper.id, now = () => (mine ? desk.hearing : hearing), title = hearing.title || "without a title", when = head.from ? spanOf(head) : "nothing done yet";
  const named = label => ({ class: "btn sm", "aria-label": `${label}: ${title}` });
  const gone = wish("Remove", async () => {
    if (gone.dataset.sure !== "true") {
      gone.dataset.sure = "true";
      gone.textContent = "Really remove?";
      return;
    }
    await remove(head.id);
    await hearingsDialog(front);
  }, { ...named("Remove"), off: mine ? "It is on the desk." : "" });
  return el("li", { "data-hearing": head.id }, el("span", { class: "what" }, el("b", { dir: "auto" }, isolated(title)), el("span", { class: "soft" }, `${when}; ${counted(hearing.takes.length, "card")}${mine ? "; on the desk" : ""}`)),
    wish("Open", () => reopened(front, head, hearing), { ...named("Open"), off: mine ? "It is on the desk." : "" }),
    wish("Duplicate", () => begun(front, { ...now(), title: `${title} (copy)` }, `A copy of ${title}.`), named("Duplicate")),
    wish("Save as a file", () => fileOf(now()), named("Save as a file")), gone);
}

function reopened(front, head, hearing) {
  byId("desk-dialog").close();
  front.desk.reopen(head, hearing);
}
