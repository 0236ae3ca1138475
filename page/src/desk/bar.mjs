// The desk's bar: title, names of takes, files, limits of a new hearing.
import { el, replace, byId, button } from "../shared/dom.mjs";
import { back, GREATEST, Refusal } from "../../../bindings/js/ledger.mjs";
import { readImage } from "../../../bindings/js/image.mjs";
import { toText, imageText } from "../../../bindings/js/notation.mjs";
import { save, opener } from "../shared/files.mjs";
import { toFile } from "../shared/hearing.mjs";
import { namedText } from "../shared/listing.mjs";
import { tell } from "./notices.mjs";
import { counted } from "../shared/names.mjs";

// A file's name has room for so many letters of a title.
const LONGEST_NAME = 60;

export function showBar(desk) {
  const { hearing, record } = desk, open = Array.from(document.querySelectorAll("#desk-bar details[open]"), d => d.id);
  const part = (id, title, ...children) => el("details", { id, open: open.includes(id) }, el("summary", {}, title), children);
  const entitled = { value: hearing.title, onchange: () => desk.entitle(title.value) };
  const title = el("input", { type: "text", id: "desk-title", placeholder: "title", ...entitled });
  const undo = button("undo the last step", () => desk.undo(), { id: "desk-undo", disabled: !record.length });
  const shorter = "Leaves out refused steps, and reads that nothing used; what the ledger holds stays as it is.";
  const left = record.length - desk.thinned().length / 8, label = `thin the list: leave out ${counted(left, "step")}`;
  const thin = button(label, () => desk.thin(), { id: "desk-thin", title: shorter, hidden: left === 0 });
  const { takes, parcels, signings } = readImage(record.at(0).image).limits;
  const room = `room for ${counted(takes, "take")}, ${counted(parcels, "parcel")}, ${counted(signings, "signing")}`;
  replace(
    byId("desk-bar"),
    el("p", {}, el("label", {}, "Hearing ", title)),
    el("p", { class: "soft" }, `${counted(record.length, "step")}; ${room}`),
    el("p", {}, undo, " ", thin),
    el("div", { id: "desk-done" }),
    part("desk-names", "names of takes", namesTable(desk)),
    part("desk-files", "open and save", files(desk, part)),
    part("desk-new", "new hearing", fresh(desk)),
  );
}

function namesTable(desk) {
  const heads = desk.record.heads.at(-1);
  if (!heads.length) return el("p", { class: "soft" }, "No take is opened yet.");
  const named = t => ({ value: desk.hearing.takes[t] ?? "", onchange: e => desk.rename(t, e.target.value) });
  const field = t => el("input", { type: "text", "data-rename": t, ...named(t) });
  return heads.map((_, t) => el("p", {}, el("label", {}, `${t} `, field(t))));
}

function files(desk, part) {
  const { hearing, record } = desk, base = (hearing.title || "hearing").replace(/[^\p{L}\p{M}\p{N}_-]+/gu, "-").slice(0, LONGEST_NAME);
  const lines = () => toText(hearing.list).split("\n").slice(0, -1), saved = el("p", { role: "status", class: "soft" });
  const saver = (label, id, ending, content, type) => [button(label, () => {
    save(`${base}.${ending}`, content(), type);
    saved.textContent = `Saved as ${base}.${ending}.`;
  }, { id }), " "];
  return [
    el("p", {}, opener("open a file", (name, bytes) => desk.openFile(name, bytes), "desk-open")),
    el("p", {}, saver("save the hearing (steps, names, words)", "save-desk", "json", () => toFile(hearing), "application/json")),
    part("desk-forms", "other forms", el("p", {},
      saver("save the step list, without words", "save-text", "steps", () => namedText(lines(), record, desk.names), "text/plain"),
      saver("save packed list", "save-list", "list", () => hearing.list),
      saver("save image", "save-image", "image", () => record.end.image),
      button("save old image", () => saveOld(base, record, saved), { id: "save-old" }), " ",
      saver("save image in words", "save-words", "txt", () => imageText(record.end.image), "text/plain"))),
    saved,
    el("p", {}, button("check against the second engine", () => desk.hold(), { id: "desk-hold" }), " ", button("print", () => print())),
  ];
}

function saveOld(base, record, saved) {
  try {
    save(`${base}.old-image`, back(record.end.image));
    saved.textContent = `Saved as ${base}.old-image.`;
  } catch (e) {
    if (!(e instanceof Refusal)) throw e;
    tell(e.message);
  }
}

function fresh(desk) {
  const field = name => el("input", { type: "number", min: 1, max: GREATEST[name], value: GREATEST[name], id: `new-${name}` });
  const fields = Object.keys(GREATEST).map(name => [name, field(name)]);
  const limits = () => Object.fromEntries(fields.map(([name, input]) => [name, Math.trunc(Number(input.value))]));
  const labels = fields.map(([name, input]) => [el("label", {}, `${name} `, input), " "]);
  return el("p", {}, labels, button("begin", () => desk.beginWith(limits()), { id: "desk-begin" }));
}
