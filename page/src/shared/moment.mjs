// The moment after a step: the reply in words, why, the takes with their maps, the parcels, and what a withdrawal would cost.
import { el, replace, heading, button, focusIn } from "./dom.mjs";
import { readImage, life, markWords, MAPS } from "../../../bindings/js/image.mjs";
import { capital } from "./names.mjs";
import { effect, tone, verdict, kindOf, NOT_READY, REFUSED } from "./words.mjs";
import { whyNot, receiptReason } from "./reasons.mjs";
import { packStep } from "../../../bindings/js/packed.mjs";
import { trial } from "./offered.mjs";
import { costWords } from "./withdrawal.mjs";
import { twoSets } from "./sets.mjs";
import { looks } from "./looking.mjs";

const WORDS = { class: "words" };
const differs = (a, b) => JSON.stringify(a) !== JSON.stringify(b);

/**
 * Fills host with the moment after count steps, of which shown can be looked at; go(by) goes so many on.
 */
export function showMoment(host, record, count, line, names, { go, shown }) {
  const session = record.at(count), now = readImage(session.image), before = count ? readImage(record.at(count - 1).image) : now;
  const focused = focusIn(host);
  replace(
    host,
    heading(count ? `After step ${count}` : "Before the first step", 2),
    pager(count, shown, go),
    count ? saidOf(record, count, line, names) : el("p", {}, "A fresh session, or the one that was opened."),
    whyPart(record, count, names),
    looks(record, count, names),
    heading("Takes"),
    takesTable(now, before, names),
    heading("Parcels waiting"),
    parcelsTable(now, before, names),
    heading("What if this take is withdrawn now?"),
    costTable(session, now, names),
  );
  focused(host.querySelector(".pager button:enabled") ?? host);
}

/** To the step before and the next one, where the picture is out of view. */
function pager(count, shown, go) {
  const to = (label, by, off) => button(label, () => go(by), { "data-by": by, disabled: off });
  return el("p", { class: "pager" }, to("step before", -1, count === 0), " ", to("next step", 1, count >= shown));
}

function saidOf(record, count, line, names) {
  const { step, reply } = record.before(count);
  const sentence = ` ${capital(effect(step, reply, names))}.`;
  return el("p", { class: "said" }, el("code", {}, line), " ", el("strong", { class: `verdict ${tone(reply)}` }, verdict(reply)), ".", sentence);
}

/** Why the ledger replied so; at a signing with the two sets that it compares. */
function whyPart(record, count, names) {
  if (!count) return null;
  const { step, reply } = record.before(count), kind = kindOf(step), sets = () => twoSets(record.at(count - 1), step.parcel, names, {});
  if (kind === "sign" && reply.outcome === 0) return [heading("What was compared"), sets()];
  if (kind === "sign" && reply.outcome === NOT_READY) {
    const { why, help } = whyNot(record, count, step.parcel, names);
    return [heading("Why not ready"), el("ul", { class: "why" }, [...why, ...help].map(s => el("li", {}, s))), sets()];
  }
  if (kind !== "receive" || reply.outcome >= REFUSED) return null;
  const said = receiptReason(record, count, names);
  return said && [heading("What decided"), el("p", { class: "why" }, said)];
}

const changedWord = () => el("span", { class: "unseen" }, " (changed)");

/** A cell that says whether it changed in this step. */
function cell(words, changed, attributes = {}) {
  const classes = [attributes.class, changed && "changed"].filter(Boolean).join(" ");
  return el("td", { ...attributes, class: classes || null }, words, changed && changedWord());
}

function headRow(...words) {
  return el("thead", {}, el("tr", {}, words.map(w => el("th", { scope: "col" }, w))));
}

function takesTable(now, before, names) {
  if (!now.takes.length) return el("p", { class: "soft" }, "No take is opened yet.");
  const rows = now.takes.map((take, t) => takeRows(take, before.takes[t], t, names));
  return el("table", { class: "takes" }, headRow("take", "status", "text", "signed text", "mark (L; n)"), rows);
}

function takeRows(take, old, t, names) {
  const name = el("th", { scope: "row" }, names.numbered(t)), status = cell(take.status, take.status !== old?.status, { "data-label": "status" });
  if (take.status === "vanished") {
    return el("tbody", {}, el("tr", {}, name, status, el("td", { colspan: 3, class: "soft" }, "only its status is left")));
  }
  const maps = el("td", { colspan: 5 }, MAPS.map(map => mapLine(map, take[map], old?.[map], names)));
  return el("tbody", {}, el("tr", {}, name, status, textCells(take, old, names), markCell(take, old)), el("tr", { class: "maps" }, maps));
}

function textCells(take, old, names) {
  const signed = take.mark.list.length ? names.bare(take.saved) : "never";
  const signedAnew = take.saved !== old?.saved || differs(take.mark.list, old?.mark?.list);
  const [text, saved] = ["text", "signed text"].map(label => ({ ...WORDS, "data-label": label }));
  return [cell(names.bare(take.text), take.text !== old?.text, text), cell(signed, signedAnew, saved)];
}

function markCell(take, old) {
  const frozen = take.mark.frozen && el("span", { class: "frozen-word" }, " frozen");
  const title = "L: the life numbers at which it was signed; n: its falls since. How often it has fallen in all: add them up.";
  return cell([el("span", { class: "life-word", title }, life(take.mark)), frozen], differs(take.mark, old?.mark), { "data-label": "mark" });
}

/** A map's marks; those that this step brought or changed are marked. */
function mapLine(name, map, old, names) {
  const marks = map.map((mark, u) => ({ mark, u, changed: differs(mark, old?.[u] ?? null) })).filter(m => m.mark);
  const emptied = !marks.length && old?.some(Boolean);
  const none = el("span", { class: emptied ? "changed soft" : "soft" }, emptied ? "emptied" : "empty");
  return el("div", { class: "map" }, el("span", { class: "map-name" }, `${name} map: `), marks.length ? chips(marks, names) : none);
}

function chips(marks, names) {
  return marks.map(({ mark, u, changed }) => {
    const classes = `life-chip${mark.frozen ? " frozen-mark" : ""}${changed ? " changed" : ""}`;
    return [el("span", { class: classes }, `${names.take(u)} ${markWords(mark)}`, changed && changedWord()), " "];
  });
}

function parcelsTable(now, before, names) {
  if (!now.parcels.length) return el("p", { class: "soft" }, before.parcels.length ? "None any more." : "None.");
  const known = new Set(before.parcels.map(p => p.number));
  const rows = now.parcels.map(p => {
    const marks = p.map.map((mark, u) => ({ mark, u, changed: false })).filter(m => m.mark);
    const map = marks.length ? chips(marks, names) : el("span", { class: "soft" }, "empty");
    const number = cell(p.number, !known.has(p.number));
    return el("tr", {}, number, el("td", WORDS, names.take(p.to)), el("td", WORDS, names.bare(p.text)), el("td", WORDS, map));
  });
  return el("table", {}, headRow("parcel", "for", "text", "its map"), el("tbody", {}, rows));
}

function costTable(session, now, names) {
  const live = now.takes.map((_, t) => t).filter(t => now.takes[t].status !== "vanished");
  if (!live.length) return el("p", { class: "soft" }, "There is no take to withdraw.");
  const held = t => tone(trial(session, packStep("fail", { take: t }))) === "held" && "It is frozen, and does not fall of itself. ";
  const row = t => el("tr", {}, el("th", { scope: "row" }, names.numbered(t)), el("td", {}, held(t), costWords(session, t, names).join(" ")));
  return el("table", { class: "cost" }, el("tbody", {}, live.map(row)));
}
