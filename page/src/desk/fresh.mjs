// Continuing in a fresh session: what is chosen of the signed cards comes over as roots with their signed texts; the old hearing is kept.
import { el, replace, byId } from "../shared/dom.mjs";
import { Session, GREATEST } from "../../../bindings/js/ledger.mjs";
import { joined, packStep, readReply } from "../../../bindings/js/packed.mjs";
import { emptyHearing } from "../shared/hearing.mjs";
import { deed } from "../shared/deeds.mjs";
import { counted, isolated } from "../shared/names.mjs";
import { wish } from "./side.mjs";
import { listOf } from "./saying.mjs";

/** A root with a text, signed at once. */
const rooted = (session, text) => deed(session, t => {
  const { take } = t.step("root", { text });
  t.work(take);
  t.step("freeze", { take });
  t.step("sign", { parcel: 1 << take });
});

/** The hearing that goes on with these cards. */
export function continued(front, takes) {
  const { hearing, record } = front.desk, session = Session.begin(GREATEST), parts = [], heads = record.lastHeads;
  const fresh = { ...emptyHearing(GREATEST), title: `${hearing.title || "Hearing"} (continued)`, ...(hearing.house && { house: hearing.house }) };
  takes.forEach((t, i) => {
    const text = heads[t].saved, list = rooted(session, text);
    if (!list) throw new Error("the ledger does not open a card in a fresh session");
    session.runAll(list);
    parts.push(list);
    fresh.takes[i] = hearing.takes[t] || front.cards[t].title;
    fresh.about[i] = { ...hearing.about[t], kind: front.cards[t].kind };
    if (hearing.texts[text]) fresh.texts[text] = hearing.texts[text];
  });
  return { ...fresh, list: joined(parts) };
}

/** Whether a card has a signed text with words: its head says so, and that it was signed the record's heads. */
const carried = (front, c) => c.signings > 0 && front.desk.record.heads.at(-1)[c.take].saved !== 0 && readReply(front.session.copy().run(packStep("letter", { take: c.take })), 0).outcome !== 22;

/** @param {any} front */
export function freshDialog(front) {
  const dialog = byId("desk-dialog"), able = front.cards.filter(c => carried(front, c)), left = front.cards.filter(c => !able.includes(c)), chosen = new Set(able.filter(c => c.kind === "name").map(c => c.take));
  const said = el("p", { role: "status" }), go = wish("Continue", () => {
    dialog.close();
    front.desk.begin(continued(front, [...chosen].sort((a, b) => a - b)), `${counted(chosen.size, "card")} came over; the old hearing is in the list of hearings.`);
  }, { class: "btn go", id: "fresh-go" });
  const tell = () => (said.textContent = `${counted(chosen.size, "card comes", "cards come")} over with the signed text; room for ${16 - chosen.size} more.`);
  const box = c => el("label", { class: "carry" }, el("input", { type: "checkbox", value: c.take, checked: chosen.has(c.take), onchange: e => {
    if (e.target.checked) chosen.add(c.take);
    else chosen.delete(c.take);
    tell();
  } }), ` ${isolated(c.title)}`);
  tell();
  replace(dialog, el("div", { class: "sheet" }, el("h2", { id: "dialog-title" }, "Continue in a fresh session"),
    el("p", {}, "Choose the signed cards that come over. Each starts anew as a signed card with its signed text."), el("div", { class: "carries" }, able.map(box)), said,
    el("p", {}, `What does not come over: drafts and frozen words, what rests on what, and the steps so far.${left.length ? ` Without a signed text: ${listOf(front.cards, left.map(c => c.take))}.` : ""} The old hearing stays as it is in the list of hearings.`),
    el("div", { class: "foot" }, el("span", { class: "push" }), wish("Leave it", () => dialog.close(), { id: "fresh-leave" }), go)));
  dialog.dataset.from = "desk-fresh";
  dialog.showModal();
  byId("fresh-leave").focus();
}
