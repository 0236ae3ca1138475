// The panel beside the board: what is left to do in all; or the chosen card, with what can be wished of it. Buttons keep their places: what
// can't be done now is there, and says why.
import { el, button } from "../shared/dom.mjs";
import { mark } from "../shared/marks.mjs";
import { cardBadge } from "./board-cards.mjs";
import { counted, isolated } from "../shared/names.mjs";
import { toText } from "../../../bindings/js/notation.mjs";
import { readTake, life } from "../../../bindings/js/image.mjs";
import { writing, freezing } from "../shared/deeds.mjs";
import { reachedBy, roomOf, setFromIt } from "./cards.mjs";
import { settingFrom, signable, signingOf, withdrawingOf } from "./wishes.mjs";
import { inside, leftToDo, listOf, oldWords, staleWords } from "./saying.mjs";

/**
 * A button for a wish; a second click of a double one is nobody's wish.
 * @param {any} label
 * @param {() => any} act
 * @param {{[name: string]: any}} how off: why it can't be done now
 */
export function wish(label, act, { off = "", ...attributes } = {}) {
  const pressed = (/** @type {MouseEvent} */ e) => e.detail < 2 && act();
  return el("button", { type: "button", class: "btn", ...attributes, onclick: pressed, disabled: Boolean(off), title: off || null }, label);
}

/** What is asked: words, what is behind them, and two buttons, of which leaving it has the cursor. */
export function askPanel(ask) {
  const keep = wish(ask.keep, ask.leave, { class: "btn go", id: "ask-keep" });
  const yes = wish(ask.yes, ask.go, { class: ask.risk ? "btn risk" : "btn", id: "ask-yes" });
  return el("div", { class: "desk-panel", role: "alertdialog", "aria-labelledby": "ask-title" },
    el("h2", { id: "ask-title" }, ask.title), el("div", { class: "desk-told" }, ask.words, ask.list && behind(ask.list)), el("div", { class: "desk-acts" }, keep, yes));
}

/** The steps of a deed as the ledger reads them. */
export function behind(list, title = `Details: ${counted(list.length / 8, "step")}`) {
  return el("details", { class: "desk-behind" }, el("summary", {}, title), el("pre", {}, toText(list)));
}

const chipFor = (front, card, words = card.title) => el("button", { type: "button", class: `chip s-${card.state}`, "data-go": card.take, onclick: () => front.choose(card.take) }, mark(card.state, 14), isolated(words));

/** What is left to do in all. */
export function todoPanel(front) {
  const { cards, session } = front, live = cards.filter(c => c.state !== "vanished" && !c.withdrawn), signed = live.filter(c => c.state === "signed");
  const open = live.filter(c => !["signed", "gone"].includes(c.state) && !(c.blank && !c.grounds.length)), able = signable(session, open.map(c => c.take));
  const sign = able.length ? wish(`Sign ${able.length === open.length ? "everything" : counted(able.length, "card")}\u2026`, () => front.askSign(able), { class: "btn go", id: "sign-all" }) : null;
  return el("div", { class: "desk-panel" },
    el("h2", {}, "What is left to do"), meter(signed.length, live.length),
    el("div", { class: "desk-told" }, readyBox(front), olderBox(front), staleBox(front), goneBox(front), el("h3", {}, "To finish"), todoList(front, open)),
    el("div", { class: "desk-acts" }, sign ?? el("p", { class: "soft" }, live.length ? "Nothing is left to sign." : "Add a name below, or open an example.")));
}

function meter(done, all) {
  const bar = el("i", {});
  bar.style.width = `${all ? (100 * done) / all : 0}%`;
  return el("div", {}, el("div", { class: "meter", role: "img", "aria-label": `${done} of ${all} signed` }, bar), el("p", { class: "soft" }, `${done} of ${all} signed`));
}

/** A volume that could be signed now. */
function readyBox(front) {
  const { session, cards } = front, volumes = cards.filter(c => c.state === "frozen").map(c => session.smallestVolume(c.take)).filter(Boolean);
  if (!volumes.length) return null;
  const takes = [...new Set(volumes.flatMap(v => cards.map(c => c.take).filter(t => (v >> t) & 1)))];
  return el("div", { class: "box ready" }, el("p", {}, el("b", {}, "Ready to sign")), el("p", {}, listOf(cards, takes)),
    wish(takes.length > 1 ? `Sign these ${takes.length}\u2026` : "Sign it\u2026", () => front.askSign(takes), { class: "btn go", id: "sign-ready" }));
}

function olderBox(front) {
  const olds = front.cards.filter(c => c.older.size);
  if (!olds.length) return null;
  return el("div", { class: "box old" }, el("p", {}, mark("older", 18), el("b", {}, ` ${counted(olds.length, "card is", "cards are")} set from an older text`)),
    el("p", { class: "chips" }, olds.map(c => chipFor(front, c))), wish(olds.length > 1 ? "Set them again" : "Set it again", () => front.mendAll(), { id: "mend-all", off: front.mendable().length ? "" : "Each is frozen: sign it as it is, then set it again." }));
}

/** The pages whose words have an old spelling: each is chosen, and corrected there. */
function staleBox(front) {
  const stale = front.cards.filter(c => c.stale.length && !c.older.size);
  if (!stale.length) return null;
  return el("div", { class: "box old" }, el("p", {}, mark("older", 18), el("b", {}, ` ${counted(stale.length, "page has", "pages have")} an old spelling`)), el("p", { class: "chips" }, stale.map(c => chipFor(front, c))));
}

function goneBox(front) {
  const gone = front.cards.filter(c => c.state === "gone");
  if (!gone.length) return null;
  return el("div", { class: "box gone" }, el("p", {}, mark("gone", 18), el("b", {}, ` ${counted(gone.length, "card has", "cards have")} lost the ground`)),
    el("p", { class: "chips" }, gone.map(c => chipFor(front, c))), el("p", { class: "soft" }, "Set each again from what stands, or withdraw it."));
}

function todoList(front, open) {
  const k = c => {
    const list = signingOf(front.session, [c.take]), n = list ? leftToDo(front.cards, list).length : 0;
    return n === 1 ? "ready" : n ? counted(n, "step") : "see why";
  };
  const row = c => el("button", { type: "button", "data-go": c.take, onclick: () => front.choose(c.take) }, mark(c.state, 18), el("span", {}, isolated(c.title)), el("span", { class: "soft" }, k(c)));
  return open.length ? el("div", { class: "todo" }, open.map(row)) : el("p", { class: "soft" }, "Nothing.");
}

/** The chosen card. */
export function cardPanel(front, card) {
  const back = el("button", { type: "button", class: "backward", onclick: () => front.choose(null) }, "\u2039 All that is left");
  return el("div", { class: "desk-panel" }, back, el("h2", { dir: "auto" }, isolated(card.title)), el("p", { class: "desk-under" }, cardBadge(card), card.role && el("span", { class: "soft" }, card.role)),
    el("div", { class: "desk-told" }, wording(front, card), olderPart(front, card), card.kind === "page" ? fromPart(front, card) : null, pagesPart(front, card), leftPart(front, card), more(front, card)),
    acts(front, card));
}

/** The words of a page or the spelling of a name, to be written anew by Enter. */
function wording(front, card) {
  const label = card.kind === "name" ? "Spelling" : "Words", off = writing(front.session, card.take, 0) ? "" : reason(front, card);
  const field = wordsField(card, off, () => front.write(card, field.value));
  const go = wish(card.kind === "name" ? "Correct" : "Write", () => front.write(card, field.value), { off, id: "card-write", class: "btn sm" });
  const form = el("form", { class: "desk-line", onsubmit: e => (e.preventDefault(), front.write(card, field.value)) }, field, go);
  return el("div", {}, el("label", { for: "card-words" }, label), form, off && el("p", { class: "soft" }, off), card.was.length > 0 && el("p", { class: "soft" }, "Before: ", card.was.slice(0, 3).join(", ")));
}

/** A line for a name, and room for the words of a page, which enter writes too. */
function wordsField(card, off, write) {
  const how = { id: "card-words", disabled: Boolean(off), dir: "auto", autocomplete: "off" };
  if (card.kind === "name") return el("input", { type: "text", value: card.words, ...how });
  return el("textarea", { rows: Math.min(5, 1 + Math.ceil(card.words.length / 28)), ...how, onkeydown: (/** @type {KeyboardEvent} */ e) => {
    if (e.key !== "Enter" || e.shiftKey) return;
    e.preventDefault();
    write();
  } }, card.words);
}

/** Why a card changes no more. */
function reason(front, card) {
  if (card.state === "vanished") return "It vanished: it was never signed.";
  if (card.state === "frozen") return "It is frozen: it changes no more until it is signed.";
  return card.state === "gone" ? "Its ground was withdrawn: set it again, or withdraw it." : "The ledger would not take it.";
}

/** What is old in a page: the text that it was set from, and an old spelling in its words. */
function olderPart(front, card) {
  if (!card.older.size && !card.stale.length) return null;
  const frozen = card.state === "frozen", replace = s => wish(`Replace ${isolated(s.old)} by ${isolated(s.now)}`, () => front.respell(card, s), { class: "btn sm", "data-replace": s.old, off: !frozen && front.settingList(card, card.grounds) ? "" : reason(front, card) });
  return el("div", { class: "box old" }, oldWords(front.cards, [card.take], front.desk.hearing.texts).map(w => el("p", {}, w)),
    card.stale.length > 0 && el("p", {}, `${card.title} ${staleWords(card)}.`), card.stale.map(replace),
    card.older.size > 0 && wish(frozen ? "Sign it as it is, then set it again\u2026" : "Set it again", () => front.mend(card), { id: "card-mend", class: "btn sm" }));
}

/** What a page is set from: chips to be ticked, and one button. */
function fromPart(front, card) {
  const { session, cards, ui } = front, ticked = new Set(ui.from ?? card.grounds.filter(g => cards[g].state !== "vanished"));
  const able = cards.filter(c => c.take !== card.take && c.state !== "vanished" && (ticked.has(c.take) || settingFrom(session, card.take, [c.take], 0)));
  const toggle = c => el("button", { type: "button", class: `chip s-${c.state} tick`, "data-from": c.take, "aria-pressed": String(ticked.has(c.take)), onclick: () => front.tick(ticked, c.take) }, mark(ticked.has(c.take) ? "tick" : "plus", 12), isolated(c.title));
  const list = front.settingList(card, [...ticked]), off = list ? "" : able.length ? "Choose what it is set from." : reason(front, card);
  return el("div", {}, el("h3", {}, "Set from"), able.length ? el("div", { class: "chips" }, able.map(toggle)) : el("p", { class: "soft" }, reason(front, card)),
    wish(ticked.size ? `Set from ${listOf(cards, ticked)}` : "Set", () => front.set(card, [...ticked]), { off, id: "card-set", class: "btn sm wide" }));
}

/** The pages that were set from a card, directly and through others, signed ones too. */
function pagesPart(front, card) {
  const found = setFromIt(front.cards, card.take), direct = found.filter(c => c.grounds.includes(card.take)), through = found.filter(c => !direct.includes(c));
  if (card.kind === "page" && !found.length) return null;
  return el("div", {}, el("h3", {}, `Set from it: ${counted(found.length, "card")}`), direct.length > 0 && el("p", { class: "chips" }, direct.map(c => chipFor(front, c))),
    through.length > 0 && el("p", { class: "chips" }, el("span", { class: "soft" }, "through others: "), through.map(c => chipFor(front, c))));
}

/** What is left to do until it is signed. */
function leftPart(front, card) {
  const list = card.blank || card.state === "signed" || card.state === "vanished" ? null : signingOf(front.session, [card.take]);
  if (!list) return el("p", { class: "soft" }, unsigned(front, card));
  return el("div", {}, el("h3", {}, "Left to do until it is signed"), el("ol", { class: "desk-left" }, leftToDo(front.cards, list).map(w => el("li", {}, w))));
}

/** Why nothing is left, or nothing can be done. */
function unsigned(front, card) {
  if (card.state === "signed") return `Signed as \u201c${isolated(card.kind === "name" ? card.title : card.words)}\u201d. Nothing is left to do.`;
  if (card.state === "vanished") return "It was withdrawn before it was ever signed.";
  if (card.blank) return card.withdrawn ? "It was withdrawn. It can be put back, or written anew." : "It has no words yet.";
  const { kind, take, ground } = front.session.impediment(card.take);
  if (kind === "withdrawn") return `It rests on ${inside(front.cards[ground])} as it was before the withdrawal${take === card.take ? "" : `, through ${inside(front.cards[take])}`}: it can't be signed before it is set again.`;
  return kind === "all signed" ? `${front.cards[take].title} has no signing left of ${roomOf(front.session).signings}: continue in a fresh session.` : "It can't be signed now.";
}

function acts(front, card) {
  const { session } = front, plan = card.state === "signed" || card.blank ? null : signingOf(session, [card.take]), frozen = freezing(session, card.take), withdrawn = withdrawingOf(session, card.take);
  const kept = card.state === "signed" && !reachedBy(session, front.cards, card.take).size, held = card.state === "frozen" ? "It is frozen: it is held." : kept ? "It is signed, and that is kept: nothing would change." : reason(front, card), signedOff = card.state === "signed" ? "It is signed." : unsigned(front, card);
  return el("div", { class: "desk-acts" },
    wish("Sign\u2026", () => front.askSign([card.take]), { class: "btn go", id: "card-sign", off: plan ? "" : signedOff }),
    el("div", { class: "pair" },
      wish("Freeze", () => front.freeze(card), { id: "card-freeze", off: frozen && !card.blank ? "" : card.blank ? "It has no words yet." : card.state === "frozen" ? "It is frozen." : "It can't be frozen now." }),
      card.withdrawn ? wish("Put it back", () => front.putBack(card), { id: "card-back", off: card.was.length ? "" : "It had no words." })
        : wish("Withdraw\u2026", () => front.askWithdraw(card), { id: "card-withdraw", off: withdrawn && !kept ? "" : held })));
}

/** Behind "Details": lives, signings and the steps of what was done last. */
function more(front, card) {
  const { mark: own } = readTake(front.session.image, card.take), { signings } = roomOf(front.session), last = front.desk.past.at(-1)?.list;
  const blank = "One signing was used to open it blank: withdrawn, it goes back to that and does not vanish.";
  return el("details", { class: "desk-behind" }, el("summary", {}, "Details"),
    el("p", {}, `Take ${card.take}. ${own ? `Life ${life(own)}. ${signings - card.signings} of ${signings} signings left. ${card.signings ? blank : ""}` : ""}`),
    last ? el("div", {}, el("p", {}, "The steps of what was done last:"), el("pre", {}, toText(last))) : null,
    button("Show all steps, maps and parcels", () => front.details(), { class: "btn sm" }));
}
