// The front of the desk: cards for names and pages, and one deed for each wish. It asks the library what a deed does before it offers it.
import { el, replace, byId, announce, focusIn } from "../shared/dom.mjs";
import { joined, readReply } from "../../../bindings/js/packed.mjs";
import { textNumber } from "../shared/hearing.mjs";
import { toLog } from "../shared/log.mjs";
import { writing, freezing } from "../shared/deeds.mjs";
import { capital, counted, isolated } from "../shared/names.mjs";
import { FALLEN_BACK } from "../shared/words.mjs";
import { cardsOf, reachedBy, roomOf, setFromIt } from "./cards.mjs";
import { showBoard, fit } from "./board-cards.mjs";
import { askPanel, cardPanel, todoPanel, wish } from "./side.mjs";
import { mending, opening, settingFrom, signingOf, withdrawingOf } from "./wishes.mjs";
import { inShort, inside, listOf, oldWords, signingWords, staleWords } from "./saying.mjs";
import { respelled } from "./spellings.mjs";
import { showAdding } from "./adding.mjs";
import { showFrontBar } from "./frontbar.mjs";
import { keysOf } from "./keys.mjs";
import { exampleHearing } from "./example.mjs";
import { spreadsheetDialog } from "./spreadsheet.mjs";
import { hearingsDialog } from "./hearings.mjs";
import { showRecord } from "./printing.mjs";

// So long, in milliseconds, it is said what was done.
const SHOWN = 8000;
// So long after the last deed, in milliseconds, the sum of the log is computed.
const CALM = 400;

/** @typedef {{title: string, words: any, yes: string, keep: string, risk: boolean, list: Uint8Array | null, reach: Map<number, string> | null, take: number | null, leave: () => void, go: () => void}} Asked */
/** @typedef {{name: string, page: string, words: string, grounds: Set<number>, touched: boolean}} Adding */

export class Front {
  /** @type {{chosen: number | null, ask: Asked | null, order: string, hide: boolean, from: number[] | null, adding: Adding}} */
  ui = { chosen: null, ask: null, order: "speaker", hide: false, from: null, adding: { name: "", page: "", words: "", grounds: new Set(), touched: false } };

  /** @param {any} desk */
  constructor(desk) {
    this.desk = desk;
    /** @type {import("./cards.mjs").Card[]} */
    this.cards = [];
    document.addEventListener("keydown", e => keysOf(this, e));
    /** The last sum of the hearing's log, once it is computed. */
    this.sum = "";
    window.addEventListener("beforeprint", () => this.desk.face === "desk" && showRecord(this));
    byId("desk-dialog").addEventListener("close", () => this.backFrom());
    new ResizeObserver(() => byId("desk-lanes").dataset.density && fit(byId("desk-lanes"))).observe(byId("desk-lanes"));
  }

  get session() {
    return this.desk.record.end;
  }

  /** Draws all of it, and leaves the cursor where it was. */
  refresh() {
    const focused = focusIn(byId("desk")), { record, hearing } = this.desk;
    this.cards = cardsOf(record, hearing);
    if (this.ui.chosen !== null && !this.cards[this.ui.chosen]) this.ui.chosen = null;
    showFrontBar(this);
    showAdding(this);
    this.draw();
    this.sum = "";
    clearTimeout(this.idle);
    this.idle = setTimeout(() => this.summed(), CALM);
    focused(document.querySelector(`#desk-lanes [data-card="${this.ui.chosen}"]`) ?? byId("add-name") ?? byId("desk-fresh"));
  }

  /** Has the last sum of the hearing's log, for the record on paper. */
  async summed() {
    const { hearing, record } = this.desk, log = await toLog(hearing, record);
    if (record === this.desk.record) this.sum = log?.sum ?? "";
  }

  async print() {
    await this.summed();
    print();
  }

  /** Draws the board and the panel. */
  draw() {
    const { ui, cards } = this, chosen = ui.chosen === null ? null : cards[ui.chosen];
    showBoard(byId("desk-lanes"), cards, this.light(), { order: ui.order, hide: ui.hide, texts: this.desk.hearing.texts, pick: take => this.choose(ui.chosen === take ? null : take) });
    replace(byId("desk-side"), ui.ask ? askPanel(ui.ask) : chosen ? cardPanel(this, chosen) : cards.length ? todoPanel(this) : this.welcome());
  }

  /** What is lit: what a withdrawal would reach; or what the chosen card rests on, and what was set from it. */
  light() {
    const { ui, cards } = this, none = new Map();
    if (ui.ask?.reach) return { chosen: ui.ask.take, lit: none, torn: ui.ask.reach, dim: true };
    const card = ui.chosen === null ? null : cards[ui.chosen];
    if (!card) return { chosen: null, lit: none, torn: none, dim: false };
    const from = setFromIt(cards, card.take).map(c => [c.take, c.grounds.includes(card.take) ? "set from it" : `through ${inside(cards[c.below.get(card.take)[0]])}`]);
    return { chosen: card.take, lit: new Map(card.kind === "name" ? from : [...card.below.keys()].map(t => [t, ""])), torn: none, dim: false };
  }

  /** An empty desk. */
  welcome() {
    const example = wish("Open an example hearing", () => this.example(), { class: "btn go", id: "desk-example" });
    return el("div", { class: "desk-panel" }, el("h2", {}, "A new hearing"),
      el("div", { class: "desk-told" }, el("p", {}, "Write the names of the speakers, then the pages, and say what each page is set from. The desk keeps which page rests on which name, and what is left until all is signed."),
        el("p", {}, "Names in a spreadsheet come in by Spreadsheet, at the top.")), el("div", { class: "desk-acts" }, example));
  }

  example() {
    this.desk.note("The example hearing is open.");
    this.desk.take(exampleHearing());
    this.say("The example hearing is open.");
  }

  /** After a dialog the cursor is where it was opened from; that button may have been drawn anew. */
  backFrom() {
    const dialog = byId("desk-dialog"), now = document.activeElement;
    if (now === document.body || dialog.contains(now)) (byId(dialog.dataset.from) ?? byId("add-name") ?? byId("front-undo")).focus();
  }

  order(name) {
    this.ui.order = name;
    this.refresh();
  }

  hide() {
    this.ui.hide = !this.ui.hide;
    this.refresh();
  }

  /** The deeds of the whole hearing. */
  tools() {
    return [wish("Hearings", () => hearingsDialog(this), { class: "btn bare", id: "front-hearings" }), wish("Spreadsheet", () => spreadsheetDialog(this), { class: "btn bare", id: "front-sheet" }), wish("Print record", () => this.print(), { class: "btn bare", id: "front-print" })];
  }

  choose(take, focus = true) {
    Object.assign(this.ui, { chosen: take, ask: null, from: null });
    this.draw();
    if (focus && take !== null) /** @type {any} */ (document.querySelector(`#desk-lanes [data-card="${take}"]`))?.focus();
    if (focus && take === null) byId("desk-side").querySelector("button")?.focus();
  }

  /** Goes to the view with all steps. */
  details() {
    location.hash = "#view=details";
  }

  /**
   * Does a deed: its steps become part of the hearing.
   * @param {string} words
   * @param {Uint8Array | null} list
   * @param {{edit?: ((hearing: any) => void) | null, signs?: boolean, ticks?: number[] | null}} how ticks: what is ticked still, and not set yet
   */
  do(words, list, { edit = null, signs = false, ticks = null } = {}) {
    if (!list) return announce("The ledger does not take it.");
    this.ui.ask = null;
    this.ui.from = ticks;
    this.desk.change(words, list, { edit, signs });
    return this.say(words);
  }

  /** Says what was done, with a way back. */
  say(words, undo = true) {
    replace(byId("desk-toast"), el("span", {}, words), undo && wish("Undo", () => this.undo(), { class: "btn sm", id: "toast-undo" }));
    announce(words);
    clearTimeout(this.fading);
    this.fading = setTimeout(() => replace(byId("desk-toast")), SHOWN);
  }

  /** The number of some words as a text; kept with the hearing by whoever does the deed. */
  number(words) {
    return textNumber(this.desk.hearing, words, this.desk.used());
  }

  write(card, words) {
    const wanted = words.trim();
    if (!wanted || wanted === card.words) return;
    const texts = { ...this.desk.hearing.texts }, list = writing(this.session, card.take, this.number(wanted)), marked = setFromIt(this.cards, card.take).filter(c => c.state !== "gone").length;
    const said = card.kind === "name" ? `Now \u201c${isolated(wanted)}\u201d.${marked ? ` ${counted(marked, "card")} set from the old spelling ${marked === 1 ? "is" : "are"} marked.` : ""}` : `${card.title} is written.`;
    if (!list) this.desk.hearing.texts = texts;
    this.do(said, list, { ticks: this.ui.from });
  }

  /** The steps by which a page is set from these; where one is left away, what it was set from before is withdrawn first. */
  settingList(card, grounds, text = this.desk.record.lastHeads[card.take].text) {
    const { state, grounds: had } = card, anew = had.some(g => !grounds.includes(g));
    return grounds.length && state !== "vanished" ? settingFrom(this.session, card.take, grounds, text, anew) : null;
  }

  tick(ticked, take) {
    if (ticked.has(take)) ticked.delete(take);
    else ticked.add(take);
    const focused = focusIn(byId("desk-side"));
    this.ui.from = [...ticked];
    this.draw();
    focused(byId("card-set"));
  }

  set(card, grounds) {
    this.do(`${card.title} is set from ${listOf(this.cards, grounds)}.`, this.settingList(card, grounds, this.textFor(card)));
  }

  /** The text that a page gets when it is set again: its own, or what it had before it lost its ground. */
  textFor(card) {
    const own = this.desk.record.lastHeads[card.take].text;
    return own || (card.was.length ? this.number(card.was[0]) : 0);
  }

  freeze(card) {
    this.do(`${card.title} is frozen.`, freezing(this.session, card.take));
  }

  putBack(card) {
    this.do(`${card.title} is back.`, writing(this.session, card.take, this.number(card.was[0])));
  }

  /** The cards set from an older text that can be set again without a signing. */
  mendable() {
    return this.cards.filter(c => c.older.size && c.state !== "frozen").sort((a, b) => a.below.size - b.below.size);
  }

  mend(card) {
    if (card.state !== "frozen") return this.mendAll(this.mendable().filter(c => c.take === card.take || card.below.has(c.take)));
    const list = mending(this.session, card.take, card.grounds, this.textFor(card));
    const words = ["It is frozen, so it can only be signed as it is. Then it is set again from what stands, and signed once more when you like."];
    return this.ask({ title: `Sign ${inside(card)} as it is?`, words: words.map(w => el("p", {}, w)), yes: "Sign and set again", list, said: `${card.title} is signed as it was, and set again.`, signs: true });
  }

  /** Writes the present spelling into a page's words, and sets it again; one deed. */
  respell(card, { old, now }) {
    const text = this.number(respelled(card.words, old, now)), below = this.mendable().filter(c => c.take !== card.take && card.below.has(c.take));
    this.again([...below, card], `${card.title} says ${isolated(now)}, and is set again.`, this.againList([...below, card], c => (c === card ? text : this.textFor(c))));
  }

  /** Sets all that is old again, or some of it, those below first; one deed. */
  mendAll(olds = this.mendable()) {
    this.again(olds, `${counted(olds.length, "card is", "cards are")} set again.`, this.againList(olds));
  }

  /** Sets cards again; where some of them are signed it is asked first. */
  again(olds, said, list) {
    const signed = olds.filter(c => c.state === "signed"), one = signed.length === 1, which = listOf(this.cards, signed.map(c => c.take));
    if (!signed.length || !list) return this.do(said, list);
    const words = [el("p", {}, `${one ? "It" : "They"} must then be signed anew.`)];
    return this.ask({ title: `${capital(which)} ${one ? "is" : "are"} signed. Set ${one ? "it" : "them"} again?`, words, yes: "Set again", list, said, risk: true });
  }

  /** The steps that set cards again from what they were set from, one after the other, each with a text. */
  againList(olds, textOf = card => this.textFor(card)) {
    const session = this.session.copy(), parts = [];
    for (const card of olds) {
      const part = settingFrom(session, card.take, card.grounds, textOf(card));
      if (!part) continue;
      session.runAll(part);
      parts.push(part);
    }
    return parts.length ? joined(parts) : null;
  }

  /**
   * Asks before a deed; without a list, edit is what is done.
   * @param {{
   *   title: string, words: any, yes: string, list: Uint8Array | null, said: string, keep?: string, signs?: boolean, risk?: boolean,
   *   reach?: Map<number, string> | null, take?: number | null, edit?: ((hearing?: any) => void) | null
   * }} asked
   */
  ask({ title, words, yes, list, said, keep = "Leave it", signs = false, risk = false, reach = null, take = null, edit = null }) {
    const from = /** @type {HTMLElement} */ (document.activeElement)?.id;
    const leave = () => {
      this.ui.ask = null;
      this.draw();
      (byId(from) ?? byId("desk-side").querySelector("button"))?.focus();
    };
    this.ui.ask = { title, words, yes, keep, risk, list, reach, take, leave, go: () => (list ? this.do(said, list, { signs, edit }) : (leave(), edit?.())) };
    this.draw();
    byId("ask-keep").focus();
  }

  /** Before a signing: what it takes. */
  askSign(takes) {
    const { session, cards, desk } = this, list = signingOf(session, takes);
    if (!list) return;
    const left = inShort(cards, list), { signs } = { signs: cards.map(c => c.take).filter(t => signedIn(list, t)) };
    const stale = cards.filter(c => signs.includes(c.take) && c.stale.length), still = stale.map(c => `${c.title} ${staleWords(c)}.`), alone = still.length === 1;
    const warned = [...(alone ? [] : still), ...oldWords(cards, signs, desk.hearing.texts).map(w => `${w} It would be signed so.`), ...signingWords(cards, signs, roomOf(session).signings)];
    const words = [el("ol", { class: "desk-left" }, left.map(w => el("li", {}, w))), warned.map(w => el("p", { class: "warned" }, w)), el("p", { class: "soft" }, "What is signed is kept for good.")];
    this.ask({ title: alone ? `${still[0]} Sign it?` : signs.length > 3 ? `Sign ${counted(signs.length, "card")}?` : `Sign ${listOf(cards, signs)}?`, words, yes: left.length > 1 ? "Freeze and sign" : "Sign", list, said: `Signed: ${listOf(cards, signs)}.`, signs: true });
  }

  /** Before a withdrawal: what it reaches, as lit cards. */
  askWithdraw(card) {
    const { session, cards } = this, list = withdrawingOf(session, card.take), ways = reachedBy(session, cards, card.take);
    if (!list) return;
    const copy = session.copy(), replies = copy.runAll(list), last = readReply(replies, replies.length / 8 - 1), fell = Array.from({ length: replies.length / 8 }, (_, i) => readReply(replies, i)).find(r => r.take === card.take && r.outcome >= FALLEN_BACK) ?? last;
    const back = this.desk.hearing.texts[this.desk.record.lastHeads[card.take].saved], fate = fell.outcome === FALLEN_BACK ? (back ? `It goes back to what was signed: \u201c${isolated(back)}\u201d.` : "It goes back to a blank card, and can be put back.") : "It was never signed, so it vanishes.";
    const reach = new Map([...ways].map(([t, via]) => [t, via === null ? "set from it" : `through ${inside(cards[via])}`])), n = reach.size;
    const words = [el("p", {}, `${fate} `, n ? el("b", {}, `${counted(n, "card loses its", "cards lose their")} ground and can't be signed until set again.`) : "Nothing else is reached."),
      n > 0 && el("p", {}, listOf(cards, reach.keys())), el("p", { class: "soft" }, "The cards show how it would be. Nothing has changed yet.")];
    this.ask({ title: `Withdraw ${inside(card)}?`, words, keep: `Keep ${inside(card)}`, yes: n ? `Withdraw: ${counted(n, "card")} to set again` : "Withdraw", risk: true, list, reach, take: card.take, said: `${card.title} is withdrawn${n ? `; ${counted(n, "card")} to set again` : ""}.` });
  }

  /** Opens a name or a page. */
  add(kind, name, words, grounds, more = {}) {
    const title = name.trim() || words.trim(), text = this.number(words), list = opening(this.session, text, grounds), take = this.cards.length;
    const edit = hearing => {
      hearing.takes[take] = title;
      hearing.about[take] = { kind, ...more };
    };
    this.do(`${title} is added${grounds.length ? `, set from ${listOf(this.cards, grounds)}` : ""}.`, list, { edit });
    return Boolean(list);
  }

  undo() {
    const step = this.desk.past.at(-1);
    if (!step) return;
    const go = () => {
      this.ui.ask = null;
      this.desk.goBack();
      this.say(`Taken back: ${step.words}`, false);
    };
    if (step.signs) this.ask({ title: "Take the signing back?", words: [el("p", {}, `${step.words} Others may rely on what is signed.`)], yes: "Take it back", list: null, said: "", risk: true, edit: go });
    else go();
  }

  redo() {
    const step = this.desk.future.at(-1);
    if (!step) return;
    this.ui.ask = null;
    this.desk.goOn();
    this.say(step.words);
  }
}

/** Whether a list of steps signs a take. */
function signedIn(list, take) {
  for (let i = 0; i < list.length; i += 8) if (list[i] >> 4 === 12 && (((list[i + 2] << 8) | list[i + 3]) >> take) & 1) return true;
  return false;
}
