// The desk: a hearing of one's own, kept by names and words. It has two faces: cards and wishes in front, and behind "Details" every step,
// with buttons for those that the ledger accepts.
import { el, replace, byId, button, focusIn, announce, unpressed } from "../shared/dom.mjs";
import { play, GREATEST, LONGEST } from "../../../bindings/js/ledger.mjs";
import { joined, readReply, readStep, sameBytes } from "../../../bindings/js/packed.mjs";
import { readImage } from "../../../bindings/js/image.mjs";
import { toText } from "../../../bindings/js/notation.mjs";
import { Record } from "../shared/record.mjs";
import { Rows } from "../shared/rows.mjs";
import { Falls } from "../shared/falls.mjs";
import { Stepper } from "../shared/stepper.mjs";
import { showMoment } from "../shared/moment.mjs";
import { showBoard } from "./board.mjs";
import { showBar } from "./bar.mjs";
import { Names, counted, isolated } from "../shared/names.mjs";
import { readText, namesFrom } from "../shared/listing.mjs";
import { emptyHearing, begun, toFile, fromFile, textNumber, Unreadable } from "../shared/hearing.mjs";
import { fromLog } from "../shared/log.mjs";
import { kept, putAside } from "../shared/store.mjs";
import { keepHearing, showKept } from "./keeping.mjs";
import { confirmFall, confirmLoss, confirmReceipt, confirmEmpty, confirmName, confirmOpening, confirmSigning, confirmUndo, hush, tell } from "./notices.mjs";
import { recognize } from "../shared/files.mjs";
import { Front } from "./front.mjs";
import { Keeper } from "./keeper.mjs";
import { freshDialog } from "./fresh.mjs";
import { effect, verdict, kindOf, FALLEN_BACK, VANISHED, REFUSED, WITH_TEXT } from "../shared/words.mjs";

/**
 * @param {string} id
 * @param {string} label
 * @param {string} placeholder
 * @param {string | null} [list]
 */
function field(id, label, placeholder, list = null) {
  return el("input", { type: "text", id, "aria-label": label, placeholder, list });
}

const NEW = { question: "Begin a new hearing? The present one is removed from this page.", yes: "begin" };

// What the desk calls the two ways to withdraw a life.
const LABELS = { fall: "give up this work\u2026", fail: "withdraw\u2026" };

export class Desk {
  record = new Record(begun(emptyHearing()), new Uint8Array(0));
  /** @type {string[]} */ lines = [];
  names = new Names();

  constructor() {
    this.rows = new Rows(byId("desk-rows"), count => this.choose(count));
    this.falls = new Falls(byId("desk-falls"));
    this.words = field("desk-words", "words of the text", "words", "desk-known");
    this.takeName = field("desk-name", "name for a new take", "name for a new take");
    this.stepper = new Stepper(byId("desk-steps"), {
      textField: this.words,
      textOf: () => textNumber(this.hearing, this.words.value, this.used()),
      add: bytes => this.offer(bytes),
      confirm: (kind, fields, go) => this.confirm(kind, fields, go),
      labels: LABELS,
    });
    this.stuck = null;
    /** What was done, newest last, each with the hearing before it; and what was taken back. */
    this.past = [];
    this.future = [];
    /** Which face is shown: desk, details, or none. */
    this.face = null;
    this.keeper = new Keeper(this);
    this.front = new Front(this);
    this.restore();
    window.addEventListener("storage", () => showKept(this));
  }

  /** Takes the hearing that the browser keeps. */
  restore() {
    this.hearing = this.restored();
    this.refresh(Infinity);
  }

  /** The hearing that the browser kept; what can't be read again is put aside and shown. */
  restored() {
    const text = kept();
    if (text === null) return emptyHearing();
    try {
      return fromFile(text);
    } catch (e) {
      if (!(e instanceof Unreadable)) throw e;
      this.stuck = putAside(text) ? text : null;
      return emptyHearing();
    }
  }

  /** The numbers of texts that this hearing has: in its steps, and in the image that it started from. */
  used() {
    const { takes, parcels } = readImage(this.record.at(0).image);
    return new Set([...this.record.steps, ...takes, ...parcels].map(s => s.text).concat(takes.map(t => t.saved)));
  }

  /** Shows one of the two faces. */
  open(face) {
    this.face = face;
    this.show(Infinity);
  }

  refresh(count) {
    this.record = new Record(begun(this.hearing), this.hearing.list);
    this.names = new Names(this.hearing.takes, this.hearing.texts);
    timed(this.hearing, this.record.length);
    this.stood = this.copy();
    if (this.keeping) this.keeper.keep(this.past.at(-1)?.words ?? "opened");
    this.show(count);
    keepHearing(this);
  }

  /** Finds what the browser's database has, once, at the start; from then on every deed is written there. */
  async recover() {
    await this.keeper.recover();
    this.keeping = true;
  }

  /** Draws the face that is shown. */
  show(count) {
    if (this.face === "desk") this.front.refresh();
    if (this.face === "details") this.bench(count);
  }

  /** Draws the face with all steps. */
  bench(count) {
    this.lines = this.record.steps.map((step, i) => this.said(step, this.record.replies[i], i));
    this.rows.show(this.record, this.lines, this.names, this.record.length);
    this.stepper.show(this.record.end, this.names);
    byId("desk-steps").prepend(el("p", { class: "fields" }, el("label", {}, "name ", this.takeName)), this.knownWords());
    this.words.closest("p").append(this.last());
    this.falls.show(this.record);
    showBoard(byId("desk-board"), this.record, this.names, bytes => this.offer(bytes));
    showBar(this);
    byId("desk-heading").textContent = this.hearing.title;
    this.rows.pick(Math.min(count, this.record.length));
  }

  /**
   * Does something to the hearing, so that it can be taken back: adds steps, and edits what stands beside them.
   * @param {string} words
   * @param {Uint8Array} list
   * @param {{edit?: ((hearing: any) => void) | null, signs?: boolean}} how
   */
  change(words, list, { edit = null, signs = false } = {}) {
    this.note(words, { list, signs });
    edit?.(this.hearing);
    this.hearing.list = joined([this.hearing.list, list]);
    this.refresh(Infinity);
  }

  /**
   * Notes what is about to be done.
   * @param {string} words
   * @param {{list?: Uint8Array | null, signs?: boolean}} how
   */
  note(words, { list = null, signs = false } = {}) {
    this.past.push({ words, list, signs, hearing: this.stood });
    this.future = [];
  }

  goBack() {
    const step = this.past.pop();
    this.future.push({ ...step, hearing: this.copy() });
    this.hearing = copyOf(step.hearing);
    this.refresh(Infinity);
  }

  goOn() {
    const step = this.future.pop();
    this.past.push({ ...step, hearing: this.copy() });
    this.hearing = copyOf(step.hearing);
    this.refresh(Infinity);
  }

  /** Puts another hearing onto the desk, as a new one of the list; the one that was there stays in the list. */
  begin(hearing, words) {
    this.keeper.begin();
    this.reset(hearing);
    this.front.say(words, false);
  }

  /** Puts a hearing of the list onto the desk. */
  reopen({ id, rev, deeds }, hearing) {
    this.keeper.begin(id, rev, hearing, deeds);
    this.reset(hearing);
    this.front.say(`\u201c${isolated(hearing.title || "without a title")}\u201d is on the desk.`, false);
  }

  reset(hearing) {
    this.past = [];
    this.future = [];
    this.front.ui.chosen = null;
    this.take(hearing);
  }

  continueFresh() {
    freshDialog(this.front);
  }

  /** What the last step did, beside the words, where the picture is out of view. */
  last() {
    const { replies, length } = this.record;
    return el("span", { class: "last" }, length ? `step ${length}, ${verdict(replies[length - 1])}: ${this.lines[length - 1]}` : "");
  }

  knownWords() {
    return el("datalist", { id: "desk-known" }, Object.values(this.hearing.texts).map(words => el("option", { value: words })));
  }

  /** A step in the desk's words: what it did, or its line where it was refused. */
  said(step, reply, i) {
    return reply.outcome >= REFUSED ? toText(this.hearing.list.subarray(8 * i, 8 * i + 8)).trim() : effect(step, reply, this.names);
  }

  choose(count) {
    const line = count ? toText(this.hearing.list.subarray(8 * count - 8, 8 * count)).trim() : "";
    const go = by => this.rows.pick(count + by);
    showMoment(byId("desk-moment"), this.record, count, line, this.names, { go, shown: this.record.length });
  }

  /** What is asked before a step: what a withdrawal costs, words for a text, a name that no take has yet. */
  confirm(kind, { take, parcel }, go) {
    const name = this.takeName.value.trim(), known = name ? this.hearing.takes.indexOf(name) : -1;
    if (kind === "fall" || kind === "fail") confirmFall(this, kind, take, go);
    else if (kind === "receive" && [FALLEN_BACK, VANISHED].includes(this.record.end.decision(parcel).outcome)) confirmReceipt(this, parcel, go);
    else if (kind === "lose") confirmLoss(parcel, go);
    else if (kind === "write" && this.words.value.trim() === "") confirmEmpty(this, take, go);
    else if (["root", "new"].includes(kind) && known >= 0) confirmName(name, known, go);
    else go();
  }

  /** Adds steps; before a signing it is asked. */
  offer(bytes) {
    const step = readStep(bytes, bytes.length / 8 - 1);
    if (kindOf(step) === "sign") confirmSigning(this.names.volume(step.parcel), () => this.append(bytes));
    else this.append(bytes);
  }

  /** Adds a step, or several; the last one's reply is told. */
  append(bytes) {
    const last = bytes.length / 8 - 1, reply = readReply(this.record.end.copy().run(bytes), last), step = readStep(bytes, last);
    if (["root", "new"].includes(kindOf(step)) && reply.outcome === 0) {
      this.hearing.takes[reply.take] = this.takeName.value.trim();
      this.takeName.value = "";
    }
    if (WITH_TEXT.has(kindOf(step)) && reply.outcome === 0) this.words.value = "";
    this.note(effect(step, reply, this.names), { list: bytes, signs: kindOf(step) === "sign" && reply.outcome === 0 });
    this.hearing.list = joined([this.hearing.list, bytes]);
    const focused = focusIn(byId("details"));
    hush();
    this.refresh(Infinity);
    focused(this.words);
    announce(`${verdict(reply)}: ${effect(step, reply, this.names)}`);
  }

  /** Takes back the last step; before a signing is taken back it is asked. */
  undo() {
    const { step, reply } = this.record.move(this.record.length);
    if (kindOf(step) === "sign" && reply.outcome === 0) confirmUndo(this.names.volume(step.parcel), () => this.takeBack());
    else this.takeBack();
  }

  /** Takes back the last step, or a letter without words together with its receipt, and the names and words that came with it. */
  takeBack() {
    const { steps, replies, length } = this.record, back = startsWork(this.record) ? 2 : 1, last = steps[length - 1], before = this.copy();
    const lines = this.lines.slice(-back).join("; ");
    const opened = ["root", "new"].includes(kindOf(last)) && replies[length - 1].outcome < REFUSED;
    this.note(`Taken back: ${lines}.`);
    if (opened) this.hearing.takes.length = Math.min(this.hearing.takes.length, replies[length - 1].take);
    this.hearing.list = this.hearing.list.slice(0, -8 * back);
    const focused = focusIn(byId("details"));
    hush();
    this.refresh(Infinity);
    if (WITH_TEXT.has(kindOf(last)) && !this.used().has(last.text)) this.forget(last.text);
    this.tellOf(`Taken back: ${lines}.`, before);
    focused(this.words);
  }

  /** The hearing as it stands, whatever is done to it. */
  copy() {
    return copyOf(this.hearing);
  }

  /** Says what was done, under the button that did it, and offers the hearing as it was before. */
  tellOf(words, before) {
    const back = button("bring it back", () => {
      this.take(before);
      this.rows.list.focus({ preventScroll: true });
    });
    replace(byId("desk-done"), el("p", {}, `${words} `, back));
    announce(words);
  }

  /** Forgets the words of a text that nothing has any more. */
  forget(text) {
    delete this.hearing.texts[text];
    this.refresh(Infinity);
  }

  /** Notes who keeps the hearing. */
  keptBy(name) {
    this.note(`Kept by ${isolated(name.trim()) || "nobody by name"}.`);
    this.hearing.house = name.trim();
    this.refresh(Infinity);
  }

  entitle(title) {
    this.note(`The hearing is called \u201c${isolated(title)}\u201d.`);
    this.hearing.title = title;
    unpressed(() => this.refresh(this.rows.count));
  }

  rename(take, name) {
    this.note(`Renamed: ${isolated(name.trim())}.`);
    this.hearing.takes[take] = name.trim();
    unpressed(() => {
      const focused = focusIn(byId("details"));
      this.refresh(this.rows.count);
      focused(this.words);
    });
  }

  /** The list without refused steps and unused reads, part by part; the image stays. */
  thinned() {
    const { list } = this.hearing, parts = [];
    for (let at = 0; at < list.length; at += LONGEST) {
      parts.push(this.record.at(at / 8).thin(list, at, Math.min(at + LONGEST, list.length)));
    }
    return joined(parts);
  }

  thin() {
    const before = this.copy(), short = this.thinned(), left = (before.list.length - short.length) / 8;
    this.note(`${counted(left, "step")} left out.`);
    const places = placesIn(before.list, short);
    for (const key of ["times", "who"]) if (before[key]) this.hearing[key] = places.map(i => before[key][i]);
    this.hearing.list = short;
    hush();
    this.refresh(Infinity);
    this.tellOf(`${counted(left, "step")} left out; the hearing stands as it did.`, before);
  }

  /** Holds the replies to those of the engine without maps. */
  hold() {
    const { list, limits, image } = this.hearing;
    if (image) return tell("The engine plays lists from a fresh session; this hearing starts from an image.");
    if (list.length > LONGEST) return tell("The engine plays lists of at most 1,024 steps.");
    const same = sameBytes(play(list, limits), this.record.packedReplies);
    return tell(`The second engine, which keeps no maps, gives ${same ? "the same" : "other"} replies.`);
  }

  beginWith(limits) {
    confirmOpening(this, { ...emptyHearing(limits) }, "a new hearing", NEW);
  }

  /** Opens whatever the file holds, after a question where a hearing would be replaced. */
  async openFile(name, bytes) {
    const found = recognize(bytes, name);
    try {
      if (found.kind === "unknown") throw new Unreadable(found.reason);
      confirmOpening(this, found.kind === "log" ? await fromLog(found.text) : hearingFrom(found), isolated(name));
    } catch (e) {
      if (!(e instanceof Unreadable)) throw e;
      tell(`${isolated(name)} can't be opened: ${e.message}`);
    }
  }

  take(hearing) {
    begun(hearing);
    this.hearing = hearing;
    this.refresh(Infinity);
  }
}

/** A hearing as it stands, whatever is done to it. */
function copyOf(hearing) {
  return { ...hearing, takes: [...hearing.takes], texts: { ...hearing.texts }, about: [...hearing.about], times: [...hearing.times] };
}

/** Where the steps of a shorter list stand in the whole one. */
function placesIn(list, short) {
  const places = [];
  for (let i = 0, j = 0; 8 * j < short.length; i++) if (sameBytes(list.subarray(8 * i, 8 * i + 8), short.subarray(8 * j, 8 * j + 8))) places[j++] = i;
  return places;
}

/** Notes when the steps were made that have no time yet; what is said of steps that are gone is gone too. */
function timed(hearing, steps) {
  if (hearing.who?.length > steps) hearing.who = hearing.who.slice(0, steps);
  if (hearing.times.length > steps) hearing.times.length = steps;
  while (hearing.times.length < steps) hearing.times.push(Date.now());
}

/** Whether the last two steps are a letter without words and its receipt, as "start work" makes them. */
function startsWork({ steps, replies, length }) {
  const [letter, receipt] = steps.slice(-2);
  if (length < 2 || kindOf(letter) !== "letter" || kindOf(receipt) !== "receive" || letter.text !== 0) return false;
  return replies[length - 2].outcome < REFUSED && replies[length - 2].parcel === receipt.parcel;
}

function hearingFrom(found) {
  if (found.kind === "desk") return fromFile(found.text);
  if (found.kind === "image") return { ...emptyHearing(), image: found.image };
  if (!found.list.length) throw new Unreadable("it has no steps.");
  const hearing = { ...emptyHearing(GREATEST), list: found.list };
  if (found.kind === "text") hearing.takes = namesFrom(new Record(begun(hearing), found.list), readText(found.text).comments).takes;
  return hearing;
}
