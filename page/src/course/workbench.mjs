// The step view: a list of steps as text beside its lanes, and all that the ledger holds after each step. A lesson opens it for details,
// and it plays lists of one's own.
import { el, replace, byId, button, announce, unpressed } from "../shared/dom.mjs";
import { GREATEST, Refusal, Session } from "../../../bindings/js/ledger.mjs";
import { toText } from "../../../bindings/js/notation.mjs";
import { Record } from "../shared/record.mjs";
import { Rows } from "../shared/rows.mjs";
import { Falls } from "../shared/falls.mjs";
import { legend } from "../shared/shapes.mjs";
import { onPaper } from "../shared/paper.mjs";
import { Editor } from "./editor.mjs";
import { Stepper } from "../shared/stepper.mjs";
import { showMoment } from "../shared/moment.mjs";
import { readText, namesFrom } from "../shared/listing.mjs";
import { Names, isolated } from "../shared/names.mjs";
import { barOf } from "./bar.mjs";
import { recognize } from "../shared/files.mjs";
import { keepList, keptList } from "../shared/store.mjs";
import { effect, verdict } from "../shared/words.mjs";

const LARGEST = 4294967295;
// Document 01's session, with names.
const EXAMPLE = [
  "root text 7          # the names", "root text 8          # page 12", "letter to 0 text 5", "receive 0", "write 0 text 9", "send 0 to 1 text 9",
  "receive 1", "write 1 text 10", "freeze 1", "sign {1}", "freeze 0", "sign {0,1}", "fail 0", "",
].join("\n");

/** @typedef {{lesson: string, screen: number, names: Names, title: string, story: string, text?: string}} Origin */

export class Workbench {
  /** @type {Origin | null} */ origin = null;

  /** back(lesson): to a screen of a lesson */
  constructor(back) {
    this.back = back;
    this.limits = { ...GREATEST };
    this.record = new Record(Session.begin(), new Uint8Array(0));
    /** @type {string[]} */ this.lines = [];
    /** @type {number[]} the line of the text that each step stands on */ this.places = [];
    this.names = new Names();
    this.drawn = false;
    this.editor = new Editor(byId("editor"), () => this.edited(), line => this.atLine(line));
    this.rows = new Rows(byId("course-rows"), count => this.choose(count));
    onPaper(this.rows);
    this.falls = new Falls(byId("course-falls"));
    const textField = el("input", { type: "number", min: 0, max: LARGEST, value: 1, "aria-label": "text of the next step" });
    const textOf = () => Math.min(Math.max(0, Math.trunc(Number(textField.value) || 0)), LARGEST);
    this.stepper = new Stepper(byId("course-steps"), { textField, textOf, add: bytes => this.append(bytes) });
    byId("course-add").addEventListener("toggle", () => this.offer());
    replace(byId("course-bar"), barOf(this));
    byId("course-legend").append(legend());
    byId("course-list").open = !matchMedia("(max-width: 600px)").matches;
  }

  /** The list that was edited last, here or before a reload; else an example. */
  openOwn() {
    this.origin = null;
    this.editor.text = this.own ?? keptList() ?? EXAMPLE;
    this.tellStory();
    if (!this.refresh(Infinity)) this.drawAgain();
  }

  /** The list that was kept before the one that is kept now changes places with it. */
  openEarlier() {
    const earlier = keptList(true);
    if (earlier === null) return;
    this.origin = null;
    this.editor.text = earlier;
    this.edited();
  }

  /**
   * A list from somewhere: a file, a link, or (origin) a screen of a lesson, whose story stays whatever is edited.
   * @param {string} text
   * @param {number} step
   * @param {import("../../../bindings/js/ledger.mjs").Limits | null} [limits]
   * @param {Origin | null} [origin]
   */
  openText(text, step, limits = null, origin = null) {
    this.limitTo(limits ?? GREATEST);
    this.origin = origin && { ...origin, text };
    this.editor.text = text.replace(/^\ufeff/, "");
    this.mine = false;
    this.tellStory();
    if (!this.refresh(step)) this.drawAgain();
  }

  tellStory() {
    const earlier = button("your list before that", () => this.openEarlier(), { id: "earlier", hidden: keptList(true) === null });
    const own = [el("p", {}, "A list of your own. What follows # on a line that opens a take is its name."), el("p", {}, earlier)];
    replace(byId("story"), this.origin ? this.lessonStory(this.origin) : own);
  }

  /** @param {Origin} origin */
  lessonStory(origin) {
    const { text, title, story } = origin, changed = text !== undefined && text !== this.editor.text;
    const again = changed ? [" ", button("the lesson\u2019s list again", () => this.openText(text, Infinity, null, origin), { id: "lesson-list" })] : [];
    return [
      el("h2", {}, title), story.split("\n").map(p => el("p", {}, p)),
      el("p", {}, button("back to the lesson", () => this.back(origin), { id: "back-to-lesson" }), again),
      changed ? el("p", { class: "soft" }, "The list below is yours now; the lesson keeps its own.") : null,
    ];
  }

  /** Keeps the list that is being edited; the one that was kept before becomes the earlier one. Null, or why it is not kept. */
  keepOwn() {
    const before = this.mine ? null : keptList(), another = before?.trim() && before !== this.editor.text;
    this.own = this.editor.text;
    const trouble = (another ? keepList(before, true) : null) ?? keepList(this.own);
    this.mine = this.mine || trouble === null;
    return trouble;
  }

  /** Takes these limits, and shows them. */
  limitTo(limits) {
    for (const name of Object.keys(limits)) byId(`limit-${name}`).value = this.limits[name] = limits[name];
  }

  edited() {
    const trouble = this.keepOwn();
    this.tellStory();
    if (!this.refresh(Infinity)) this.drawAgain();
    if (trouble) this.say(trouble);
  }

  /** The picture as it was, beside a text that has a fault. */
  drawAgain() {
    if (this.drawn) this.draw(this.rows.count);
    this.editor.markLine(null);
  }

  limited() {
    for (const name of Object.keys(this.limits)) this.limits[name] = Math.trunc(Number(byId(`limit-${name}`).value));
    unpressed(() => this.refresh(this.rows.count));
  }

  /** Reads the text, plays it and draws it; a fault leaves the picture as it was, or empty. Whether it was played. */
  refresh(count) {
    const read = readText(this.editor.text);
    this.editor.showFault(read.fault);
    if (read.fault) byId("course-list").open = true;
    if (read.fault) this.editor.markLine(null);
    const start = !(read.fault && this.drawn) && this.begin(this.limits);
    if (!start) return false;
    this.play(start, read.fault ? readText("") : read);
    this.draw(count);
    return true;
  }

  /**
   * @param {Session} start
   * @param {any} read
   */
  play(start, { places, steps, comments }) {
    this.drawn = true;
    this.places = places;
    this.record = new Record(start, steps);
    this.lines = toText(steps).split("\n").slice(0, -1);
    const own = namesFrom(this.record, comments);
    this.names = this.origin?.names && !own.takes.some(Boolean) ? this.origin.names : own;
  }

  draw(count) {
    this.rows.show(this.record, this.lines, this.names, this.record.length);
    this.rows.pick(Math.min(count, this.record.length));
    this.falls.show(this.record);
    this.offer();
  }

  /** The buttons for the next step, where somebody looks at them. */
  offer() {
    if (byId("course-add").open && this.drawn) this.stepper.show(this.record.end, this.names);
  }

  /** A session with these limits; null, and the reason shown, where there is none. */
  begin(limits) {
    try {
      return Session.begin(limits);
    } catch (e) {
      if (!(e instanceof Refusal) && !(e instanceof RangeError)) throw e;
      replace(this.editor.fault, el("strong", {}, e.message));
      return null;
    }
  }

  /** Says something over the picture, until a step is chosen. */
  say(words) {
    const host = byId("course-notice");
    replace(host, el("div", { class: "notice" }, words, " ", button("close", () => replace(host))));
  }

  choose(count) {
    replace(byId("course-notice"));
    const go = by => this.rows.pick(count + by);
    showMoment(byId("course-moment"), this.record, count, this.lines[count - 1], this.names, { go, shown: this.record.length });
    this.editor.markLine(count ? this.places[count - 1] : null);
    const before = this.record.before(count), said = before && `${verdict(before.reply)}, ${effect(before.step, before.reply, this.names)}`;
    announce(before ? `step ${count}, ${this.lines[count - 1]}: ${said}` : "before the first step");
  }

  atLine(line) {
    const i = this.places.indexOf(line);
    if (i >= 0 && i + 1 !== this.rows.count) this.rows.pick(i + 1);
  }

  append(bytes) {
    const text = this.editor.text;
    this.editor.text = `${text}${text === "" || text.endsWith("\n") ? "" : "\n"}${toText(bytes)}`;
    this.edited();
  }

  openFile(name, bytes) {
    const found = recognize(bytes, name);
    if (typeof found.text === "string" && !["desk", "log"].includes(found.kind)) return this.openText(found.text, Infinity);
    if (found.kind === "list") return this.openText(toText(found.list), Infinity);
    const reason = found.kind === "unknown" ? found.reason : "open it at the desk: the course plays lists from a fresh session";
    return replace(this.editor.fault, el("strong", {}, `${isolated(name)}: ${reason}`));
  }
}
