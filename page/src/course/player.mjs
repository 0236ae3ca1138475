// One screen of a lesson: the picture, the question beside it, the answer, and one filled button. What is right, the library says.
import { el, replace, button, announce } from "../shared/dom.mjs";
import { mark } from "../shared/marks.mjs";
import { Picture } from "../shared/picture.mjs";
import { Record } from "../shared/record.mjs";
import { Session } from "../../../bindings/js/ledger.mjs";
import { joined, takesOf, volumeOf } from "../../../bindings/js/packed.mjs";
import { linesBelow, linesOf } from "../shared/grounds.mjs";
import { eventsOf } from "../shared/telling.mjs";
import { explained } from "../shared/glossary.mjs";
import { rightOf, reached } from "./answers.mjs";
import { KINDS } from "./kinds.mjs";
import { Playing } from "./playing.mjs";
import { Spreading, newsOf, rings } from "./spreading.mjs";
import { detailsPart } from "./details.mjs";

const TITLES = { yes: "Right.", no: "Not quite.", hint: "A hint.", shown: "So it is." };
// From this lesson on a life is told by its number.
const COUNTED = 3;
const tied = words => words.replace(/\b([Pp]ages?|[Ll]ives|[Ll]ife|[Ss]tep) (?=\d)/g, "$1\u00a0");

export class Player {
  solved = false;
  /** @type {any[]} */ picked = [];
  /** @type {[string, string] | null} */ said = null;
  hinted = 0;
  /** @type {Uint8Array[]} */ own = [];
  volume = 0;
  /** @type {number[]} takes that have just changed */ fresh = [];
  /** @type {number[]} takes that were just held */ held = [];
  /** @type {number[]} takes that were just signed */ stamped = [];
  /** @type {number[]} takes that are still shown as they were before */ late = [];
  since = 0;
  before = 0;
  /** @type {Spreading | null} */ spreading = null;
  /** @type {(number | string)[]} */ order = [];
  /** @type {import("../shared/grounds.mjs").Line[]} */ lit = [];
  /** @type {any[]} */ litTakes = [];
  /** @type {Playing | null} */ playing = null;
  /** @type {Picture | null} */ picture = null;
  details = false;

  /** told: {back(), next(), answered(foreseen), steps(list, count)}; last: whether the lesson ends after this screen */
  constructor(host, lesson, k, told, last) {
    this.host = host;
    this.lesson = lesson;
    this.k = k;
    this.told = told;
    this.last = last;
    this.screen = lesson.screens[k];
    this.names = lesson.namesOn(k);
    this.kind = KINDS[this.screen.kind];
    this.scene = lesson.scene(k);
    this.right = rightOf(this.screen, this.scene);
    this.numbered = lesson.number >= COUNTED;
    this.tries = 0;
    this.codes = false;
    this.build();
    this.reset();
  }

  /** The parts of the screen, once. */
  build() {
    const { screen, lesson, k } = this, seen = new Set();
    this.stage = el("section", { class: "stage", "aria-label": "the picture" });
    this.tray = el("section", { class: "tray", "aria-label": "below the picture" });
    this.say = el("section", { class: "say", "aria-label": "answer" });
    this.more = el("section", { class: "more", "aria-label": "details" });
    this.title = el("h1", { tabindex: -1 }, tied(screen.question));
    const story = screen.story.split("\n").map(p => el("p", { class: "prose" }, explained(tied(p), seen)));
    const eyebrow = el("p", { class: "eyebrow" }, `${lesson.data.for ? `${lesson.data.for}. ` : ""}Lesson ${lesson.number}, ${lesson.title}`);
    const ask = el("section", { class: "ask", "aria-label": "question" }, eyebrow, this.title, story);
    replace(this.host, el("div", { class: "screen", "data-kind": screen.kind, "data-screen": k + 1 }, ask, this.stage, this.tray, this.say), this.more);
    this.seen = seen;
    for (const event of ["pointerover", "focusin"]) this.tray.addEventListener(event, e => this.picture?.point(e.target.closest("[data-chip]")?.dataset.chip ?? null));
    for (const event of ["pointerout", "focusout"]) this.tray.addEventListener(event, () => this.picture?.point(null));
  }

  /** Nothing goes on by itself any more. */
  leave() {
    this.playing?.stop();
    this.spreading?.stop();
  }

  /** From the start of this screen. */
  reset() {
    this.leave();
    const volume = volumeOf(this.screen.volume ?? []);
    Object.assign(this, { solved: false, picked: [], said: null, hinted: 0, own: [], volume, fresh: [], held: [], stamped: [], late: [], order: [], lit: [], litTakes: [] });
    this.record = this.scene.record;
    this.count = this.scene.count;
    this.draw();
  }

  get session() {
    return this.record.at(this.count);
  }

  draw(/** @type {string | null} */ focus = null) {
    const marked = /** @type {HTMLElement | null} */ (document.activeElement?.closest("[data-focus]"))?.dataset.focus;
    this.drawStage();
    replace(this.tray, this.kind.tray?.(this) ?? null);
    this.drawSay();
    replace(this.more, this.details ? detailsPart(this) : null);
    const wanted = focus ?? (marked ? `[data-focus="${CSS.escape(marked)}"]` : null);
    if (wanted) this.host.querySelector(wanted)?.focus({ preventScroll: true });
    Object.assign(this, { fresh: [], held: [], stamped: [] });
  }

  /** Draws what some steps have changed, as it spreads: each take once what it stands on has changed. */
  spread(/** @type {number} */ since, /** @type {string | null} */ focus = null) {
    const found = rings(this.record, since, this.count), news = newsOf(this.record, since, this.count);
    this.spreading?.stop();
    this.since = since;
    this.spreading = new Spreading(found, (ring, late, first) => {
      Object.assign(this, { fresh: ring, late }, first ? news : {});
      this.draw(first ? focus : null);
    });
  }

  drawStage() {
    const details = { class: "btn bare sm", "aria-expanded": String(this.details), "data-focus": "details" };
    const tools = el("div", { class: "tools noprint" }, this.playButton(), button("Details", () => this.toggle(), details));
    const own = this.kind.stage(this);
    if (own) this.picture = null;
    this.stage.dataset.late = String(this.late.length);
    replace(this.stage, own ?? this.board(), tools);
    this.picture?.draw();
  }

  /** The picture of cards, with what the screen's kind stands beside them. */
  board() {
    const { names, screen } = this, host = el("div", { class: "picture-host" });
    this.picture = new Picture(host);
    const { record, count } = this.scene, layout = [linesOf(record, count), linesOf(record, record.length), linesOf(this.record, this.count)].flat();
    this.picture.show(this.record, this.count, names, {
      picked: this.kind.picksTakes ? this.picked : [],
      pick: this.kind.picksTakes && !this.solved ? t => this.kind.pick(this, t) : null,
      beside: t => this.kind.beside?.(this, t) ?? null,
      lit: this.lit.filter(l => !this.late.includes(l.from)), litTakes: this.litTakes.filter(t => !this.late.includes(t)),
      fresh: this.fresh, held: this.held, stamped: this.stamped, earlier: { count: this.since, takes: this.late }, layout, shown: screen.shown ?? null, trace: this.solved || !this.kind.picksTakes,
    });
    const beside = this.kind.side?.(this);
    return el("div", { class: `board${beside ? " with-side" : ""}` }, host, el("div", { class: "floor", "aria-hidden": "true" }), beside ?? null);
  }

  playButton() {
    const { start, count, record } = this.scene, from = start < count ? start : 0;
    if (!this.kind.plays || !count || this.own.length) return null;
    const events = eventsOf(record, this.names, from, count);
    const said = { class: "btn bare sm", "data-focus": "play", "aria-label": "play how it came to this" };
    return button(["Play", mark("play", 14)], () => this.play(events), said);
  }

  play(events) {
    this.playing?.stop();
    this.playing = new Playing(this, events);
  }

  toggle() {
    this.details = !this.details;
    this.draw();
  }

  drawSay() {
    const { said, screen, solved } = this;
    const words = said && [el("b", {}, TITLES[said[0]]), " ", explained(tied(said[1]), this.seen)];
    const answer = el("div", { class: `answer ${said?.[0] ?? ""}`, role: "status" }, words);
    replace(this.say, el("p", { class: "hintline" }, solved ? null : screen.do), answer, this.foot());
  }

  /** The one filled button, and beside it back, a hint or the answer, and the screen once more. */
  foot() {
    const { screen, solved, kind } = this, main = solved
      ? button([this.last ? "Finish" : "Next", mark("arrow", 20)], () => this.told.next(), { class: "btn go", "data-focus": "next" })
      : kind.main?.(this) ?? null;
    const help = solved ? button("Try again", () => this.reset(), { class: "btn bare", "data-focus": "again" })
      : screen.hints ? button("Hint", () => this.hint(), { class: "btn bare", "data-focus": "hint" }) : null;
    const show = !solved && this.tries > 1 ? button("Show me", () => this.show(), { class: "btn bare", "data-focus": "show" }) : null;
    const back = button("Back", () => this.told.back(), { class: "btn bare", "data-focus": "back" });
    return el("div", { class: "foot noprint" }, back, help, show, main);
  }

  /** One hint after the other; after the last, what the ledger says is left to do. */
  hint() {
    const { hints, wants } = this.screen, list = wants?.signed === undefined ? new Uint8Array(0) : this.session.plan(wants.signed);
    const left = this.hinted >= hints.length ? eventsOf(new Record(this.session, list), this.names) : [], plan = left.map(e => e.words).join("; ");
    this.tell("hint", plan ? `The ledger\u2019s own plan: ${plan}.` : hints[Math.min(this.hinted, hints.length - 1)]);
    this.hinted++;
    if (this.hinted > 1) this.tries = Math.max(this.tries, 2);
    this.draw();
  }

  tell(how, words) {
    this.said = [how, words];
  }

  /** A wrong answer: its own sentence. */
  miss(words) {
    this.tries++;
    this.tell("no", words);
    this.draw();
    announce(`${TITLES.no} ${words}`);
  }

  /** Judges what was picked: each one too many, or missing, has its own sentence. */
  judge() {
    const { picked, right, screen } = this, none = !picked.length && this.kind.several ? screen.wrong.none : undefined, bad = picked.find(p => !right.includes(p)), missing = right.find(p => !picked.includes(p));
    if (bad === undefined && missing === undefined) return this.solve();
    if (bad !== undefined && this.kind.several) this.picked = picked.filter(p => p !== bad);
    else if (bad === undefined) this.lightWay(missing);
    return this.miss(none ?? screen.wrong[bad] ?? screen.wrong[`-${missing}`] ?? screen.wrong.other ?? "Look again.");
  }

  /** The answer is right: what comes of it is shown. */
  solve(how = "yes") {
    if (this.kind.asks !== false) this.told.answered(how === "yes" && this.tries === 0);
    const since = this.own.length ? this.before : this.count;
    this.solved = true;
    this.picked = this.kind.keeps ? this.picked : [];
    if (!this.own.length) this.count = this.record.length;
    this.light();
    this.tell(how, this.screen.answer);
    this.spread(since, `[data-focus="next"]`);
    announce(`${TITLES[how]} ${this.screen.answer}`);
  }

  /** The lines of the question along which one take rests on another. */
  way(/** @type {number} */ from, /** @type {number} */ to) {
    const lines = linesOf(this.scene.record, this.scene.count), below = t => linesBelow(lines, t);
    return below(from).filter(l => l.to === to || below(l.to).some(m => m.to === to));
  }

  /** The lines that have to do with a take of the answer: from it down to what is withdrawn, or down to it from what is asked about. */
  wayOf(/** @type {any} */ take) {
    const { ask, kind } = this.screen;
    if (kind !== "takes") return [];
    if (ask.reaches !== undefined) return this.way(take, ask.reaches);
    return ask.rests === undefined ? [] : this.way(ask.rests, take);
  }

  /** Lights up the way by which a missing card has to do with the question: the sentence says it, the picture shows it. */
  lightWay(missing) {
    this.lit = this.wayOf(missing);
  }

  /** What the answer lights up: the takes of the answer, and their lines to what is withdrawn or asked about. */
  light() {
    const { kind, light, ask } = this.screen, lines = light === undefined ? this.right.flatMap(t => this.wayOf(t)) : linesBelow(linesOf(this.scene.record, this.scene.count), light), named = (/** @type {import("../shared/grounds.mjs").Line} */ l) => `${l.from},${l.to}`;
    if (kind === "sets" || ask?.reaches !== undefined || ask?.rests !== undefined) this.litTakes = this.right;
    if (light !== undefined) this.litTakes = [...this.litTakes, light];
    this.lit = [...new Map(lines.map(l => [named(l), l])).values()];
  }

  /** The answer, for whoever has tried twice. */
  show() {
    if (this.screen.kind === "goal") {
      this.own = [];
      this.record = this.scene.record;
      this.count = this.scene.count;
    }
    this.order = [...this.right];
    this.picked = [...this.right];
    this.solve("shown");
  }

  /**
   * Steps of the reader's own, after those of the lesson.
   * @param {Uint8Array} steps
   */
  act(steps) {
    const { record, count } = this.scene;
    this.before = this.count;
    this.own.push(steps);
    this.record = new Record(Session.begin(), joined([record.list.subarray(0, 8 * count), ...this.own]));
    this.count = this.record.length;
    this.said = null;
    if (reached(this.screen, record.at(count), this.session)) this.solve();
    else this.spread(this.before);
  }

  volumeTakes() {
    return takesOf(this.volume);
  }
}
