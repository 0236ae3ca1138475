// Two files side by side: both lists aligned, with every difference, and what ends otherwise, take by take.
import { el, replace, byId, button } from "../shared/dom.mjs";
import { mark } from "../shared/marks.mjs";
import { IMAGE } from "../../../bindings/js/ledger.mjs";
import { toText } from "../../../bindings/js/notation.mjs";
import { opener, recognize } from "../shared/files.mjs";
import { fromFile, emptyHearing, begun, Unreadable } from "../shared/hearing.mjs";
import { fromLog } from "../shared/log.mjs";
import { Record } from "../shared/record.mjs";
import { besideDifference } from "./besides.mjs";
import { align } from "./align.mjs";
import { endsPart, fieldsPart } from "./ends.mjs";
import { runPart, RUN_WORDS } from "./runs.mjs";
import { verdictOf } from "./verdict.mjs";
import { namesFrom, readText } from "../shared/listing.mjs";
import { Names, counted, isolated } from "../shared/names.mjs";

const WHAT = { desk: "a file of the desk", log: "a hearing's log", list: "a packed list", text: "a text" };

const NONE = { title: "", takes: [], texts: {} };

/** @typedef {{title: string, takes: string[], texts: {[text: string]: string}}} Beside */
/** @typedef {{name: string, words?: string, bytes?: Uint8Array, reason?: string, image?: Uint8Array | null, beside?: Beside, record?: Record}} Side */

/** A side with names, for what is said of it. */
const named = side => side && { ...side, names: new Names(side.beside?.takes, side.beside?.texts) };

/** A file as something to compare: an image, or a hearing with its list; or why it is neither, and its bytes as an image's where they are as many. */
async function side(name, bytes) {
  const found = recognize(bytes, name), image = bytes.length === IMAGE ? bytes : null;
  if (found.kind === "unknown") return { name, bytes, reason: found.reason, image, beside: NONE };
  if (found.kind === "image") return { name, image: found.image, beside: NONE, words: `an image${found.old ? " of the old form" : ""}` };
  try {
    const hearing = found.kind === "desk" ? fromFile(found.text) : found.kind === "log" ? await fromLog(found.text) : { ...emptyHearing(), list: found.list };
    return played(name, hearing, WHAT[found.kind], found.text);
  } catch (e) {
    if (!(e instanceof Unreadable)) throw e;
    return { name, bytes, reason: e.message };
  }
}

/** text: a step list's own text, whose comments are names of takes. */
function played(name, hearing, what, text = null) {
  const record = new Record(begun(hearing), hearing.list), noted = what === WHAT.text && namesFrom(record, readText(text).comments).takes;
  const beside = { title: hearing.title, takes: noted || hearing.takes, texts: hearing.texts };
  return { name, record, image: record.end.image, beside, words: `${what}, ${counted(record.length, "step")}` };
}

const INTRODUCTION = "Open two files: lists of steps, images old and new, hearings of the desk. Nothing leaves this page.";

/**
 * What a file is, or why it can't be opened.
 * @param {Side} side
 */
function fileWords({ reason, image, words }) {
  return reason ? ` can't be opened: ${reason}${image ? "; its bytes are compared as an image's" : ""}` : `: ${words}`;
}

export class Compare {
  /** desk(): the desk's hearing, to compare with. */
  constructor(desk) {
    this.desk = desk;
    /** @type {(Side | null)[]} */
    this.sides = [null, null];
    this.draw();
  }

  draw() {
    const [a, b] = this.sides.map(named);
    for (const side of [a, b]) if (side?.record) side.lines = toText(side.record.list).split("\n");
    replace(byId("compare-part"), el("div", { class: "compare" },
      el("h1", {}, "Two files side by side"),
      el("div", { class: "files" }, this.column(0), el("span", {}), this.column(1)),
      el("div", { id: "difference", role: "status" }, a && b ? this.found(a, b) : el("p", { class: "prose" }, INTRODUCTION))));
  }

  found(a, b) {
    const runs = a.record && b.record ? align(a.record, b.record) : null, [alike, sentence, more] = verdictOf(a, b, runs);
    const jump = runs?.some(r => r.kind === "other") ? button("Go to the difference", () => this.jump(), { class: "btn go" }) : null;
    const beside = besideDifference(a.beside ?? NONE, b.beside ?? NONE), ends = a.reason || b.reason ? fieldsPart : endsPart;
    const legend = Object.entries(RUN_WORDS).map(([kind, words]) => el("span", {}, el("i", { class: kind }), words));
    return [
      el("div", { class: "verdict-line" },
        mark(alike ? "tick" : "unequal", 40), el("div", {}, el("p", { class: "big" }, sentence), more ? el("p", {}, more) : null), jump),
      runs && el("p", { class: "compare-legend" }, legend),
      runs?.map(run => runPart(run, a, b)),
      a.image && b.image ? [el("h2", {}, "At the end"), ends(a, b)] : null,
      beside.map(words => el("p", {}, words)),
    ];
  }

  /** To the first run that differs. */
  jump() {
    const run = /** @type {HTMLElement} */ (byId("compare-part").querySelector(".run.other"));
    run.scrollIntoView({ block: "center" });
    run.focus({ preventScroll: true });
  }

  column(i) {
    const at = this.sides[i], put = found => {
      this.sides[i] = found;
      this.draw();
    };
    const open = opener(at ? "Open another\u2026" : "Open a file\u2026", async (name, bytes) => put(await side(name, bytes)), `compare-${i}`);
    const hearing = () => put(played("the desk", this.desk(), "the hearing at the desk"));
    const desk = button("The desk\u2019s hearing", hearing, { class: "btn sm" });
    const found = at ? el("p", {}, el("strong", {}, isolated(at.name)), fileWords(at)) : el("p", { class: "soft" }, i ? "the right one" : "the left one");
    return el("section", { class: "side", "aria-label": i ? "right" : "left" }, found, open, " ", desk);
  }
}
