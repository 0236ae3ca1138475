// A strip of the hearing: a tick for each fall, and the worst window of a width that can be set. The count is the library's.
import { el, svg, replace } from "./dom.mjs";
import { worstWindow, Refusal } from "../../../bindings/js/ledger.mjs";
import { counted } from "./names.mjs";
import { tone } from "./words.mjs";

const WIDE = 640, HIGH = 34;

export class Falls {
  constructor(host) {
    const label = "width of the window, in replies";
    this.width = el("input", { type: "number", min: 1, value: 8, "aria-label": label, oninput: () => this.draw() });
    this.words = el("span", { role: "status" });
    this.strip = el("div", { class: "strip" });
    const width = el("label", {}, "in windows of ", this.width, " replies. ");
    replace(host, el("p", { class: "falls-words" }, el("strong", {}, "Falls "), width, this.words), this.strip);
  }

  show(record, shown = record.length) {
    this.record = record;
    this.shown = shown;
    this.draw();
  }

  draw() {
    const wide = Math.trunc(Number(this.width.value)), worst = this.ask(this.record.packedReplies.subarray(0, 8 * this.shown), wide);
    replace(this.strip, drawn(this.record, this.shown, worst, wide));
  }

  /** The worst window, or null with the reason in words. */
  ask(replies, wide) {
    try {
      const worst = worstWindow(replies, wide), last = Math.min(worst.place + wide, this.shown);
      const steps = last > worst.place + 1 ? `steps ${worst.place + 1} to ${last}` : `step ${last}`;
      const found = `Most falls within ${counted(wide, "reply", "replies")}: ${worst.count}, in ${steps}.`;
      this.words.textContent = worst.count ? found : "No falls.";
      return worst;
    } catch (e) {
      if (!(e instanceof Refusal) && !(e instanceof RangeError)) throw e;
      this.words.textContent = e.message;
      return null;
    }
  }
}

/** The strip: a box for the worst window, a tick a fall. */
function drawn(record, shown, worst, width) {
  const each = WIDE / Math.max(shown, 1), places = [];
  for (let i = 0; i < shown; i++) if (tone(record.replies[i]) === "fell") places.push(i);
  const tick = i => svg("rect", { class: "fall", x: each * i, y: 8, width: Math.max(each * 0.8, 2), height: HIGH - 11 });
  const box = { viewBox: `0 0 ${WIDE} ${HIGH}`, preserveAspectRatio: "none" };
  const label = `${counted(places.length, "fall")} in ${counted(shown, "step")}`;
  return svg("svg", { class: "falls-strip", role: "img", "aria-label": label, ...box },
    worst?.count ? windowBox(each * worst.place, each * width) : null,
    svg("line", { class: "axis", x1: 0, x2: WIDE, y1: HIGH - 3, y2: HIGH - 3 }),
    places.map(tick));
}

function windowBox(x, width) {
  return svg("rect", { class: "worst", x, y: 2, width: Math.min(width, WIDE - x), height: HIGH - 4 });
}
