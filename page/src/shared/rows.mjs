// The rows beside the picture: a list of the steps with their replies, in which one is chosen with mouse or keys.
import { el, replace } from "./dom.mjs";
import { nameOf } from "../../../bindings/js/refusals.mjs";
import { picture, ROW, laneWidth, lanesOf, pictureWidth } from "./lanes.mjs";
import { tone, REFUSED } from "./words.mjs";

// Lanes so narrow have the number alone.
const NARROW = 64;
const KEYS = { ArrowDown: 1, j: 1, ArrowUp: -1, k: -1, PageDown: 10, PageUp: -10, Home: -Infinity, End: Infinity };

// A line so long may be cut, and is shown whole to the mouse.
const LONG = 24;

/** A take's name over its lane, as wide as that. */
export function called(t, names, lane) {
  const wide = lane - 10, name = el("span", { class: "lane-name", title: names.numbered(t) }, lane < NARROW ? String(t) : names.numbered(t));
  Object.assign(name.style, { left: `calc(var(--rows) + ${lanesOf(lane)(t) - wide / 2}px)`, width: `${wide}px` });
  return name;
}

export class Rows {
  /** host: an empty element; chosen(count) is told which moment was chosen, closed() that somebody asked for one that is not shown yet. */
  constructor(host, chosen, closed = () => {}) {
    this.chosen = chosen;
    this.closed = closed;
    this.count = 0;
    this.names = el("div", { class: "lane-names", "aria-hidden": "true" });
    const said = { role: "listbox", tabindex: "0", "aria-label": "steps with their replies" };
    this.list = el("ol", { class: "rows", ...said, onkeydown: e => this.key(e), onclick: e => this.click(e) });
    this.lanes = el("div", { class: "lanes", onclick: e => this.pick(this.rowAt(e.clientY)) });
    this.band = el("div", { class: "band", hidden: true });
    replace(host, this.names, el("div", { class: "rows-and-lanes" }, this.band, this.list, this.lanes));
    this.scroller = host;
  }

  /** Draws a record; lines: each step's text; shown: how many replies are shown. */
  show(record, lines, names, shown) {
    this.record = record;
    this.shown = shown;
    this.naming = names;
    replace(this.list, lines.map((line, i) => this.row(line, i + 1)));
    const count = record.heads[shown].length, wide = laneWidth(count, this.scroller.clientWidth - this.list.offsetWidth);
    this.showNames(count, names, wide);
    replace(this.lanes, picture(record, names, shown, wide));
    this.mark(Math.min(this.count, shown));
  }

  /** The takes over their lanes, with a gap between them. */
  showNames(count, names, lane) {
    this.names.style.width = `calc(var(--rows) + ${pictureWidth(count, lane)}px)`;
    replace(this.names, el("span", { class: "corner" }, "step and reply"), Array.from({ length: count }, (_, t) => called(t, names, lane)));
  }

  row(line, i) {
    const reply = this.record.replies[i - 1], hidden = i > this.shown, outcome = reply.outcome;
    const word = hidden ? "?" : outcome >= REFUSED ? `${outcome} ${nameOf(outcome)}` : nameOf(outcome);
    const said = { role: "option", "aria-selected": "false", id: `${this.scroller.id}-${i}` };
    return el("li", { ...said, class: hidden ? "hidden" : tone(reply), "data-i": i },
      el("span", { class: "number" }, i), el("span", { class: "line", title: line.length > LONG ? line : null }, line), el("span", { class: "reply" }, word));
  }

  click(event) {
    const row = event.target.closest("li");
    if (row && Number(row.dataset.i) > this.shown) this.closed();
    else if (row) this.pick(Number(row.dataset.i));
  }

  /** The row at a height of the window. */
  rowAt(y) {
    return Math.floor((y - this.lanes.getBoundingClientRect().top) / ROW) + 1;
  }

  key(event) {
    const by = KEYS[event.key];
    if (by === undefined || event.ctrlKey || event.metaKey || event.altKey) return;
    event.preventDefault();
    this.pick(this.count + by);
  }

  pick(count) {
    const to = Math.max(0, Math.min(count, this.shown));
    this.mark(to);
    this.scrollTo(to);
    this.chosen(to);
  }

  mark(count) {
    this.list.children[this.count - 1]?.setAttribute("aria-selected", "false");
    this.count = count;
    const row = this.list.children[count - 1];
    row?.setAttribute("aria-selected", "true");
    this.band.hidden = !row;
    this.band.style.top = `${ROW * (count - 1)}px`;
    if (row) this.list.setAttribute("aria-activedescendant", row.id);
    else this.list.removeAttribute("aria-activedescendant");
  }

  /** Scrolls the chosen row into the list's window, and nothing else of the page. */
  scrollTo(count) {
    const box = this.scroller, top = ROW * (count - 1), head = this.names.offsetHeight;
    if (top < box.scrollTop) box.scrollTop = Math.max(0, top);
    else if (top + ROW + head > box.scrollTop + box.clientHeight) box.scrollTop = top + ROW + head - box.clientHeight + ROW;
  }
}
