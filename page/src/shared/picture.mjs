// The picture: a card for each take, its ground below it, and lines from each to what it was set from. A card's outline is its state.
// Where the cards stand is worked out from the lines; the lines are drawn from where the cards stand, so that they follow every layout.
import { el, svg, replace } from "./dom.mjs";
import { mark, badge } from "./marks.mjs";
import { stateOf } from "./states.mjs";
import { linesBelow, linesOf } from "./grounds.mjs";
import { capital } from "./names.mjs";

/** @typedef {import("./record.mjs").Record} Record */
/** @typedef {import("./grounds.mjs").Line} Line */
/** @typedef {{x: number, level: number}} Place */

/**
 * How a picture is shown. Lines that light up (lit), and takes; whether those of a chosen take light up too (trace); takes that are
 * picked, have just changed (fresh), were held or signed (stamped); who is told of a click; what stands beside a card; which takes are shown, where not all
 * are; the lines that settle where the cards stand (layout); and takes that are still shown as at an earlier moment.
 * @typedef {{
 *   lit?: Line[], litTakes?: number[], trace?: boolean, picked?: number[], fresh?: number[], held?: number[], stamped?: number[],
 *   pick?: ((take: number) => void) | null, beside?: (take: number) => Node | null, shown?: number[] | null, layout?: Line[],
 *   earlier?: {count: number, takes: number[]}
 * }} How
 */

// Sizes of letters, and gaps between levels, in em: letters come before gaps, as long as a line has room for its word. Down to LEAST no
// word of a title is broken.
const SIZES = [1.24, 1.16, 1.08, 1, 0.92, 0.85, 0.78, 0.72, 0.66, 0.6, 0.55, 0.5, 0.45, 0.4], WIDE = [7.5, 5.5, 4], TIGHT = [3, 2.2, 1.5], LEAST = 0.55;
const FITS = [...SIZES.filter(s => s >= 0.92).flatMap(size => WIDE.map(gap => ({ size, gap }))), ...SIZES.filter(s => s <= 1).flatMap(size => TIGHT.map(gap => ({ size, gap })))];

/**
 * How high each take stands: one above the highest that it was set from.
 * @param {number} count of takes
 * @param {Line[]} lines
 * @returns {number[]}
 */
function levels(count, lines) {
  const found = Array(count).fill(0);
  for (let round = 0; round < count; round++) {
    for (const { from, to } of lines) if (from !== to) found[from] = Math.min(count, Math.max(found[from], found[to] + 1));
  }
  return found;
}

/**
 * Where each take stands, in columns and levels; ground is below. A page stands over the middle of what it was set from where there is
 * room, and a ground under the middle of what stands on it.
 * @param {number} count
 * @param {Line[]} lines
 * @returns {Place[]}
 */
export function places(count, lines) {
  const level = levels(count, lines), order = Array.from({ length: count }, (_, t) => t).sort((a, b) => level[a] - level[b] || a - b);
  /** @type {Place[]} */
  const found = [];
  const apart = (/** @type {Place} */ p, /** @type {number} */ t, /** @type {number} */ x) => p.level !== level[t] || Math.abs(p.x - x) >= 1;
  const free = (/** @type {number} */ t, /** @type {number} */ x) => found.every((p, u) => u === t || !p || apart(p, t, x));
  const middle = (/** @type {number[]} */ xs) => Math.round(xs.reduce((a, b) => a + b, 0) / xs.length * 2) / 2;
  for (const t of order) {
    const below = lines.filter(l => l.from === t && l.to !== t && found[l.to]).map(l => found[l.to].x), wanted = below.length ? middle(below) : 0;
    const steps = below.length ? [0, ...Array.from({ length: 2 * count }, (_, k) => (k + 1) / 2).flatMap(d => [d, -d])] : Array.from({ length: count + 1 }, (_, k) => k);
    found[t] = { x: wanted + (steps.find(d => free(t, wanted + d)) ?? count), level: level[t] };
  }
  for (const t of [...order].reverse()) {
    const above = lines.filter(l => l.to === t && l.from !== t).map(l => found[l.from].x), x = above.length ? middle(above) : found[t].x;
    if (free(t, x)) found[t] = { ...found[t], x };
  }
  return found;
}

/**
 * Where the takes stand that are shown, or will be; the others take no room.
 * @param {number[]} shown
 * @param {Line[]} layout
 * @param {number[] | null} only
 * @returns {{[take: number]: Place}}
 */
function placesOf(shown, layout, only) {
  const named = [...new Set([...shown, ...layout.flatMap(l => [l.from, l.to])])], takes = named.filter(t => only?.includes(t) ?? true).sort((a, b) => a - b);
  const nth = (/** @type {number} */ t) => takes.indexOf(t), inside = layout.filter(l => takes.includes(l.from) && takes.includes(l.to));
  const found = places(takes.length, inside.map(l => ({ ...l, from: nth(l.from), to: nth(l.to) })));
  return Object.fromEntries(takes.map((t, i) => [t, found[i]]));
}

/**
 * The moments that a picture shows: the present one, and an earlier one for the takes that are still shown as they were.
 * @param {Record} record
 * @param {number} count
 * @param {How} how
 */
function momentsOf(record, count, { earlier = { count: 0, takes: [] } }) {
  const late = (/** @type {number} */ t) => earlier.takes.includes(t);
  const moment = (/** @type {number} */ n, /** @type {(take: number) => boolean} */ has) => ({ count: n, session: record.at(n), heads: record.heads[n], has });
  return [moment(count, t => !late(t)), ...(earlier.takes.length ? [moment(earlier.count, late)] : [])];
}

/**
 * The text that a take had before it vanished.
 * @param {Record} record
 * @param {number} count
 * @param {number} take
 */
export function lastText(record, count, take) {
  const live = record.heads.slice(0, count + 1).reverse().find(heads => heads[take]?.mark);
  return live ? live[take].text : 0;
}

export class Picture {
  /** @type {Line[]} */ lines = [];
  /** @type {string[]} */ lit = [];
  /** @type {string[]} */ chosen = [];
  /** @type {Map<number, HTMLElement>} */ nodes = new Map();
  trace = false;

  /** @param {HTMLElement} host */
  constructor(host) {
    this.host = host;
    this.drawing = svg("svg", { class: "lines", "aria-hidden": "true" });
    this.cards = el("div", { class: "cards" });
    replace(host, this.drawing, this.cards);
    new ResizeObserver(() => this.fit()).observe(host);
    for (const event of ["pointerover", "focusin"]) this.cards.addEventListener(event, e => this.choose(e.target.closest("[data-take]")));
    for (const event of ["pointerout", "focusout"]) this.cards.addEventListener(event, () => this.choose(null));
  }

  /**
   * @param {Record} record
   * @param {number} count
   * @param {import("./names.mjs").Names} names
   * @param {How} [how]
   */
  show(record, count, names, how = {}) {
    const shown = record.heads[count].map((_, t) => t).filter(t => how.shown?.includes(t) ?? true), moments = momentsOf(record, count, how);
    this.lines = moments.flatMap(m => linesOf(record, m.count).filter(l => m.has(l.from) && shown.includes(l.from) && shown.includes(l.to)));
    this.lit = (how.lit ?? []).map(l => `${l.from},${l.to}`);
    this.trace = how.trace ?? false;
    this.chosen = [];
    const at = placesOf(shown, how.layout ?? this.lines, how.shown ?? null), xs = shown.map(t => at[t].x);
    const least = Math.min(...xs), top = Math.max(...shown.map(t => at[t].level), 0);
    this.nodes = new Map();
    const litTakes = new Set(how.litTakes ?? []);
    replace(this.cards, shown.sort((a, b) => at[b].level - at[a].level || at[a].x - at[b].x).map(t => {
      const { session, heads, count: moment } = moments.find(m => m.has(t)) ?? moments[0], state = stateOf(session, t);
      const text = state === "vanished" ? lastText(record, moment, t) : heads[t].text;
      const node = this.node(t, { state, head: heads[t], text, names, lit: litTakes.has(t), how });
      node.style.gridColumn = `${2 * (at[t].x - least) + 1} / span 2`;
      node.style.gridRow = String(top - at[t].level + 1);
      return node;
    }));
    const columns = Math.max(...xs) - least + 1;
    this.cards.style.gridTemplateColumns = `repeat(${Math.ceil(2 * columns)}, minmax(0, 1fr))`;
    this.cards.style.gridTemplateRows = `repeat(${top + 1}, auto)`;
    this.host.dataset.columns = String(Math.ceil(columns));
    this.host.dataset.levels = String(top + 1);
    this.fit();
  }

  /** As large as its room lets it be. */
  fit() {
    const { host, cards } = this;
    if (!this.nodes.size || !host.clientHeight) return;
    cards.style.height = "auto";
    cards.classList.add("fitting");
    const titles = [...cards.querySelectorAll(".ttl")], whole = () => titles.every(t => t.scrollWidth <= t.clientWidth);
    const fits = (/** @type {{size: number, gap: number}} */ { size, gap }) => {
      host.style.fontSize = `${size}em`;
      cards.style.setProperty("--gap", `${gap}em`);
      return cards.offsetHeight <= host.clientHeight && cards.scrollWidth <= host.clientWidth;
    };
    const found = FITS.some(f => f.size >= LEAST && fits(f) && whole());
    cards.classList.remove("fitting");
    if (!found) FITS.some(fits);
    cards.style.height = "";
    this.draw();
  }

  /** Lights up what the chosen take rests on, through others too. */
  choose(card) {
    const lit = card && this.trace ? linesBelow(this.lines, Number(card.dataset.take)).map(l => `${l.from},${l.to}`) : [];
    if (lit.join() === this.chosen.join()) return;
    this.chosen = lit;
    this.draw();
  }

  /**
   * Points at a take's card, or at none.
   * @param {string | null} take
   */
  point(take) {
    for (const [t, card] of this.nodes) card.classList.toggle("pointed", String(t) === take);
  }

  /** A take's card, and what stands beside it. */
  node(t, { state, head, text, names, lit, how }) {
    const { pick = null, picked = [], beside = () => null, fresh = [], held = [], stamped = [] } = how, chosen = picked.includes(t);
    const sealed = (head.mark?.list.length ?? 0) > 0, kept = el("span", {}, `signed: ${names.text(head.saved)}`);
    const classes = `card s-${state}${lit ? " lit" : ""}${chosen ? " picked" : ""}${held.includes(t) ? " held" : fresh.includes(t) ? " fresh" : ""}`;
    const clicked = pick ? { type: "button", "aria-pressed": String(chosen), onclick: () => pick(t) } : this.trace ? { tabindex: 0 } : {};
    const card = el(pick ? "button" : "div", { class: classes, "data-take": t, "data-state": state, "data-focus": `card ${t}`, ...clicked },
      chosen ? el("span", { class: "tab" }, "your pick") : null,
      el("span", { class: "ttl" }, capital(names.take(t))),
      el("span", { class: "txt" }, names.plain(text)),
      badge(state, 20),
      head.mark?.frozen && state === "gone" ? el("span", { class: "st s-frozen also" }, mark("frozen", 16), "still frozen") : null,
      sealed && state !== "signed" ? el("span", { class: "trace" }, mark("signed", 16), kept) : null,
      sealed ? el("span", { class: `stamp${stamped.includes(t) ? " fresh" : ""}` }, mark("signed", 40)) : null);
    this.nodes.set(t, card);
    return el("div", { class: "node" }, card, beside(t));
  }

  /** Draws the lines anew, from where the cards stand now. */
  draw() {
    const box = this.host.getBoundingClientRect(), where = new Map([...this.nodes].map(([t, node]) => {
      const r = node.getBoundingClientRect();
      return [t, { x: (r.left + r.right) / 2 - box.left, top: r.top - box.top, bottom: r.bottom - box.top }];
    }));
    const size = { width: box.width, height: box.height, viewBox: `0 0 ${box.width} ${box.height}` };
    for (const [name, value] of Object.entries(size)) this.drawing.setAttribute(name, String(value));
    const lit = ({ from, to }) => [...this.lit, ...this.chosen].includes(`${from},${to}`);
    const fresh = (/** @type {Line} */ { from }) => this.nodes.get(from)?.classList.contains("fresh") ?? false;
    const sorted = [...this.lines].sort((a, b) => Number(lit(a)) - Number(lit(b)));
    const parts = sorted.map(line => {
      const a = where.get(line.from), b = where.get(line.to);
      return a && b ? drawn(line, a, b, `${lit(line) ? " lit-line" : ""}${fresh(line) ? " fresh" : ""}`) : { body: null, label: null };
    });
    replace(this.drawing, parts.map(p => p.body), parts.map(p => p.label));
  }
}

const WORDS = { plain: "set from", withdrawn: "withdrawn", together: "signed together" };

/**
 * A line from a card down to its ground: plain, lit, broken where the ground was withdrawn, dotted where both were signed together; and the
 * word on it, which stands over all lines.
 */
function drawn({ kind, word = WORDS[kind] }, a, b, more) {
  const lean = Math.max(-60, Math.min(60, (a.x - b.x) * 0.25)), x = b.x + lean, y1 = a.bottom + 1, y2 = b.top - 4;
  const my = (y1 + y2) / 2, mx = (a.x + x) / 2, tear = `M${mx - 9} ${my + 4}l4.5 -8 4.5 8 4.5 -8 4.5 8`;
  const d = `M${a.x} ${y1}C${a.x} ${my} ${x} ${my} ${x} ${y2 - 6}`, slope = x - a.x, shift = slope > 40 ? -12 : slope < -40 ? 14 : 4;
  const body = svg("g", { class: `line ${kind}${more}` },
    more.includes("lit") ? svg("path", { class: "glow", d }) : null,
    svg("path", { class: "body", d }),
    kind === "withdrawn" ? [svg("circle", { class: "gap", cx: mx, cy: my, r: 11 }), svg("path", { class: "break", d: tear })] : null,
    kind === "together" ? null : svg("path", { class: "head", d: `M${x - 6} ${y2 - 10}L${x} ${y2}L${x + 6} ${y2 - 10}Z` }));
  return { body, label: y2 - y1 > 30 ? svg("text", { class: `line-label ${kind}`, x: mx + 15, y: my + shift }, word) : null };
}
