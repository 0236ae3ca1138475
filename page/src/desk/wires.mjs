// Lines between the cards of the board: what the chosen card rests on, what was set from a chosen name, what a withdrawal would reach. Each
// line is one "set from", from the card that was set to its ground. Lines run in the gaps between the cards, and behind them.
import { svg } from "../shared/dom.mjs";

/** @typedef {import("./cards.mjs").Card} Card */
/** @typedef {import("./board-cards.mjs").Light} Light */
/** @typedef {{from: number, to: number, direct: boolean}} Wire from a take to its ground; direct: from or to the chosen card */
/** @typedef {[number, number]} Point across and down; or a way, as [-1, 0] to the left */
/** @typedef {{points: Point[], way: Point, over: number}} Route its points, the way it comes in, and how many cards it runs over */
/** @typedef {{l: number, r: number, t: number, b: number, x: number, y: number, name: boolean}} Box */

// So long is the head of a line; what a bend and a crossed card cost beside the way.
const HEAD = 7, BEND = 20, CROSSED = 100000;

/** The lines on the ways from a card to one ground of it. */
function waysTo(card, ground) {
  const way = card.below.get(ground);
  return way ? [card.take, ...way, ground].slice(1).map((to, i) => [[card.take, ...way][i], to]) : [];
}

/**
 * The lines that a light asks for.
 * @param {Card[]} cards
 * @param {Light} light
 * @returns {Wire[]}
 */
export function wiresOf(cards, light) {
  const chosen = light.chosen === null ? null : cards[light.chosen];
  if (!chosen) return [];
  const up = light.torn.size > 0 || chosen.kind === "name", reached = light.torn.size ? light.torn : light.lit;
  const pairs = up ? [...reached.keys()].flatMap(t => waysTo(cards[t], chosen.take)) : chosen.edges;
  const found = new Map(pairs.map(([from, to]) => [`${from} ${to}`, { from, to, direct: (up ? to : from) === chosen.take }]));
  return [...found.values()];
}

/** @returns {Box | null} */
function boxOf(host, take, cards) {
  const shown = host.querySelector(`[data-card="${take}"]`), at = host.getBoundingClientRect();
  if (!shown) return null;
  const { left, right, top, bottom } = shown.getBoundingClientRect(), x = host.scrollLeft - at.left - host.clientLeft, y = host.scrollTop - at.top - host.clientTop;
  const [l, r, t, b] = [left + x, right + x, top + y, bottom + y];
  return { l, r, t, b, x: (l + r) / 2, y: (t + b) / 2, name: cards[take].kind === "name" };
}

/**
 * The head of a line that ends at a point and comes from a side.
 * @param {Point} at
 * @param {Point} way
 */
function headAt([x, y], [dx, dy]) {
  return `M${x} ${y}L${x - HEAD * dx - 5 * dy} ${y - HEAD * dy - 5 * dx}L${x - HEAD * dx + 5 * dy} ${y - HEAD * dy + 5 * dx}Z`;
}

/**
 * The four doors of a card: where a line meets its edge, where it runs beside it, and the way in.
 * @param {Box} box
 * @param {number} off
 * @returns {{edge: Point, beside: Point, way: Point}[]}
 */
function doors({ l, r, t, b, x, y }, off, shift = 0) {
  const high = Math.min(y, t + 18), at = x + shift;
  return [{ edge: [at, t], beside: [at, t - off], way: [0, 1] }, { edge: [at, b], beside: [at, b + off], way: [0, -1] }, { edge: [l, high], beside: [l - off, high], way: [1, 0] }, { edge: [r, high], beside: [r + off, high], way: [-1, 0] }];
}

/**
 * How many cards a straight part of a line runs over.
 * @param {Point} from
 * @param {Point} to
 * @param {Box[]} boxes
 */
function crossed([x, y], [u, v], boxes) {
  const [l, r, t, b] = [Math.min(x, u), Math.max(x, u), Math.min(y, v), Math.max(y, v)];
  return boxes.filter(c => l < c.r - 2 && r > c.l + 2 && t < c.b - 2 && b > c.t + 2).length;
}

/**
 * What a way by these points costs: its length, its bends, and the cards that it crosses.
 * @param {Point[]} points
 * @param {Box[]} boxes
 */
function costOf(points, boxes) {
  return points.slice(1).reduce((sum, q, i) => {
    const p = points[i], far = Math.abs(p[0] - q[0]) + Math.abs(p[1] - q[1]);
    return far ? sum + far + BEND + CROSSED * crossed(p, q, boxes) : sum;
  }, 0);
}

/**
 * Straight across a gap, where nothing stands between.
 * @param {Box} a
 * @param {Box} b
 * @param {Box[]} boxes
 * @returns {Route | null}
 */
function straight(a, b, boxes) {
  const high = Math.max(a.t, b.t) + 14, far = Math.max(a.l, b.l) / 2 + Math.min(a.r, b.r) / 2, level = high < Math.min(a.b, b.b), over = Math.min(a.r, b.r) - Math.max(a.l, b.l) > 40;
  /** @type {[boolean, Point, Point, Point][]} */
  const ways = [[level && b.r <= a.l, [a.l, high], [b.r, high], [-1, 0]], [level && b.l >= a.r, [a.r, high], [b.l, high], [1, 0]], [over && b.b <= a.t, [far, a.t], [far, b.b], [0, -1]], [over && b.t >= a.b, [far, a.b], [far, b.t], [0, 1]]];
  const found = ways.find(([can, from, to]) => can && !crossed(from, to, boxes));
  return found ? { points: [found[1], found[2]], way: found[3], over: 0 } : null;
}

/**
 * The best way by the gaps between the cards: out at a door, along a row, along a column, and in at a door.
 * @param {Box} a
 * @param {Box} b
 * @param {Box[]} boxes
 * @param {number} off
 * @param {number} shift
 * @returns {Route}
 */
function around(a, b, boxes, off, shift) {
  const columns = [...new Set([a, b, ...boxes].flatMap(c => [c.l - off, c.r + off]))], all = [...boxes, a, b];
  /** @type {Route} */
  let best = { points: [], way: [0, 0], over: 0 };
  let least = Infinity;
  for (const from of doors(a, off, shift)) for (const to of doors(b, off)) for (const x of columns) {
    /** @type {Point[]} */
    const points = [from.edge, from.beside, [x, from.beside[1]], [x, to.beside[1]], to.beside, to.edge], cost = costOf(points, all);
    if (cost < least) [best, least] = [{ points, way: to.way, over: Math.floor(cost / CROSSED) }, cost];
  }
  return best;
}

/**
 * Draws the lines on the board: over the cards' edges, but behind a card that lies in the way.
 * @param {HTMLElement} host
 * @param {Card[]} cards
 * @param {Light} light
 */
export function drawWires(host, cards, light) {
  for (const old of host.querySelectorAll("svg.wires")) old.remove();
  const wires = wiresOf(cards, light), off = parseFloat(getComputedStyle(host).getPropertyValue("--gap")) / 2, used = new Map(), low = [], high = [];
  if (!wires.length) return;
  const all = cards.map(c => boxOf(host, c.take, cards));
  for (const wire of wires) {
    const a = all[wire.from], b = all[wire.to], nth = used.get(wire.from) ?? 0, others = /** @type {Box[]} */ (all.filter(c => c !== null && c !== a && c !== b));
    const found = a && b && (straight(a, b, others) ?? around(a, b, others, off, 12 * nth));
    used.set(wire.from, nth + 1);
    if (!found) continue;
    const { points, way, over } = found, end = points[points.length - 1], body = `M${[...points.slice(0, -1), [end[0] - HEAD * way[0], end[1] - HEAD * way[1]]].map(p => p.join(" ")).join("L")}`;
    const part = (...paths) => svg("g", { class: `wire ${wire.direct ? "direct" : "through"}`, "data-wire": `${wire.from} ${wire.to}` }, paths);
    const line = [svg("path", { d: body, class: "halo" }), svg("path", { d: body, class: "body" })], tip = svg("path", { d: headAt(end, way), class: "point" });
    if (over) low.push(part(...line, tip));
    else high.push(part(...line, tip));
  }
  const size = { width: host.clientWidth, height: host.scrollHeight, "aria-hidden": "true" }, name = light.torn.size ? " broken" : "";
  host.append(svg("svg", { class: `wires low${name}`, ...size }, low), svg("svg", { class: `wires${name}`, ...size }, high));
}
