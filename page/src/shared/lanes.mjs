// The picture of a record: takes as lanes, steps as rows, parcels as arrows from send to receipt.
import { el, svg } from "./dom.mjs";
import { life } from "../../../bindings/js/image.mjs";
import { SHAPES, cross, dead, hatch, kept, stretch } from "./shapes.mjs";
import { fates } from "./parcels.mjs";
import { goneLater, goneSpans } from "./gone.mjs";
import { kindOf, takesIn, tone, FALLEN_BACK } from "./words.mjs";

export const ROW = 26;
const LEFT = 60, RIGHT = 10, BAND = 64, LONGEST_LABEL = 15, SHORTEST_LABEL = 6, LETTER = 6, AT_ONCE = 120, ARRIVED = ["taken", "dropped", "fell"];

// Pictures are numbered, so that each has arrowheads of its own.
let pictures = 0;

/** How wide the lanes of so many takes are: narrower where there are many, so that they fit the room; a phone's is scrolled sideways. */
export function laneWidth(count, room) {
  const most = count < 4 ? 180 : 150;
  return room < 300 ? 122 : Math.max(40, Math.min(most, Math.floor((room - LEFT - RIGHT) / count)));
}

/** Where lanes so wide stand. */
export function lanesOf(wide) {
  return t => LEFT + wide * t;
}

export function pictureWidth(lanes, wide) {
  return lanesOf(wide)(Math.max(lanes, 1)) + RIGHT;
}

const rowY = i => ROW * (i - 0.5);

/**
 * The first so many steps of a record, all rows high: lanes and arrows, and over them the events in bands, so that a long list is laid
 * out only where it is looked at.
 */
export function picture(record, names, shown, wide) {
  const lanes = record.heads[shown].length, x = lanesOf(wide), width = pictureWidth(lanes, wide), own = `picture${++pictures}`;
  const ground = sheet(width, ROW * Math.max(record.length, 1), arrowheads(own));
  const hatching = svg("g", {}), hatched = spans => hatching.append(...spans.map(s => hatchOf(s, shown, x)));
  for (let t = 0; t < lanes; t++) ground.append(...stretches(record, t, shown, x(t)));
  ground.append(hatching);
  for (const parcel of fates(record)) if (parcel.made <= shown) ground.append(arrow(parcel, shown, own, x));
  const bands = [];
  for (let first = 0; first < shown; first += BAND) bands.push(band(record, first, Math.min(first + BAND, shown), names, x, width));
  if (record.length > AT_ONCE) goneLater(record, shown, () => ground.isConnected, hatched);
  else hatched(goneSpans(record, shown));
  return el("div", { class: "picture", "aria-hidden": "true" }, ground, bands);
}

/** A stretch of a lane whose ground is gone. */
function hatchOf({ take, from, to }, shown, x) {
  return hatch(x(take), rowY(from), to === null ? rowY(shown) + ROW / 2 : rowY(to));
}

/** The same in sheets of so many rows, of which each has what is drawn between its first and last row. */
export function bands(record, names, shown, wide, size) {
  const lanes = record.heads[shown].length, x = lanesOf(wide), width = pictureWidth(lanes, wide), own = `picture${++pictures}`, found = [];
  const parcels = fates(record).filter(p => p.made <= shown);
  const lines = Array.from({ length: lanes }, (_, t) => stretches(record, t, shown, x(t))).flat();
  lines.push(...goneSpans(record, shown).map(s => hatchOf(s, shown, x)));
  for (let first = 0; first < record.length; first += size) {
    const last = Math.min(first + size, record.length), drawn = sheet(width, ROW * (last - first), first ? null : arrowheads(own));
    drawn.setAttribute("viewBox", `0 ${ROW * first} ${width} ${ROW * (last - first)}`);
    drawn.append(...lines.filter(line => crosses(line, ROW * first, ROW * last)).map(line => line.cloneNode(true)));
    drawn.append(...parcels.filter(p => p.made <= last && (p.ended ?? shown) > first).map(p => arrow(p, shown, own, x)));
    for (let i = first + 1; i <= Math.min(last, shown); i++) drawn.append(...events(record, i, names, x, rowY(i)));
    found.push(drawn);
  }
  return found;
}

/** Whether a lane's stretch has a part between two heights. */
function crosses(line, top, bottom) {
  const y = Number(line.getAttribute("y"));
  return y < bottom && y + Number(line.getAttribute("height")) > top;
}

function sheet(width, height, ...children) {
  return svg("svg", { class: "drawn", width, height, viewBox: `0 0 ${width} ${height}` }, children);
}

/** The events of the steps after first up to last. */
function band(record, first, last, names, x, width) {
  const top = ROW * first, drawn = sheet(width, ROW * (last - first)), host = el("div", { class: "events" }, drawn);
  for (let i = first + 1; i <= last; i++) drawn.append(...events(record, i, names, x, rowY(i) - top));
  Object.assign(host.style, { top: `${top}px`, width: `${width}px`, height: `${ROW * (last - first)}px` });
  return host;
}

function arrowheads(own) {
  const box = { viewBox: "0 0 8 8", refX: 7, refY: 4, markerWidth: 7, markerHeight: 7, orient: "auto" };
  const head = name => svg("marker", { id: `${own}-${name}`, ...box }, svg("path", { class: `head ${name}`, d: "M0 0L8 4L0 8z" }));
  return svg("defs", {}, ARRIVED.map(head));
}

function styleOf(head) {
  if (!head || head.status === "vanished") return null;
  return `${head.status === "at work" ? "work" : "idle"}${head.mark.frozen ? " frozen" : ""}`;
}

/** One lane: a line for each stretch in which status and freeze stay. */
function stretches(record, t, shown, x) {
  const found = [];
  for (let i = 0; i <= shown; i++) {
    const style = styleOf(record.heads[i][t]), last = found.at(-1);
    if (last?.style === style) last.end = i;
    else found.push({ style, start: i, end: i });
  }
  const top = s => (s.start === 0 ? 0 : rowY(s.start)), bottom = s => (s.end === shown ? rowY(s.end) + ROW / 2 : rowY(s.end + 1));
  const lines = found.filter(s => s.style).map(s => stretch(s.style, x, top(s), bottom(s))), end = rowY(shown) + ROW / 2;
  const first = holds => record.heads.findIndex((heads, i) => i <= shown && heads[t] && holds(heads[t])), from = i => (i ? rowY(i) : 0);
  const signed = first(head => head.mark?.list.length), gone = first(head => head.status === "vanished");
  return [signed < 0 ? null : kept(x, from(signed), end), ...lines, gone < 0 ? null : dead(x, from(gone), end)].filter(Boolean);
}

/** Where a parcel's arrow starts and ends. One from outside starts beside its addressee's lane. */
function ends(parcel, shown, how, x) {
  const to = x(parcel.to), x1 = parcel.from === null ? to - 44 : x(parcel.from), side = x1 < to ? -1 : 1;
  const y2 = how === "waiting" ? rowY(shown) + ROW * 0.45 : rowY(parcel.ended), x2 = to + side * (ARRIVED.includes(how) ? 6 : 16);
  return { x1, y1: Math.max(rowY(parcel.made), 2), x2, y2 };
}

/** A parcel from where it was sent to where it ended; lost: a cross; waiting: an open ring below the last row. */
function arrow(parcel, shown, own, x) {
  const open = parcel.ended === null || parcel.ended > shown, how = open ? "waiting" : parcel.how;
  const { x1, y1, x2, y2 } = ends(parcel, shown, how, x);
  const d = parcel.from === parcel.to ? `M${x1} ${y1}C${x1 + 30} ${y1} ${x1 + 30} ${y2} ${x2} ${y2}` : `M${x1} ${y1}L${x2} ${y2}`;
  return svg("g", {},
    svg("path", { class: `arrow ${how}`, d, "marker-end": ARRIVED.includes(how) ? `url(#${own}-${how})` : null }),
    parcel.from === null && svg("circle", { class: "outside", cx: x1, cy: y1, r: 2.5 }),
    how === "lost" && cross(x2, y2, "lost"),
    open && svg("circle", { class: "waiting", cx: x2, cy: y2, r: 4 }));
}

function shapeOf(kind, reply) {
  const news = tone(reply);
  if (news === "fell") return reply.outcome === FALLEN_BACK ? "falls" : "gone";
  if (news === "unready" || news === "held") return news;
  if (news === "dropped") return "ring";
  return { sign: "signed", freeze: "diamond" }[kind] ?? "dot";
}

const LABELS = {
  sign: (step, head) => `signed ${life(head.mark)}`,
  freeze: () => "frozen",
  write: (step, head, names) => names.text(step.text),
  root: () => "opened",
  new: () => "opened",
  read: () => "reads",
  done: () => "done",
};

function labelOf(step, reply, head, names) {
  const news = tone(reply);
  if (news === "fell") return reply.outcome === FALLEN_BACK ? `falls ${life(head.mark)}` : "vanishes";
  if (news === "unready") return "not ready";
  if (news === "held" || news === "dropped") return news;
  return LABELS[kindOf(step)]?.(step, head, names) ?? "";
}

/** As much of a label as a lane has room for; nothing where that is too little to read. */
function cutTo(label, lane) {
  const most = Math.min(LONGEST_LABEL, Math.floor((lane - 16) / LETTER));
  if (label.length <= most) return label;
  return most < SHORTEST_LABEL ? "" : `${label.slice(0, most - 1)}\u2026`;
}

/** What a step did on its lanes. */
function events(record, i, names, x, y) {
  const { step, reply } = record.before(i), kind = kindOf(step);
  if (kind === "letter") return [];
  return takesIn(step, reply).flatMap(t => {
    const cut = cutTo(labelOf(step, reply, record.heads[i][t], names), x(1) - x(0));
    const words = cut && svg("text", { class: `label ${tone(reply)} ${kind}`, x: x(t) + 12, y: y + 4 }, cut);
    return [SHAPES[shapeOf(kind, reply)](x(t), y), words].filter(Boolean);
  });
}
