// The shapes of the lanes. States have the marks that they have everywhere; each other kind of event has a shape of its own, so that the
// picture reads in grey.
import { el, svg } from "./dom.mjs";
import { markAt } from "./marks.mjs";

const DIAMOND = (x, y) => `M${x} ${y - 7}L${x + 7} ${y}L${x} ${y + 7}L${x - 7} ${y}z`;

export function cross(x, y, name) {
  return svg("path", { class: `cross ${name}`, d: `M${x - 5} ${y - 5}L${x + 5} ${y + 5}M${x + 5} ${y - 5}L${x - 5} ${y + 5}` });
}

function square(x, y, name, stroke, d) {
  return svg("g", {}, svg("rect", { class: name, x: x - 8, y: y - 8, width: 16, height: 16, rx: 2 }), svg("path", { class: stroke, d }));
}

export const SHAPES = {
  dot: (x, y) => svg("circle", { class: "dot", cx: x, cy: y, r: 4.5 }),
  ring: (x, y) => svg("circle", { class: "ring", cx: x, cy: y, r: 4.5 }),
  diamond: (x, y) => markAt("frozen", x, y, 20),
  held: (x, y) => svg("path", { class: "held", d: DIAMOND(x, y) }),
  falls: (x, y) => svg("path", { class: "falls", d: `M${x - 7} ${y - 6}L${x + 7} ${y - 6}L${x} ${y + 7}z` }),
  gone: (x, y) => svg("g", {}, svg("rect", { class: "under", x: x - 8, y: y - 8, width: 16, height: 16 }), markAt("vanished", x, y, 20)),
  signed: (x, y) => markAt("signed", x, y, 22),
  unready: (x, y) => square(x, y, "unready", "bar", `M${x - 4} ${y}L${x + 4} ${y}`),
};

/** A lane's stretch: thin where the take is idle, thick at work, with an edge where it is frozen. */
export function stretch(style, x, top, bottom) {
  const width = style.includes("frozen") ? 10 : style.includes("work") ? 6 : 2;
  return svg("rect", { class: `lane ${style}`, x: x - width / 2, y: top, width, height: Math.max(bottom - top, 1) });
}

/** Behind a lane from its first signing on: what is signed is kept, whatever comes. */
export function kept(x, top, bottom) {
  return svg("rect", { class: "kept", x: x - 10, y: top, width: 20, height: Math.max(bottom - top, 1) });
}

/** Over a lane whose ground is gone. */
export function hatch(x, top, bottom) {
  const height = Math.max(bottom - top, 1), line = i => `M${x - 6} ${Math.min(top + 7 * i + 7, bottom)}L${x + 6} ${top + 7 * i}`;
  const d = Array.from({ length: Math.ceil(height / 7) }, (_, i) => line(i)).join("");
  return svg("g", { class: "ground-gone", y: top, height },
    svg("rect", { class: "torn", x: x - 6, y: top, width: 12, height }), svg("path", { class: "hatch", d }));
}

/** A lane whose take has vanished. */
export function dead(x, top, bottom) {
  return svg("path", { class: "dead", y: top, height: bottom - top, d: `M${x} ${top}L${x} ${bottom}` });
}

const line = (name, end) => [svg("path", { class: `arrow ${name}`, d: "M2 12L20 12" }), end];

/** @type {[string, () => any][]} */
const LEGEND = [
  ["idle", () => stretch("idle", 14, 2, 22)], ["at work", () => stretch("work", 14, 2, 22)], ["frozen", () => stretch("frozen", 14, 2, 22)],
  ["frozen, at work", () => stretch("work frozen", 14, 2, 22)], ["signed once: kept", () => kept(14, 2, 22)],
  ["ground gone", () => hatch(14, 2, 22)], ["vanished", () => dead(14, 2, 22)],
  ["opens, reads, writes, is done", () => SHAPES.dot(14, 12)],
  ["freezes", () => SHAPES.diamond(14, 12)], ["held", () => SHAPES.held(14, 12)], ["signed", () => SHAPES.signed(14, 12)],
  ["not ready", () => SHAPES.unready(14, 12)], ["falls back", () => SHAPES.falls(14, 12)], ["vanishes", () => SHAPES.gone(14, 12)],
  ["from outside", () => svg("circle", { class: "outside", cx: 14, cy: 12, r: 2.5 })],
  ["parcel that makes its receiver fall", () => line("fell", SHAPES.falls(23, 12))],
  ["parcel taken in", () => line("taken", SHAPES.dot(23, 12))], ["parcel dropped", () => line("dropped", SHAPES.ring(23, 12))],
  ["parcel lost", () => line("lost", cross(23, 12, "lost"))],
  ["parcel waiting", () => line("waiting", svg("circle", { class: "waiting", cx: 23, cy: 12, r: 4 }))],
];

/** What the shapes mean. */
export function legend() {
  const shape = draw => svg("svg", { class: "drawn", width: 30, height: 24, "aria-hidden": "true" }, draw());
  const entry = ([words, draw]) => el("span", { class: "legend-entry" }, shape(draw), words);
  return el("details", { class: "legend", open: true }, el("summary", {}, "what the shapes mean"), LEGEND.map(entry));
}
