// The marks of the five states, the same everywhere: on cards and chips, in lanes, on paper and in the legend. Each is drawn in a box of
// 24 by 24, and each state has a colour and a word beside its shape.
import { el, svg } from "./dom.mjs";

/** @typedef {"draft" | "frozen" | "signed" | "gone" | "vanished"} State */

/** @type {Record<State, string>} */
export const STATE_WORDS = { draft: "draft", frozen: "frozen", signed: "signed", gone: "ground gone", vanished: "vanished" };
/** @type {Record<State, string>} */
export const STATE_MEANINGS = {
  draft: "still being edited",
  frozen: "its editor leaves it alone",
  signed: "kept for good",
  gone: "what it rests on was withdrawn",
  vanished: "withdrawn, and never signed",
};
export const STATES = /** @type {State[]} */ (Object.keys(STATE_WORDS));

const RING = 24, scallop = Array.from({ length: RING }, (_, i) => {
  const turn = (i * 2 * Math.PI) / RING, r = i % 2 ? 9.4 : 11.4;
  return `${i ? "L" : "M"}${(12 + r * Math.sin(turn)).toFixed(2)} ${(12 - r * Math.cos(turn)).toFixed(2)}`;
}).join("");

const line = (/** @type {string} */ d, /** @type {string} */ name) => svg("path", { d, class: `stroke ${name}` });

/** @type {Record<string, () => SVGElement[]>} */
const SHAPES = {
  draft: () => [svg("circle", { cx: 12, cy: 12, r: 9, class: "mark-draft" })],
  frozen: () => [
    svg("path", { d: "M12 1.6 21 6.8V17.2L12 22.4 3 17.2V6.8Z", class: "mark-frozen" }),
    line("M12 6.2v11.6M7 9.1l10 5.8M17 9.1 7 14.9", "ice"),
  ],
  signed: () => [svg("path", { d: `${scallop}Z`, class: "mark-signed" }), line("m7.3 12.4 3.2 3.2 6.3-6.9", "on-signed")],
  gone: () => [svg("path", { d: "M2.5 2.5h19v12.5l-4.75 6.5L12 15l-4.75 6.5L2.5 15Z", class: "mark-gone" }), line("M7 6.2h10M7 10.2h6", "on-gone")],
  vanished: () => [svg("rect", { x: 3, y: 3, width: 18, height: 18, class: "mark-vanished" }), line("m8 8 8 8m0-8-8 8", "cross-out")],
  older: () => [line("M12 4.5a7.5 7.5 0 1 1-7 4.8M3.2 4.2 4.6 10l5.6-2M12 8.6v4l2.6 1.6", "clock")],
  tick: () => [line("m5 12.5 4.6 4.6L19 7.4", "plain")],
  arrow: () => [line("M5 12h13m-5-5.5 5.5 5.5-5.5 5.5", "plain")],
  back: () => [line("M19 12H6m5-5.5L5.5 12l5.5 5.5", "plain")],
  plus: () => [line("M12 5v14M5 12h14", "plain")],
  play: () => [svg("path", { d: "M7 4.5v15l12-7.5Z", class: "filled" })],
  stop: () => [svg("path", { d: "M6.5 5h4v14h-4ZM13.5 5h4v14h-4Z", class: "filled" })],
  moon: () => [line("M19.5 14.5A8 8 0 0 1 9.5 4.5a8 8 0 1 0 10 10Z", "plain")],
  tear: () => [line("M4 5h7l-3 4 6 3-5 3 7 4", "plain")],
  crossed: () => [line("M3 7c7 0 11 10 18 10M3 17c7 0 11-10 18-10", "plain")],
  equal: () => [line("M4 9h16M4 15h16", "plain")],
  unequal: () => [line("M4 9h16M4 15h16M17 4 7 20", "plain")],
};

/**
 * @param {string} kind a state or another sign
 * @param {number} [size]
 */
export function mark(kind, size = 18) {
  const box = { width: size, height: size, viewBox: "0 0 24 24", "aria-hidden": "true", focusable: "false" };
  return svg("svg", { class: `mark m-${kind}`, ...box }, SHAPES[kind]());
}

/**
 * The shapes of a mark for a picture, around a point.
 * @param {string} kind
 * @param {number} x
 * @param {number} y
 * @param {number} size
 */
export function markAt(kind, x, y, size) {
  return svg("g", { class: `mark m-${kind}`, transform: `translate(${x - size / 2} ${y - size / 2}) scale(${size / 24})` }, SHAPES[kind]());
}

/**
 * A state's mark with its word.
 * @param {State} state
 * @param {number} [size]
 */
export function badge(state, size = 18) {
  return el("span", { class: `st s-${state}` }, mark(state, size), STATE_WORDS[state]);
}
