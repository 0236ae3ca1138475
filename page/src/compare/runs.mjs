// The runs of two aligned lists, in two columns: folded where they are the same, with threads where only the order differs.
import { el, svg } from "../shared/dom.mjs";
import { mark } from "../shared/marks.mjs";
import { effect, kindOf, takesIn, verdict, REFUSED } from "../shared/words.mjs";
import { capital, counted, listed } from "../shared/names.mjs";

export const RUN_WORDS = { same: "the same", order: "same up to order", other: "different" };
const IN_ANOTHER_ORDER = "the same steps, about different takes; both orders end alike";
const LINE = 38, GAP = 72;

/** Whom a step is about: who does it, and to whom it sends. */
function affectedBy(step, reply) {
  return kindOf(step) === "send" && reply.outcome < REFUSED ? [step.take, step.other] : takesIn(step, reply);
}

/** A line of one side. */
function stepLine({ record, names, lines }, i, telling) {
  const step = record.steps[i], reply = record.replies[i], takes = telling ? affectedBy(step, reply) : [];
  const affects = takes.length ? el("small", { class: "soft" }, ` affects ${listed(takes.map(t => names.take(t)))}`) : null;
  return el("div", { class: "step-line", "data-step": i + 1, title: lines[i] },
    el("span", { class: "no" }, i + 1),
    el("span", {}, capital(effect(step, reply, names)), affects),
    el("span", { class: "rep" }, verdict(reply)));
}

function column(side, places, telling) {
  const lines = places.map(i => stepLine(side, i, telling));
  return el("div", { class: "column" }, lines.length ? lines : el("p", { class: "soft" }, "nothing here"));
}

function sameRun({ left, right }, a, b) {
  const places = left.length > 1 ? `${left[0] + 1} to ${left.at(-1) + 1}` : `${left[0] + 1}`;
  return el("details", { class: "run same" },
    el("summary", {}, el("b", {}, `${counted(left.length, "step")} the same`), ` ${places}`),
    el("div", { class: "columns" }, column(a, left, false), el("span", {}), column(b, right, false)));
}

/** A run of both sides. */
export function runPart(run, a, b) {
  const { kind, left, right } = run, order = kind === "order", one = left.length ? "left" : "right";
  if (kind === "same") return sameRun(run, a, b);
  const said = order ? IN_ANOTHER_ORDER : left.length && right.length ? "" : `only on the ${one}`;
  const between = order ? threads(run, a, b) : el("span", { class: "unequal", "aria-hidden": "true" }, "\u2260");
  return el("section", { class: `run ${kind}`, tabindex: -1, "aria-label": RUN_WORDS[kind] },
    el("p", { class: "cap" }, mark(order ? "crossed" : "unequal", 20), el("b", {}, capital(RUN_WORDS[kind])), ` ${said}`),
    el("div", { class: "columns" }, column(a, left, !order), between, column(b, right, !order)));
}

/** A thread from each step of the left to the same one at the right. */
function threads({ left, right }, a, b) {
  const height = LINE * left.length, taken = new Set(), middle = n => LINE * (n + 0.5);
  const paths = left.map((i, k) => {
    const twin = right.findIndex((j, n) => !taken.has(n) && b.lines[j] === a.lines[i]), [y1, y2] = [middle(k), middle(twin)];
    taken.add(twin);
    const d = `M0 ${y1}C${GAP / 2} ${y1} ${GAP / 2} ${y2} ${GAP} ${y2}`;
    return [svg("path", { d }), svg("circle", { cx: 3, cy: y1, r: 3.5 }), svg("circle", { cx: GAP - 3, cy: y2, r: 3.5 })];
  });
  return svg("svg", { class: "threads", width: GAP, height, viewBox: `0 0 ${GAP} ${height}`, "aria-hidden": "true" }, paths);
}
