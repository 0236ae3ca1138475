// The kinds of question about lives: which comes next, which ones were so, whether a note of one is taken in, in which order they stand.
import { el, button } from "../shared/dom.mjs";
import { mark } from "../shared/marks.mjs";
import { strip } from "../shared/strip.mjs";
import { livesOf } from "../shared/states.mjs";
import { counted } from "../shared/names.mjs";
import { check, choices, pick } from "./picking.mjs";

/** The strip of the screen's take, as the stage. */
function stripStage(player, how) {
  const { screen, names, record, count, codes } = player;
  return el("div", { class: "strip-stage" }, strip(livesOf(record, screen.take, count), names.take(screen.take), { ...how, codes }));
}

function slot(player, { is, words }) {
  const classes = `life slot${player.picked.includes(is) ? " picked" : ""}`, said = { "data-choice": is, "data-focus": `slot ${is}` };
  return el("button", { type: "button", class: classes, ...said, onclick: () => pick(player, is) },
    el("span", { class: "n" }, is), el("span", { class: "w" }, words));
}

export const next = {
  plays: true,
  stage(player) {
    const { screen, solved, record, count } = player;
    const last = livesOf(record, screen.take, count).length - 1;
    if (solved) return stripStage(player, { lit: [last], fresh: last });
    return stripStage(player, { slots: screen.choices.map(choice => slot(player, choice)) });
  },
};

export const lives = {
  plays: true,
  several: true,
  stage(player) {
    const { solved, right, picked, screen } = player;
    return stripStage(player, solved ? { lit: right } : { pick: i => pick(player, i), picked: screen.one ? [] : picked, bare: screen.ask !== "newest" });
  },
  main: player => (player.screen.one ? null : check(player)),
};

// What became of a note, by the reply to its receipt: a class, a mark and words.
const FATES = { 0: ["in", "tick", "taken in"], 2: ["away", "tear", "turned away"], 3: ["in", "tear", "makes it fall"], 4: ["in", "tear", "makes it fall"] };

export const door = {
  plays: true,
  keeps: true,
  stage(player) {
    const { screen, solved, right, names, codes } = player, { record, count } = player.scene, all = livesOf(record, screen.take, count);
    const [list, n] = screen.life, sent = all.findIndex(({ mark: m }) => m.n === n && m.list.join() === list.join());
    const fate = solved ? FATES[right[0]] : null, words = el("span", {}, el("b", {}, screen.note[0]), el("br"), screen.note[1]);
    const note = el("div", { class: `note${fate ? ` ${fate[0]}` : ""}` }, mark("arrow", 24), words, fate && el("b", { class: "fate" }, mark(fate[1], 18), fate[2]));
    return el("div", { class: "strip-stage" },
      note, strip(all, names.take(screen.take), { lit: solved && sent >= 0 ? [sent] : [], codes }), choices(player));
  },
};

/** A life in words, with a seal for each signing before it. */
const afterSignings = ([list, n]) => {
  const seals = el("span", { class: "seals", "aria-hidden": "true" }, list.map(() => mark("signed", 20)));
  return [seals, el("b", {}, `life ${n}`), el("small", {}, list.length ? `after ${counted(list.length, "signing")}` : "before any signing")];
};

export const order = {
  stage(player) {
    const { screen, solved } = player, done = solved ? player.right : player.order;
    const said = i => ({ class: "btn", disabled: done.includes(i), "data-choice": i, "data-focus": `order ${i}` });
    const item = i => button(afterSignings(screen.marks[i]), () => put(player, i), said(i));
    const full = k => el("div", { class: "spot full" }, afterSignings(screen.marks[done[k]]));
    const spot = k => (done[k] === undefined ? el("div", { class: "spot" }, k + 1) : full(k));
    return el("div", { class: "strip-stage" },
      el("div", { class: "ordering", role: "group", "aria-label": "lives to put in order" }, screen.marks.map((_, i) => item(i))),
      el("div", { class: "axis", "aria-hidden": "true" }, el("span", {}, "older"), el("span", {}, "newer")),
      el("div", { class: "ordering" }, screen.marks.map((_, k) => spot(k))));
  },
};

/** The next life in the order; or a sentence, which says whether the seals or the numbers were overlooked. */
function put(player, i) {
  const { screen, right, order: done } = player, next = right[done.length];
  if (next !== i) return player.miss(screen.wrong[screen.marks[i][0].length > screen.marks[next][0].length ? "signings" : "number"]);
  player.order.push(i);
  player.said = null;
  return player.order.length === player.right.length ? player.solve() : player.draw();
}
