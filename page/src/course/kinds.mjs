// The kinds of question: what each puts into the picture, below it and behind the filled button.
import { el, button } from "../shared/dom.mjs";
import { mark, badge } from "../shared/marks.mjs";
import { lastText } from "../shared/picture.mjs";
import { twoSets } from "../shared/sets.mjs";
import { capital } from "../shared/names.mjs";
import { stateOf } from "../shared/states.mjs";
import { joined } from "../../../bindings/js/packed.mjs";
import { readParcels } from "../../../bindings/js/image.mjs";
import { Session } from "../../../bindings/js/ledger.mjs";
import { eventsOf } from "../shared/telling.mjs";
import { Record } from "../shared/record.mjs";
import { stepsOf } from "./lessons.mjs";
import { check, choices, pick } from "./picking.mjs";
import { door, lives, next, order } from "./lifekinds.mjs";
import { goal } from "./goal.mjs";
import { hour } from "./hour.mjs";

const takes = {
  plays: true, picksTakes: true, several: true, stage: () => null, pick,
  main: player => (player.screen.one ? null : check(player)),
};

/** The cards that a take may be afterwards; once answered, the one that it is. */
const future = {
  plays: true, keeps: true, stage: () => null, pick,
  side(player) {
    const { screen, solved, right, names } = player, shown = solved ? screen.choices.filter(c => right.includes(c.is)) : screen.choices;
    return el("div", { class: "futures", role: "group", "aria-label": `what may become of ${names.take(screen.take)}` },
      el("span", { class: "cap" }, `${capital(names.take(screen.take))} afterwards:`),
      shown.map(choice => futureCard(player, choice)));
  },
};

function futureCard(player, { is, words, why }) {
  const { solved, picked } = player, clicked = solved ? {} : { type: "button", onclick: () => pick(player, is) };
  const classes = `card s-${is}${picked.includes(is) ? " picked" : ""}`;
  return el(solved ? "div" : "button", { ...clicked, class: classes, "data-choice": is, "data-focus": `future ${is}` },
    badge(is, 20), el("b", {}, words), el("span", { class: "txt" }, why));
}

const sets = {
  plays: true, stage: () => null,
  tray(player) {
    const { session, volume, names, solved, numbered } = player;
    return twoSets(session, volume, names, { lives: numbered, pick: solved ? null : m => pick(player, m.take), hidden: !solved });
  },
};

const reply = { plays: true, keeps: true, stage: () => null, tray: choices };

/** Two orders of the same steps, side by side; once answered, each with its end. */
const same = {
  keeps: true,
  stage(player) {
    const { screen, scene, names, solved, right } = player, sign = solved ? mark(right[0] === "same" ? "equal" : "unequal", 40) : "?";
    const [one, other] = screen.orders.map((lines, i) => orderColumn(player, lines, screen.titles[i]));
    const start = el("div", { class: "starts" }, el("span", { class: "cap" }, "Both start here:"), standing(scene.record, scene.count, names));
    return el("div", { class: "orders" }, solved ? null : start, one, el("span", { class: "orders-sign", "aria-hidden": "true" }, sign), other);
  },
  tray: choices,
};

function orderColumn({ scene, names, solved }, lines, title) {
  const start = scene.record.list.subarray(0, 8 * scene.count), own = stepsOf(scene.record.at(scene.count), lines);
  const record = new Record(Session.begin(), joined([start, own])), told = eventsOf(record, names, scene.count, record.length, true).map(e => el("li", {}, e.words));
  const ends = solved ? standing(record, record.length, names) : el("div", { class: "spot" }, "?");
  return el("section", { class: "order-column" }, el("h2", {}, title), el("ol", {}, told), ends);
}

/** How the takes stand at a moment, as cards, and which letters wait. */
function standing(record, count, names) {
  const session = record.at(count), cards = record.heads[count].map((head, t) => {
    const state = stateOf(session, t), text = names.plain(state === "vanished" ? lastText(record, count, t) : head.text);
    return el("div", { class: `card s-${state}`, "data-state": state },
      el("span", { class: "ttl" }, capital(names.take(t))), el("span", { class: "txt" }, text), badge(state, 18));
  });
  const waiting = readParcels(session.image).map(p => el("span", { class: "chip" }, `letter ${p.number} to ${names.take(p.to)} waits`));
  return el("div", { class: "ends" }, cards, waiting.length ? el("div", { class: "waits" }, waiting) : null);
}

export const KINDS = { takes, future, sets, next, lives, door, order, goal, hour, reply, same };
