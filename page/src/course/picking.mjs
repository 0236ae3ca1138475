// Picking an answer: by a click that is the answer, or by several that are checked.
import { el, button } from "../shared/dom.mjs";

const toggled = (list, x) => (list.includes(x) ? list.filter(y => y !== x) : [...list, x]);

/** A click on one of several: alone it is the answer, else it waits for the check. */
export function pick(player, x) {
  if (player.screen.one || !player.kind.several) {
    player.picked = [x];
    return player.judge();
  }
  player.picked = toggled(player.picked, x);
  player.said = null;
  player.lit = [];
  return player.draw();
}

export function check(player) {
  return button("Check", () => player.judge(), { class: "btn go", "data-focus": "check" });
}

/** A choice among buttons. */
export function choices(player) {
  const { screen, picked, solved, right } = player;
  return el("div", { class: "choices", role: "group", "aria-label": "answers" }, screen.choices.map(({ is, words }) => {
    const chosen = (solved ? right : picked).includes(is), said = { "data-choice": is, "data-focus": `choice ${is}` };
    return button(words, () => pick(player, is), { class: `btn${chosen ? " picked" : ""}`, disabled: solved, ...said });
  }));
}
