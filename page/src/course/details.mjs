// Details of a screen: its steps as sentences or in the notation, and the way to the step view, where all that the ledger holds is shown.
import { el, button } from "../shared/dom.mjs";
import { toText } from "../../../bindings/js/notation.mjs";
import { verdict } from "../shared/words.mjs";
import { eventsOf } from "../shared/telling.mjs";

export function detailsPart(player) {
  const { record, count, names, codes } = player;
  const notation = el("label", { class: "switch" }, el("input", { type: "checkbox", checked: codes, "data-focus": "codes", onchange: e => {
    player.codes = e.target.checked;
    player.draw();
  } }), " in the notation");
  const lines = toText(record.list.subarray(0, 8 * count)).split("\n").slice(0, -1);
  const written = lines.map((line, i) => el("li", {}, el("code", {}, line), el("span", { class: "soft" }, ` ${verdict(record.replies[i])}`)));
  const told = eventsOf(record, names, 0, count).map(e => el("li", {}, e.words, "."));
  const open = button("Open the step view", () => player.told.steps(lines.join("\n"), count), { class: "btn", "data-focus": "steps" });
  return [
    el("div", { class: "more-head" }, el("h2", {}, "What happened so far"), notation, open),
    el("ol", { class: codes ? "told codes" : "told" }, codes ? written : told),
  ];
}
