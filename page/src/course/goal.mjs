// A goal to reach by deeds: a button beside a card for each deed that the ledger lets be done, and the signing of a volume.
import { el, button } from "../shared/dom.mjs";
import { twoSets, canSign } from "../shared/sets.mjs";
import { DEEDS, signing } from "../shared/deeds.mjs";
import { stateOf } from "../shared/states.mjs";

const named = name => ({ "data-deed": name, "data-focus": name });

/** The deeds that a screen offers for a take. */
function acts(player, t) {
  const { screen, session, volume, solved } = player, { offers, sets: from = {} } = screen, inside = Boolean((volume >> t) & 1);
  if (solved || stateOf(session, t) === "vanished") return null;
  const press = (label, name, steps) => {
    const words = screen.asides?.[`${name} ${t}`], able = { class: "btn sm", disabled: !steps && !words, ...named(`${name} ${t}`) };
    return button(label, () => (steps ? act(player, name, steps, t) : player.miss(words)), able);
  };
  const made = {
    freeze: () => press("Freeze", "freeze", DEEDS.freeze(session, t)),
    withdraw: () => press("Withdraw", "withdraw", DEEDS.withdraw(session, t)),
    set: () => from[t] && press("Set again", "set", DEEDS.set(session, t, from[t][0], from[t][1])),
    volume: () => {
      const pressed = { class: "btn sm", "aria-pressed": String(inside), ...named(`volume ${t}`) };
      return button(inside ? "In the volume" : "To the volume", () => join(player, t), pressed);
    },
  };
  return el("div", { class: "acts" }, offers.map(name => made[name]() ?? null));
}

/** Into the volume, or out of it. */
function join(player, t) {
  player.volume ^= 1 << t;
  player.said = null;
  player.draw();
}

/** A deed of the reader's; one that leads nowhere has its sentence. */
function act(player, name, steps, t) {
  const words = player.screen.asides?.[`${name} ${t}`];
  player.act(steps);
  if (!player.solved && words) player.miss(words);
}

export const goal = {
  plays: true, asks: false, stage: () => null, beside: acts,
  tray: ({ session, volume, names, solved, screen, numbered }) => (solved || !screen.offers.includes("volume") ? null : twoSets(session, volume, names, { lives: numbered })),
  main(player) {
    const { own, screen, session, volume } = player;
    const again = button("Start over", () => player.reset(), { class: `btn bare${own.length ? "" : " idle"}`, "data-focus": "over" });
    if (!screen.offers.includes("volume")) return again;
    const sign = () => player.act(signing(player.session, volume));
    return [again, button("Sign the volume", sign, { class: "btn go", disabled: !canSign(session, volume), "data-focus": "sign" })];
  },
};
