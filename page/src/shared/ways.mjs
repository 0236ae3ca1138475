// How takes that rest on a withdrawn life can fall, tried on copies of the session: by their own withdrawal, or, where they are frozen, by a
// parcel that shows what became of the ground.
import { packStep, readReply } from "../../../bindings/js/packed.mjs";
import { readHead, readParcels } from "../../../bindings/js/image.mjs";
import { listed } from "./names.mjs";
import { tone, FALLEN_BACK, VANISHED } from "./words.mjs";

const run = (session, kind, fields) => readReply(session.run(packStep(kind, fields)), 0);
const fallen = reply => tone(reply) === "fell";

/** The outcome of a take's withdrawal, tried. */
export function outcomeOf(session, take) {
  return run(session.copy(), "fail", { take }).outcome;
}

/** Receives a parcel, after its addressee has put its work down where it must. */
function receive(copy, parcel, take) {
  const reply = run(copy, "receive", { parcel });
  if (tone(reply) !== "refused") return { reply, put: false };
  return run(copy, "done", { take }).outcome === 0 ? { reply: run(copy, "receive", { parcel }), put: true } : { reply, put: false };
}

/** Sends a parcel from a ground, after its work was started where it must be. */
function send(copy, ground, take) {
  const parcel = { take: ground, other: take }, first = run(copy, "send", parcel);
  if (first.outcome === 0) return { sent: first, started: false };
  const letter = run(copy, "letter", { take: ground });
  if (letter.outcome !== 0) return { sent: letter, started: false };
  run(copy, "receive", { parcel: letter.parcel });
  return { sent: run(copy, "send", parcel), started: true };
}

/** A parcel that waits for the take, or one that a ground sends it; null where it does not fall by that. */
function byParcel(session, take, ground, names) {
  const done = `press done for ${names.take(take)}, `;
  for (const { number } of readParcels(session.image).filter(p => p.to === take)) {
    const copy = session.copy(), { reply, put } = receive(copy, number, take);
    if (fallen(reply)) return { copy, outcome: reply.outcome, words: `${put ? done : ""}receive parcel ${number}` };
  }
  const copy = session.copy(), { sent, started } = send(copy, ground, take);
  if (sent.outcome !== 0) return null;
  const { reply, put } = receive(copy, sent.parcel, take), work = started ? `start work on ${names.take(ground)}, ` : "";
  const words = `${work}send from ${names.take(ground)} to ${names.take(take)}, ${put ? done : ""}receive the parcel`;
  return fallen(reply) ? { copy, outcome: reply.outcome, words } : null;
}

/** How a take falls whose grounds have fallen: the session then, the outcome, the way in words, and whether it falls alone; null where it does not. */
function fallOf(session, take, grounds, names) {
  const copy = session.copy(), { outcome } = run(copy, "fail", { take });
  if (outcome === FALLEN_BACK || outcome === VANISHED) return { copy, outcome, words: `withdraw ${names.take(take)}`, alone: true };
  for (const ground of grounds) {
    const found = byParcel(session, take, ground, names);
    if (found) return found;
  }
  return null;
}

/** What becomes of takes of which each rests on the ground or on one before it: [{take, fall, gone}], gone: the ground vanished, and the take stays. */
export function fallsOf(session, ground, takes, names) {
  const gone = readHead(session.image, ground).status === "vanished", grounds = [ground], found = [];
  let now = session;
  for (const take of takes) {
    const fall = fallOf(now, take, grounds, names);
    if (fall) grounds.unshift(take);
    now = fall?.copy ?? now;
    found.push({ take, fall, gone: gone && !fall });
  }
  return found;
}

/** The same in sentences without their full stop. */
export function lost(falls, names) {
  const found = [], add = (chosen, one, several) => {
    const takes = falls.filter(chosen).map(f => names.take(f.take));
    if (takes.length) found.push(`${listed(takes)} ${takes.length === 1 ? one : several}`);
  };
  const stays = "a ground that vanished sends no parcel by which";
  add(f => f.fall?.outcome === VANISHED, "can never be signed: it vanishes when it falls", "can never be signed: they vanish when they fall");
  add(f => f.fall?.outcome === FALLEN_BACK, "must fall before it can be signed, and loses its text since its last signing",
    "must fall before they can be signed, and lose their texts since their last signing");
  add(f => f.gone, `can't be signed, and must stay frozen: ${stays} it would fall`, `can't be signed, and must stay frozen: ${stays} they would fall`);
  return found;
}

/** What would help the last of them: its own fall, after those of its grounds where it does not fall alone; or another take. */
export function wayOut(session, falls) {
  const { fall, gone } = falls.at(-1), needed = fall?.alone ? [fall] : falls.map(f => f.fall).filter(Boolean);
  if (fall?.outcome === FALLEN_BACK) return [`What would help: ${needed.map(f => f.words).join("; then ")}.`];
  const room = run(session.copy(), "root", {}).outcome === 0;
  const help = room ? "open another take for these pages" : "continue in a fresh session, for this one has no take left";
  return fall || gone ? [`What would help: ${help}.`] : [];
}
