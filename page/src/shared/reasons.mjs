// Why a volume is not ready and what would help, and which mark decided at a receipt, in sentences. The answers are the library's.
import { readStep, takesOf } from "../../../bindings/js/packed.mjs";
import { life, readTake, readMap, sameLife } from "../../../bindings/js/image.mjs";
import { impediment } from "./impediment.mjs";
import { fallsOf, lost, outcomeOf, wayOut } from "./ways.mjs";
import { braces, capital } from "./names.mjs";
import { DROPPED, FALLEN_BACK, kindOf, tone } from "./words.mjs";

const WORST_FIRST = ["withdrawn", "all signed", "not frozen", "nothing"];

/** Why the volume is not ready after so many steps, and what would help; alone: the volume is one take that somebody asks about. */
export function whyNot(record, count, volume, names, alone = false) {
  const session = record.at(count), asked = takesOf(volume).map(take => ({ take, ...impediment(session, take) }));
  const [worst] = asked.sort((a, b) => WORST_FIRST.indexOf(a.kind) - WORST_FIRST.indexOf(b.kind));
  const reasons = {
    withdrawn: () => withdrawn(record, count, worst, names),
    "all signed": () => ({ why: [`${resting(worst.path, names)}signed as often as this session allows.`], help: ["Nothing helps in this session."] }),
    "not frozen": () => ({ why: [notFrozen(session, worst.path, volume, names, alone)], help: freezing(session, worst.take, names) }),
    nothing: () => outside(session, volume, names),
  };
  const { why, help } = reasons[worst.kind]();
  return { why: why.map(capital), help: help.map(capital) };
}

/** page 40 rests on page 12, which rests on the names: .. */
function resting(path, names) {
  return `${chain(path.map(t => names.take(t)))}: `;
}

/** @param {string[]} words */
function chain(words) {
  const [first, ...grounds] = words;
  return [first, grounds.map(g => `rests on ${g}`).join(", which ")].filter(Boolean).join(" ");
}

function notFrozen(session, path, volume, names, alone) {
  const last = path.at(-1), within = (volume >> last) & 1, since = outcomeOf(session, last) === FALLEN_BACK ? "its life since the last signing is " : "";
  const lacks = alone ? "neither signed nor frozen" : "neither signed, nor in this volume, nor frozen";
  return `${resting(path, names)}${path.length === 1 ? "not frozen" : within ? "in this volume, but not frozen" : `${since}${lacks}`}.`;
}

function withdrawn(record, count, { path, ground = null }, names) {
  const at = fallOf(record, count, ground, path.at(-1)), when = at === null ? "withdrawn" : `withdrawn at step ${at}`;
  const why = [`${chain([...path, ground].map(t => names.take(t)))}, ${when}.`];
  const falls = fallsOf(record.at(count), ground, [...path].reverse(), names);
  return { why, help: [...lost(falls, names).map(words => `${words}.`), ...wayOut(record.at(count), falls)] };
}

/** The step at which a life of the ground that the take rests on fell, or null. */
function fallOf(record, count, ground, take) {
  const { state, creation } = readTake(record.at(count).image, take);
  const marks = [state[ground], creation[ground]].flatMap(mark => mark ?? []);
  for (let i = count - 1; i >= 0; i--) {
    const reply = record.replies[i], before = record.heads[i][ground]?.mark;
    if (tone(reply) === "fell" && reply.take === ground && before && marks.some(mark => sameLife(mark, before))) return i + 1;
  }
  return null;
}

/** What is left to do so that the take is signed, by the library's plan. */
function freezing(session, take, names) {
  const list = session.plan(take), steps = Array.from({ length: list.length / 8 }, (_, i) => readStep(list, i)), of = kind => steps.filter(s => kindOf(s) === kind);
  const woken = new Set(of("letter").map(s => s.take)), volume = of("sign")[0]?.parcel;
  const frozen = of("freeze").map(s => (woken.has(s.take) ? `start work on ${names.take(s.take)}, freeze it` : `freeze ${names.take(s.take)}`));
  return volume ? [`What would help: ${[...frozen, `then sign ${braces(volume)} (${names.volume(volume)})`].join(", ")}.`] : [];
}

/** Each named take could be signed, but not in this volume. */
function outside(session, volume, names) {
  const { kind, take, ground } = session.obstacle(volume), smallest = session.smallestVolume(take);
  if (kind !== "outside" || !smallest) return { why: [], help: [] };
  const named = `${braces(smallest)}, ${names.volume(smallest)},`;
  return {
    why: [`${names.take(take)} rests on ${names.take(ground)}: neither signed nor in this volume.`],
    help: [`What would help: ${named} is the smallest volume with ${names.take(take)} that can be signed now.`],
  };
}

/** The take whose marks decided a receipt, with both sides' marks of it. */
function deciding(record, count) {
  const { step, reply } = record.move(count), session = record.at(count - 1), { take } = session.decision(step.parcel);
  const { state, creation } = readTake(session.image, reply.take), held = /** @type {[string, any][]} */ ([["state", state[take]], ["creation", creation[take]]]);
  const carried = readMap(session.show(step.parcel))[take];
  return { take, carried: carried ? life(carried) : "nothing", held: held.filter(([, mark]) => mark) };
}

/** At a receipt: the mark that decided, in sentences. */
export function receiptReason(record, count, names) {
  const { reply } = record.move(count), addressee = names.take(reply.take);
  if (reply.outcome === 0) return accepted(record.at(count - 1).show(reply.parcel));
  const found = deciding(record, count);
  const theirs = found.held.map(([map, mark]) => `${life(mark)} in its ${map} map`).join(" and ");
  const mark = `The mark of ${names.take(found.take)} decided: the parcel carries ${found.carried}, ${addressee} has ${theirs}.`;
  if (reply.outcome === DROPPED) return `${mark} The parcel's life is the withdrawn one.`;
  return `${mark} The life that ${addressee} rests on is the withdrawn one; frozen or not, it falls.`;
}

function accepted(map) {
  if (readMap(map).every(mark => mark === null)) return "Nothing decided against it: its map is empty.";
  return "No mark of the parcel, and none that the take rests on, is of a life that the other side shows withdrawn.";
}
