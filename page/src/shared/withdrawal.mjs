// What it would cost to withdraw a take: who rests on its present life, directly and through others, who is at work with it, and
// which waiting parcels carry it. The sets are the library's.
import { packStep, takesOf } from "../../../bindings/js/packed.mjs";
import { readHead, readParcels, sameLife } from "../../../bindings/js/image.mjs";
import { listed, capital } from "./names.mjs";
import { fallsOf, lost, outcomeOf } from "./ways.mjs";
import { FALLEN_BACK, VANISHED } from "./words.mjs";

/** The parts of the answer, without the take itself. */
export function cost(session, take) {
  const { resting, through, unfinished, carried } = session.dependents(take), others = set => takesOf(set).filter(t => t !== take);
  const parcels = carried ? carriers(session.image, take) : [];
  return { direct: others(resting), indirect: others(through & ~resting), busy: others(unfinished & ~(resting | through)), parcels };
}

/** The waiting parcels whose map has the take's present life. */
function carriers(image, take) {
  const own = readHead(image, take).mark, carries = (/** @type {import("../../../bindings/js/image.mjs").Mark | null} */ mark) => mark && own && sameLife(mark, own);
  return readParcels(image).filter(p => carries(p.map[take])).map(p => p.number);
}

/** The same in sentences. */
export function costWords(session, take, names) {
  const { direct, indirect, busy, parcels } = cost(session, take), say = takes => listed(takes.map(t => names.take(t)));
  const words = [], one = (list, single, several) => (list.length === 1 ? single : several);
  if (direct.length) words.push(`${say(direct)} ${one(direct, "rests on it, and knows", "rest on it, and know")} of it.`);
  if (indirect.length) words.push(`${say(indirect)} ${one(indirect, "rests", "rest")} on it through others, without knowing of it.`);
  if (busy.length) words.push(`${say(busy)} ${one(busy, "has it in its", "have it in their")} unfinished work.`);
  const numbers = listed(parcels.map(String)), sent = one(parcels, "was", "were");
  if (parcels.length) words.push(`${one(parcels, "parcel", "parcels")} ${numbers}, still waiting, ${sent} sent on the ground of this life.`);
  if (!words.length) return [nothing(session, take)];
  const copy = session.copy();
  copy.run(packStep("fail", { take }));
  const fate = lost(fallsOf(copy, take, [...direct, ...indirect], names), names);
  if (fate.length) words.push(`If it falls, ${fate.join("; ")}.`);
  return words.map(capital);
}

/** Nothing rests on it: what rests on lives that were signed stays, where there are any to fall back to. */
function nothing(session, take) {
  const outcome = outcomeOf(session, take);
  if (outcome === VANISHED) return "Nothing else rests on it.";
  return `Nothing rests on its present life.${outcome === FALLEN_BACK ? " What rests on its signed lives stays." : ""}`;
}
