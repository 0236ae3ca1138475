// What a stenographer wishes done, as lists of steps. Each is tried on a copy of the session, and given only if every reply is the wanted
// one; what the ledger would refuse, hold or drop is null, and not offered.
import { joined, readStep, takesOf } from "../../../bindings/js/packed.mjs";
import { readHead, readHeads } from "../../../bindings/js/image.mjs";
import { deed } from "../shared/deeds.mjs";
import { FALLEN_BACK, VANISHED } from "../shared/words.mjs";

/** @typedef {import("../../../bindings/js/ledger.mjs").Session} Session */

const FALLS = [FALLEN_BACK, VANISHED];

/** Opens a take, and signs it blank: it can then be withdrawn without vanishing. */
function opened(t) {
  const { take } = t.step("root", {});
  if (!t.good) return null;
  t.work(take);
  t.step("freeze", { take });
  t.step("sign", { parcel: 1 << take });
  return take;
}

function wrote(t, take, text) {
  t.work(take);
  t.step("write", { take, text });
  t.rest(take);
}

/** Has a take read what another says, and write; false where it fell back by that, for its old ground was withdrawn. */
function took(t, take, ground, text) {
  t.work(ground);
  t.step("read", { take: ground });
  t.rest(take);
  const { parcel } = t.step("send", { take: ground, other: take });
  const fell = t.step("receive", { parcel }, [0, FALLEN_BACK]).outcome === FALLEN_BACK;
  if (!fell) t.step("write", { take, text });
  t.rest(take);
  t.rest(ground);
  return !fell;
}

/** Sets a take from all these grounds; from the first again, where it fell back on the way. */
function setOn(t, take, grounds, text) {
  if (!grounds.length) return wrote(t, take, text);
  for (let round = 0; round <= grounds.length && t.good; round++) if (grounds.every(g => took(t, take, g, text))) return undefined;
  t.good = false;
  return undefined;
}

/**
 * A new name or page, signed blank, with its text, set from these grounds.
 * @param {Session} session
 * @param {number} text
 * @param {number[]} [grounds]
 */
export const opening = (session, text, grounds = []) => deed(session, t => {
  const take = opened(t);
  if (t.good && (text || grounds.length)) setOn(t, take, grounds, text);
});

/**
 * A withdrawal. A frozen take falls only by a parcel that shows it what became of its ground, where that was withdrawn.
 * @param {Session} session
 * @param {number} take
 */
export function withdrawingOf(session, take) {
  const itself = deed(session, t => t.step("fail", { take }, FALLS));
  if (itself || session.impediment(take).kind !== "withdrawn") return itself;
  const heads = readHeads(session.image), others = heads.map((_, u) => u).filter(u => u !== take && heads[u].status !== "vanished");
  for (const ground of others) {
    const shown = deed(session, t => {
      t.work(ground);
      t.rest(take);
      t.step("receive", { parcel: t.step("send", { take: ground, other: take }).parcel }, FALLS);
      t.rest(ground);
    });
    if (shown) return shown;
  }
  return null;
}

/** Whether no volume with the take could be signed after these steps, for a ground of it was withdrawn. */
function groundless(session, list, take) {
  const copy = session.copy();
  copy.runAll(list);
  return copy.impediment(take).kind === "withdrawn";
}

/**
 * A take set from these grounds; anew, or where its old ground was withdrawn: with nothing of what it was set from before.
 * @param {Session} session
 * @param {number} take
 * @param {number[]} grounds
 * @param {number} text
 * @param {boolean} [anew]
 */
export function settingFrom(session, take, grounds, text, anew = false) {
  const added = anew ? null : deed(session, t => setOn(t, take, grounds, text));
  if (added && !groundless(session, added, take)) return added;
  const fall = withdrawingOf(session, take), again = fall && deed(session, t => {
    t.follow(fall, [0, FALLEN_BACK]);
    if (t.good) setOn(t, take, grounds, text);
  });
  return again && !groundless(session, again, take) ? again : null;
}

/**
 * What is left to do until all these takes are signed, by one signing: the library's plans, one after the other on a copy, and their volumes
 * signed together. Null where a take of them has no plan.
 * @param {Session} session
 * @param {number[]} takes
 * @returns {Uint8Array | null}
 */
export function signingOf(session, takes) {
  const copy = session.copy(), parts = [];
  let volume = 0;
  for (const take of takes) {
    const plan = copy.plan(take), before = plan.slice(0, -8);
    if (!plan.length) return null;
    copy.run(before);
    parts.push(before);
    volume |= readStep(plan, plan.length / 8 - 1).parcel;
  }
  const list = joined(parts);
  return takes.length ? deed(session, t => {
    t.follow(list);
    t.step("sign", { parcel: volume });
  }) : null;
}

/**
 * Which of these takes have a plan, so that they can be signed together.
 * @param {Session} session
 * @param {number[]} takes
 */
export const signable = (session, takes) => takes.filter(take => session.plan(take).length > 0);

/**
 * A frozen take signed as it is, and then set again from these grounds.
 * @param {Session} session
 * @param {number} take
 * @param {number[]} grounds
 * @param {number} text
 */
export function mending(session, take, grounds, text) {
  if (!readHead(session.image, take).mark?.frozen) return settingFrom(session, take, grounds, text);
  const plan = signingOf(session, [take]);
  return plan && deed(session, t => {
    t.follow(plan);
    if (t.good) setOn(t, take, grounds, text);
  });
}

/** The takes that a list of steps freezes, and those that it signs. */
export function partsOf(list) {
  const steps = Array.from({ length: list.length / 8 }, (_, i) => readStep(list, i));
  const freezes = steps.filter(s => s.kind === 7).map(s => s.take), signs = steps.filter(s => s.kind === 12).flatMap(s => takesOf(s.parcel));
  return { freezes, signs };
}
