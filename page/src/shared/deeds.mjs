// What somebody wants done, as a list of steps: tried on a copy of the session, step by step, and given only if every reply is the wanted one.
import { joined, packStep, readReply } from "../../../bindings/js/packed.mjs";
import { readHead } from "../../../bindings/js/image.mjs";
import { FALLEN_BACK } from "./words.mjs";

/** @typedef {import("../../../bindings/js/ledger.mjs").Session} Session */

/** A copy on which steps are tried one after the other, until one gets another reply than it should. */
class Trial {
  /** @param {Session} session */
  constructor(session) {
    this.copy = session.copy();
    /** @type {Uint8Array[]} */
    this.steps = [];
    this.good = true;
  }

  /**
   * @param {string} kind
   * @param {{take?: number, other?: number, parcel?: number, text?: number}} fields
   * @param {number[]} [wanted] the outcomes that are wanted
   */
  step(kind, fields, wanted = [0]) {
    const bytes = packStep(kind, fields), reply = readReply(this.copy.run(bytes), 0);
    this.steps.push(bytes);
    this.good = this.good && wanted.includes(reply.outcome);
    return reply;
  }

  /**
   * Has a take at work: by a letter from outside where it is idle.
   * @param {number} take
   */
  work(take) {
    if (readHead(this.copy.image, take).status === "at work") return;
    const { parcel } = this.step("letter", { take });
    if (this.good) this.step("receive", { parcel });
  }

  /**
   * Has a take idle.
   * @param {number} take
   */
  rest(take) {
    if (readHead(this.copy.image, take).status === "at work") this.step("done", { take });
  }

  /**
   * Runs steps that each are to be answered with one of these outcomes.
   * @param {Uint8Array} list
   * @param {number[]} [wanted]
   */
  follow(list, wanted = [0]) {
    const replies = this.copy.runAll(list);
    for (let i = 0; 8 * i < list.length; i++) this.good = this.good && wanted.includes(readReply(replies, i).outcome);
    this.steps.push(list);
  }

  /** The steps, or null where one of them did not get the wanted reply. */
  get list() {
    return this.good ? joined(this.steps) : null;
  }
}

/**
 * @param {Session} session
 * @param {(trial: Trial) => void} act
 * @returns {Uint8Array | null}
 */
export function deed(session, act) {
  const trial = new Trial(session);
  act(trial);
  return trial.list;
}

/**
 * @param {Session} session
 * @param {number} take
 */
export const freezing = (session, take) => (readHead(session.image, take).mark?.frozen ? null : deed(session, t => {
  t.work(take);
  t.step("freeze", { take });
  t.rest(take);
}));

/**
 * A new text for a take.
 * @param {Session} session
 * @param {number} take
 * @param {number} text
 */
export const writing = (session, take, text) => deed(session, t => {
  t.work(take);
  t.step("write", { take, text });
  t.rest(take);
});

/**
 * A take set from another: the other sends, the take receives and writes. Where the parcel shows that its old ground is gone, it falls back
 * first, and the other sends once more.
 * @param {Session} session
 * @param {number} take
 * @param {number} ground
 * @param {number} text
 * @param {boolean} [reading] whether the ground is read first, so that the take knows what the ground rests on
 */
export const setting = (session, take, ground, text, reading = false) => deed(session, t => {
  t.work(ground);
  if (reading) t.step("read", { take: ground });
  t.rest(take);
  const first = t.step("receive", { parcel: t.step("send", { take: ground, other: take }).parcel }, [0, FALLEN_BACK]);
  if (first.outcome === FALLEN_BACK) t.step("receive", { parcel: t.step("send", { take: ground, other: take }).parcel });
  t.step("write", { take, text });
  t.rest(take);
  t.rest(ground);
});

/**
 * A withdrawal, whatever becomes of it; null where the ledger refuses it.
 * @param {Session} session
 * @param {number} take
 */
export const withdrawing = (session, take) => deed(session, t => t.step("fail", { take }, [1, 3, 4]));

/**
 * @param {Session} session
 * @param {number} volume
 */
export const signing = (session, volume) => deed(session, t => t.step("sign", { parcel: volume }));

/**
 * A parcel from one take to another, which waits.
 * @param {Session} session
 * @param {number} take
 * @param {number} other
 * @param {number} text
 */
export const noting = (session, take, other, text) => deed(session, t => {
  t.work(take);
  t.step("send", { take, other, text });
  t.rest(take);
});

/** What a lesson or a button calls a deed, and the steps of it. */
export const DEEDS = { freeze: freezing, write: writing, set: setting, withdraw: withdrawing, note: noting };
