// The take ledger for JavaScript: the proved library as WebAssembly. Every answer is the library's; nothing here decides.
// Bytes are Uint8Array, a volume is a number (take t counts 2 ** t), a refused call throws Refusal.
import { memory, accepted } from "./modules.mjs";
import { wide } from "./memory.mjs";

export { load, refusalText } from "./modules.mjs";
export { Refusal, REFUSALS, OUTCOMES, nameOf } from "./refusals.mjs";

export const IMAGE = 42616;
export const OLD_IMAGE = 22132;
export const STEP = 8;
export const LONGEST = 8192;
export const PLAN = 392;
const NO_PARCEL = 65535;
const ILL_FORMED = 19;
const OBSTACLES = ["nothing", "not frozen", "outside", "withdrawn"];
const RELATIONS = ["same life", "left signed", "right signed", "left withdrawn", "right withdrawn", "unrelated"];
const ACTORS = ["nobody", "the house", "a take", "a volume"];
const IMPEDIMENTS = ["nothing", "withdrawn", "all signed", "not frozen"];

/** @typedef {import("./memory.mjs").Memory} Memory */
/** @typedef {{takes: number, parcels: number, signings: number}} Limits */
/** @typedef {{kind: "nothing" | "not frozen" | "outside" | "withdrawn", take: number, ground: number}} Obstacle */
/** @typedef {{kind: "nothing" | "withdrawn" | "all signed" | "not frozen", take: number, ground: number, next: number}} Impediment */
/** @typedef {{outcome: number, take: number}} Decision */
/** @typedef {{kind: "nobody" | "the house" | "a take" | "a volume", takes: number}} Actor */
/** @typedef {{at: number, clause: number}} Fault */
/** @typedef {{relation: "same life" | "left signed" | "right signed" | "left withdrawn" | "right withdrawn" | "unrelated", newer: "left" | "right"}} Comparison */
/** @typedef {{kind: number, holder: number, map: number, ground: number, entry: number, byte: number}} Field */
/** @typedef {{resting: number, through: number, unfinished: number, carried: number}} Dependents */

/**
 * The greatest limits of a session.
 * @type {Limits}
 */
export const GREATEST = { takes: 16, parcels: 32, signings: 15 };

/**
 * A question to the library about an image, with a lent number for the refusal.
 * @template T
 * @param {Uint8Array} image
 * @param {(calls: any, at: number, length: bigint, refusal: number, m: Memory) => T} ask
 * @param {"ledger" | "looking"} [module]
 * @returns {T}
 */
function query(image, ask, module = "ledger") {
  const m = memory(module), at = m.lend(image), refusal = m.room(1);
  const answer = ask(m.calls, at, wide(image.length), refusal, m);
  accepted(m.byte(refusal));
  return answer;
}

/** A session: an image, and the calls on it. */
export class Session {
  /** @type {Uint8Array} */ #image;

  /** @param {Uint8Array} image taken as it is; use begin or fromImage */
  constructor(image) {
    this.#image = image;
  }

  /**
   * A fresh session.
   * @param {Partial<Limits>} [limits]
   * @param {number} [length] of the room that is lent for the image
   */
  static begin(limits = {}, length = IMAGE) {
    const { takes, parcels, signings } = { ...GREATEST, ...limits };
    const m = memory("ledger"), at = m.room(length);
    accepted(m.calls.ledger_begin(at, wide(length), wide(takes), wide(parcels), wide(signings)));
    return new Session(m.copy(at, length));
  }

  /**
   * The session that was stored as this image; refused where a run would be.
   * @param {Uint8Array} image
   */
  static fromImage(image) {
    const session = new Session(image.slice());
    session.run(new Uint8Array(0));
    return session;
  }

  /** The image's bytes, a copy. */
  get image() {
    return this.#image.slice();
  }

  copy() {
    return new Session(this.#image.slice());
  }

  /**
   * Runs the steps of the list from byte start up to byte end.
   * @param {Uint8Array} list
   * @param {number} [start]
   * @param {number} [end]
   * @param {number} [room] for the replies, in bytes
   * @returns {Uint8Array} a reply of eight bytes for each
   */
  run(list, start = 0, end = list.length, room = Math.max(0, end - start)) {
    const m = memory("ledger");
    const image = m.lend(this.#image), steps = m.lend(list), replies = m.room(room);
    accepted(m.calls.ledger_run(image, wide(this.#image.length), steps, wide(list.length), wide(start), wide(end), replies, wide(room)));
    this.#image = m.copy(image, this.#image.length);
    return m.copy(replies, room);
  }

  /**
   * Runs a list of any length, in parts of the greatest length.
   * @param {Uint8Array} list
   * @returns {Uint8Array}
   */
  runAll(list) {
    const replies = new Uint8Array(list.length);
    for (let at = 0; at < list.length; at += LONGEST) replies.set(this.run(list, at, Math.min(at + LONGEST, list.length)), at);
    return replies;
  }

  /**
   * Runs a list of any length one step at a time; after each, seen is told its place and may look at the image, a view that holds until
   * seen returns, and must not call the library.
   * @param {Uint8Array} list
   * @param {(i: number, image: Uint8Array) => void} seen
   * @returns {Uint8Array}
   */
  trace(list, seen) {
    const m = memory("ledger"), length = wide(this.#image.length);
    const image = m.lend(this.#image), steps = m.lend(list), replies = m.room(list.length);
    for (let at = 0; at < list.length; at += STEP) {
      accepted(m.calls.ledger_run(image, length, steps, wide(list.length), wide(at), wide(at + STEP), replies + at, wide(STEP)));
      seen(at / STEP, m.view(image, this.#image.length));
    }
    this.#image = m.copy(image, this.#image.length);
    return m.copy(replies, list.length);
  }

  /**
   * The waiting parcel for a take with the lowest number, or null.
   * @param {number} take
   * @returns {number | null}
   */
  offer(take) {
    const n = query(this.#image, (c, at, length, refusal) => c.ledger_offer(at, length, wide(take), refusal)) & 65535;
    return n === NO_PARCEL ? null : n;
  }

  /**
   * The smallest volume with that take that could be signed now, or null.
   * @param {number} take
   * @returns {number | null}
   */
  smallestVolume(take) {
    return (query(this.#image, (c, at, length, refusal) => c.ledger_smallest_group(at, length, wide(take), refusal)) & 65535) || null;
  }

  /**
   * How many volumes of just so many takes could be signed now.
   * @param {number} size
   * @returns {number}
   */
  readyCount(size) {
    return Number(query(this.#image, (c, at, length, refusal) => c.ledger_ready_count(at, length, wide(size), refusal)));
  }

  /**
   * Whether all that the take has heard of is frozen.
   * @param {number} take
   * @returns {boolean}
   */
  allHeardFrozen(take) {
    return (query(this.#image, (c, at, length, refusal) => c.ledger_all_heard_stable(at, length, wide(take), refusal)) & 255) === 1;
  }

  /**
   * Who rests on the take's present life: volumes resting, through, unfinished; how many waiting parcels carry it.
   * @param {number} take
   * @returns {Dependents}
   */
  dependents(take) {
    const packed = query(this.#image, (c, at, length, refusal) => c.ledger_dependents(at, length, wide(take), refusal));
    const [resting, through, unfinished, carried] = [0n, 16n, 32n, 48n].map(by => Number((packed >> by) & 65535n));
    return { resting, through, unfinished, carried };
  }

  /**
   * Why the volume can't be signed now.
   * @param {number} volume
   * @returns {Obstacle}
   */
  obstacle(volume) {
    const packed = query(this.#image, (c, at, length, refusal) => c.ledger_obstacle(at, length, wide(volume), refusal));
    const kind = /** @type {Obstacle["kind"]} */ (OBSTACLES[packed & 255]);
    return { kind, take: (packed >> 8) & 255, ground: (packed >> 16) & 255 };
  }

  /**
   * Why no volume with the take could be signed now: the take that is in the way, the ground of which it has a withdrawn life, and the
   * next take from the one asked about to it.
   * @param {number} take
   * @returns {Impediment}
   */
  impediment(take) {
    const packed = query(this.#image, (c, at, length, refusal) => c.ledger_impediment(at, length, wide(take), refusal));
    const kind = /** @type {Impediment["kind"]} */ (IMPEDIMENTS[packed & 255]);
    return { kind, take: (packed >> 8) & 255, ground: (packed >> 16) & 255, next: (packed >> 24) & 255 };
  }

  /**
   * For whom a step acts: nobody, if it is no step or receives a parcel that does not wait; the house, for root, letter and lose; a take, as a volume
   * with it alone; the volume that it signs. A step changes no take that is opened before it and that it does not act for.
   * @param {Uint8Array} step eight bytes
   * @returns {Actor}
   */
  actor(step) {
    return query(this.#image, (c, at, length, refusal, m) => {
      const bytes = m.lend(step), answer = m.room(16);
      c.ledger_actor(answer, at, length, bytes, wide(step.length), refusal);
      return { kind: /** @type {Actor["kind"]} */ (ACTORS[m.word(answer)]), takes: m.word(answer + 8) };
    });
  }

  /**
   * What is left to do so that the take is signed: the steps, packed. Run on this session each is answered with outcome 0, and the last
   * signs the take with all that it rests on. No steps: impediment says "withdrawn" or "all signed", and then it can't be signed any more in
   * the life that it has; where it says anything else, there is no place or no number for a letter that is needed.
   * @param {number} take
   * @param {number} [room] for the steps, in bytes
   * @returns {Uint8Array}
   */
  plan(take, room = PLAN) {
    return query(this.#image, (c, at, length, refusal, m) => {
      const out = m.room(room);
      const steps = Number(c.ledger_plan(at, length, wide(take), out, wide(room), refusal));
      return m.copy(out, STEP * steps);
    });
  }

  /**
   * Whether two packed steps are independent here: then both orders leave the same image, and give each step the same reply.
   * @param {Uint8Array} first
   * @param {Uint8Array} second
   * @returns {boolean}
   */
  independent(first, second) {
    return query(this.#image, (c, at, length, refusal, m) => {
      const p = m.lend(first), q = m.lend(second);
      return (c.looking_independent(at, length, p, wide(first.length), q, wide(second.length), refusal) & 255) === 1;
    }, "looking");
  }

  /**
   * What the receipt of a waiting parcel would reply now: its outcome, 0 done, 2 dropped, 3 fallen back, 4 vanished; and the take whose marks decide
   * it: dropped, the parcel's mark of that take is stale; fallen back or vanished, the addressee's; done, 0. Refused as the receipt would be.
   * @param {number} parcel
   * @returns {Decision}
   */
  decision(parcel) {
    return query(this.#image, (c, at, length, refusal, m) => {
      const answer = m.room(16);
      c.looking_decision(answer, at, length, wide(parcel), refusal);
      return { outcome: m.word(answer), take: m.word(answer + 8) };
    }, "looking");
  }

  /**
   * The 528 bytes of a waiting parcel's map.
   * @param {number} parcel
   * @returns {Uint8Array}
   */
  show(parcel) {
    return query(this.#image, (c, at, length, refusal, m) => {
      const part = m.room(16);
      c.ledger_show(part, at, length, wide(parcel), refusal);
      return m.copy(at + m.word(part), m.word(part + 8));
    });
  }

  /**
   * The list without refused steps and unused reads, from this session on.
   * @param {Uint8Array} list
   * @param {number} [start]
   * @param {number} [end]
   * @param {number} [room] for the short list, in bytes
   * @returns {Uint8Array}
   */
  thin(list, start = 0, end = list.length, room = Math.max(0, end - start)) {
    return query(this.#image, (c, at, length, refusal, m) => {
      const steps = m.lend(list), out = m.room(room);
      const kept = Number(c.ledger_thin(at, length, steps, wide(list.length), wide(start), wide(end), out, wide(room), refusal));
      return m.copy(out, STEP * kept);
    });
  }
}

/**
 * Where an image fails the form first: the byte, and the number of the clause (include/ledger.h has them); null for one that is well-formed. An
 * image of another length is refused.
 * @param {Uint8Array} image
 * @returns {Fault | null}
 */
export function fault(image) {
  const m = memory("ledger"), bytes = m.lend(image), at = m.room(8), clause = m.room(1);
  const answer = m.calls.ledger_fault(bytes, wide(image.length), at, clause) & 255;
  if (answer !== ILL_FORMED) accepted(answer);
  return answer === ILL_FORMED ? { at: m.word(at), clause: m.byte(clause) } : null;
}

/**
 * @param {string} call
 * @param {Uint8Array} source
 * @param {number} length
 * @returns {Uint8Array}
 */
function converted(call, source, length) {
  const m = memory("ledger"), from = m.lend(source), to = m.room(length);
  accepted(m.calls[call](from, wide(source.length), to, wide(length)));
  return m.copy(to, length);
}

/**
 * An image of the old form in the ledger's.
 * @param {Uint8Array} old
 * @param {number} [length] of the room that is lent for it
 * @returns {Uint8Array}
 */
export const forward = (old, length = IMAGE) => converted("ledger_forward", old, length);

/**
 * An image in the old form.
 * @param {Uint8Array} image
 * @param {number} [length] of the room that is lent for it
 * @returns {Uint8Array}
 */
export const back = (image, length = OLD_IMAGE) => converted("ledger_back", image, length);

/**
 * Two packed marks of one take compared: of the middle four the named one is the earlier; the newer is the one that joining takes.
 * @param {Uint8Array} left
 * @param {Uint8Array} right
 * @returns {Comparison}
 */
export function compare(left, right) {
  const m = memory("looking"), a = m.lend(left), b = m.lend(right), refusal = m.room(1);
  const packed = m.calls.looking_compare(a, wide(left.length), b, wide(right.length), refusal);
  accepted(m.byte(refusal));
  return { relation: /** @type {Comparison["relation"]} */ (RELATIONS[packed & 255]), newer: (packed >> 8) & 255 ? "right" : "left" };
}

/**
 * What a byte of an image belongs to, in the numbers of include/looking.h, and which byte of it; past the image all are 0.
 * @param {number} offset
 * @returns {Field}
 */
export function field(offset) {
  const packed = memory("looking").calls.looking_field(wide(offset));
  const [kind, holder, map, ground, entry, byte] = [0n, 8n, 16n, 24n, 32n, 40n].map(by => Number((packed >> by) & 255n));
  return { kind, holder, map, ground, entry, byte };
}

/**
 * Of the windows of so many replies the first with most falls.
 * @param {Uint8Array} replies
 * @param {number} width
 * @returns {{count: number, place: number}}
 */
export function worstWindow(replies, width) {
  const m = memory("ledger"), at = m.lend(replies), refusal = m.room(1), answer = m.room(16);
  m.calls.ledger_worst_window(answer, at, wide(replies.length), wide(width), refusal);
  accepted(m.byte(refusal));
  return { count: m.word(answer), place: m.word(answer + 8) };
}

/**
 * The replies to a whole list from a fresh session, by the engine without maps.
 * @param {Uint8Array} list
 * @param {Partial<Limits>} [limits]
 * @param {number} [room] for the replies, in bytes
 * @returns {Uint8Array}
 */
export function play(list, limits = {}, room = list.length) {
  const { takes, parcels, signings } = { ...GREATEST, ...limits };
  const m = memory("engine"), steps = m.lend(list), replies = m.room(room), length = wide(list.length);
  accepted(m.calls.engine_play(steps, length, replies, wide(room), wide(takes), wide(parcels), wide(signings)));
  return m.copy(replies, room);
}
