// A list played by the library: its replies, each take's head after each step, and the session after any step. Images of all steps
// are not kept: one in 64 is, and the steps from there on are run again.
import { Session } from "../../../bindings/js/ledger.mjs";
import { readStep, readReply } from "../../../bindings/js/packed.mjs";
import { readHeads } from "../../../bindings/js/image.mjs";

const APART = 64;

export class Record {
  /**
   * @param {Session} start the session before the first step
   * @param {Uint8Array} list
   */
  constructor(start, list) {
    this.list = list;
    this.length = list.length / 8;
    this.steps = Array.from({ length: this.length }, (_, i) => readStep(list, i));
    this.heads = [readHeads(start.image)];
    this.kept = [start.image];
    this.end = start.copy();
    this.packedReplies = this.end.trace(list, (i, image) => this.seen(i + 1, image));
    this.replies = Array.from({ length: this.length }, (_, i) => readReply(this.packedReplies, i));
  }

  /** The takes' heads after the last step. */
  get lastHeads() {
    return this.heads[this.length];
  }

  /**
   * After count steps: the heads, and the image where it is one of those kept.
   * @param {number} count
   * @param {Uint8Array} image
   */
  seen(count, image) {
    this.heads.push(readHeads(image));
    if (count % APART === 0) this.kept.push(image.slice());
  }

  /**
   * The session after so many steps, for reading and for copies.
   * @param {number} count
   * @returns {Session}
   */
  at(count) {
    if (count >= this.length) return this.end.copy();
    const place = Math.floor(count / APART), session = new Session(this.kept[place].slice());
    session.run(this.list, 8 * APART * place, 8 * count);
    return session;
  }

  /**
   * A step, counted from 1, and its reply.
   * @param {number} i
   */
  move(i) {
    return { step: this.steps[i - 1], reply: this.replies[i - 1] };
  }

  /**
   * The step and its reply by which a moment came about, or null at the start.
   * @param {number} count
   */
  before(count) {
    return count === 0 ? null : this.move(count);
  }
}

/** A fresh session with these limits, or the one that an image holds. */
export function startOf({ limits, image }) {
  return image ? Session.fromImage(image) : Session.begin(limits);
}
