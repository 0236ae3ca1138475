// Packed steps and replies, eight bytes each: the format alone.

/** The kinds of step by their numbers. */
export const KINDS = ["root", "letter", "receive", "new", "send", "read", "write", "freeze", "done", "fall", "fail", "lose", "sign"];

/** @typedef {{kind: number, take: number, other: number, zero: number, parcel: number, text: number}} Step */
/** @typedef {{outcome: number, take: number, parcel: number, text: number}} Reply */

/**
 * The greatest number that each field of a step holds.
 * @type {Record<string, number>}
 */
const GREATEST_IN = { take: 15, other: 15, parcel: 65535, text: 4294967295 };

/**
 * A whole number from 0 to most, as it is; anything else throws.
 * @param {string} name what it is the number of
 * @param {unknown} n
 * @param {number} most
 * @returns {number}
 */
function fitting(name, n, most) {
  if (typeof n !== "number") throw new TypeError(`${name}: a number is needed, not ${typeof n === "string" ? `the string "${n}"` : String(n)}`);
  if (!Number.isInteger(n) || n < 0 || n > most) throw new RangeError(`${name}: 0 to ${most}, not ${n}`);
  return n;
}

/**
 * A step's eight bytes. A field that is not given is 0. A kind or a field that there is not, and a number that its field does not hold, throw:
 * no bit of one field is ever written into another. A field that the kind does not use is packed as it is given: the ledger refuses such a step (20).
 * @param {string} kind
 * @param {{take?: number, other?: number, parcel?: number, text?: number}} [fields]
 * @returns {Uint8Array}
 */
export function packStep(kind, fields = {}) {
  const number = KINDS.indexOf(kind);
  if (number < 0) throw new RangeError(`no kind of step: ${String(kind)}`);
  /** @type {Record<string, number>} */
  const numbers = { take: 0, other: 0, parcel: 0, text: 0 };
  for (const [name, n] of Object.entries(fields)) {
    if (!(name in GREATEST_IN)) throw new RangeError(`no field of a step: ${name}`);
    if (n !== undefined) numbers[name] = fitting(name, n, GREATEST_IN[name]);
  }
  const bytes = new Uint8Array(8), view = new DataView(bytes.buffer);
  bytes[0] = (number << 4) | numbers.take;
  bytes[1] = numbers.other << 4;
  view.setUint16(2, numbers.parcel);
  view.setUint32(4, numbers.text);
  return bytes;
}

/**
 * The step at place i of a list.
 * @param {Uint8Array} list
 * @param {number} i
 * @returns {Step}
 */
export function readStep(list, i) {
  const view = new DataView(list.buffer, list.byteOffset + 8 * i, 8), first = view.getUint8(0), second = view.getUint8(1);
  return { kind: first >> 4, take: first & 15, other: second >> 4, zero: second & 15, parcel: view.getUint16(2), text: view.getUint32(4) };
}

/**
 * The reply at place i of a list.
 * @param {Uint8Array} replies
 * @param {number} i
 * @returns {Reply}
 */
export function readReply(replies, i) {
  const view = new DataView(replies.buffer, replies.byteOffset + 8 * i, 8);
  return { outcome: view.getUint8(0), take: view.getUint8(1), parcel: view.getUint16(2), text: view.getUint32(4) };
}

/**
 * The lists one after the other.
 * @param {Uint8Array[]} lists
 * @returns {Uint8Array}
 */
export function joined(lists) {
  const whole = new Uint8Array(lists.reduce((sum, l) => sum + l.length, 0));
  let at = 0;
  for (const l of lists) {
    whole.set(l, at);
    at += l.length;
  }
  return whole;
}

/**
 * The takes of a volume, rising.
 * @param {number} volume
 * @returns {number[]}
 */
export function takesOf(volume) {
  return Array.from({ length: 16 }, (_, t) => t).filter(t => (volume >> t) & 1);
}

/**
 * The volume of these takes; a number that no take has throws.
 * @param {Iterable<number>} takes
 * @returns {number}
 */
export function volumeOf(takes) {
  let volume = 0;
  for (const t of takes) volume |= 1 << fitting("take", t, 15);
  return volume;
}

/**
 * Whether two lists have the same bytes.
 * @param {Uint8Array} a
 * @param {Uint8Array} b
 * @returns {boolean}
 */
export function sameBytes(a, b) {
  return a.length === b.length && a.every((byte, i) => byte === b[i]);
}
