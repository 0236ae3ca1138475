// An image for display: unpacks the packed form (docs/RULES.md, 7). Format only, no rule; which field a byte belongs to, and
// whether two marks are of one life, the library says.
import { compare, field } from "./ledger.mjs";

const HEAD = 8, MARK = 33, MAP = 16 * MARK, TAKE = 9 + 3 * MAP, PARCEL = 7 + MAP, PARCELS = HEAD + 16 * TAKE;
export const STATUSES = ["unused", "idle", "at work", "vanished"];
export const MAPS = ["state", "creation", "behaviour"];

/** @typedef {{frozen: boolean, n: number, list: number[]}} Mark */
/** @typedef {(Mark | null)[]} DependenceMap */
/** @typedef {{status: string, text: number, saved: number, mark: Mark | null}} Head */
/** @typedef {Head & {state: DependenceMap, creation: DependenceMap, behaviour: DependenceMap}} Take */
/** @typedef {{number: number, to: number, text: number, map: DependenceMap}} Parcel */

const at16 = (/** @type {Uint8Array} */ b, /** @type {number} */ o) => (b[o] << 8) | b[o + 1];
const at32 = (/** @type {Uint8Array} */ b, /** @type {number} */ o) => (at16(b, o) * 65536) + at16(b, o + 2);

/**
 * @param {Uint8Array} bytes
 * @param {number} at
 * @returns {Mark | null}
 */
export function readMark(bytes, at) {
  if (!(bytes[at] & 128)) return null;
  const list = [];
  for (let i = 0; i < (bytes[at] & 15); i++) list.push(at16(bytes, at + 3 + 2 * i));
  return { frozen: (bytes[at] & 64) !== 0, n: at16(bytes, at + 1), list };
}

/**
 * @param {Uint8Array} bytes
 * @param {number} [at]
 * @returns {DependenceMap}
 */
export function readMap(bytes, at = 0) {
  return Array.from({ length: 16 }, (_, u) => readMark(bytes, at + MARK * u));
}

/**
 * A mark's life, as (L; n).
 * @param {Mark} mark
 * @returns {string}
 */
export function life(mark) {
  return `(${mark.list.length ? mark.list.join(",") : "empty"}; ${mark.n})`;
}

/**
 * Where take t's map of that number stands (0 state, 1 creation, 2 behaviour).
 * @param {number} t
 * @param {number} which
 * @returns {number}
 */
const mapAt = (t, which) => HEAD + TAKE * t + 9 + MAP * which;

/**
 * A take without its maps but for its own mark.
 * @param {Uint8Array} image
 * @param {number} t
 * @returns {Head}
 */
export function readHead(image, t) {
  const at = HEAD + TAKE * t;
  const mark = readMark(image, mapAt(t, 0) + MARK * t);
  return { status: STATUSES[image[at] >> 6], text: at32(image, at + 1), saved: at32(image, at + 5), mark };
}

/**
 * The takes opened, without their maps.
 * @param {Uint8Array} image
 * @returns {Head[]}
 */
export function readHeads(image) {
  const heads = [];
  for (let t = 0; t < image[0]; t++) heads.push(readHead(image, t));
  return heads;
}

/**
 * @param {Uint8Array} image
 * @param {number} t
 * @returns {Take}
 */
export function readTake(image, t) {
  const [state, creation, behaviour] = [0, 1, 2].map(which => readMap(image, mapAt(t, which)));
  return { ...readHead(image, t), state, creation, behaviour };
}

/**
 * The address of parcel place k.
 * @param {number} k
 * @returns {number}
 */
const placeAt = k => PARCELS + PARCEL * k;

/**
 * The waiting parcels.
 * @param {Uint8Array} image
 * @returns {Parcel[]}
 */
export function readParcels(image) {
  const found = [];
  for (let k = 0; k < 32 && image[placeAt(k)] & 128; k++) {
    const at = placeAt(k);
    found.push({ number: at16(image, at + 1), to: image[at] & 15, text: at32(image, at + 3), map: readMap(image, at + 7) });
  }
  return found;
}

/**
 * @param {Uint8Array} image
 * @returns {{opened: number, next: number, limits: import("./ledger.mjs").Limits, takes: Take[], parcels: Parcel[]}}
 */
export function readImage(image) {
  const limits = { takes: image[4], parcels: image[5], signings: image[6] };
  const takes = Array.from({ length: image[0] }, (_, t) => readTake(image, t));
  return { opened: image[0], next: at16(image, 1), limits, takes, parcels: readParcels(image) };
}

/**
 * A mark in its packed form.
 * @param {Mark} mark
 * @returns {Uint8Array}
 */
export function packMark({ frozen, n, list }) {
  const bytes = new Uint8Array(MARK);
  bytes[0] = 128 + (frozen ? 64 : 0) + list.length;
  [n, ...list].forEach((value, i) => bytes.set([value >> 8, value & 255], 1 + 2 * i));
  return bytes;
}

/**
 * Whether two marks of a take are of one life.
 * @param {Mark} a
 * @param {Mark} b
 * @returns {boolean}
 */
export const sameLife = (a, b) => compare(packMark(a), packMark(b)).relation === "same life";

const FRONT = ["", "takes opened", "next parcel number", "zero byte", "limit of takes", "limit of parcels", "limit of signings", "zero byte"];
const IN_TAKE = ["status", "text", "signed text"], IN_PARCEL = ["whether a parcel waits, and its addressee", "number", "text"];
const STATUS = 8, WAITING = 11, FLAGS = 14, ENTRY = 16;

/** @typedef {import("./ledger.mjs").Field} Field */

/**
 * A field of a mark in words.
 * @param {Field} field
 * @returns {string}
 */
function markField({ kind, holder, map, ground, entry }) {
  const where = map < MAPS.length ? `take ${holder}, ${MAPS[map]} map` : `parcel place ${holder + 1}, map`;
  const what = kind === ENTRY ? `entry ${entry + 1} of its list` : ["presence, frozen flag and count of signings", "life number"][kind - FLAGS];
  return `${where}, mark of take ${ground}, ${what}`;
}

/**
 * The field in which a byte of an image stands, in words.
 * @param {number} offset
 * @returns {string}
 */
export function fieldAt(offset) {
  const found = field(offset), { kind, holder } = found;
  if (kind < STATUS) return FRONT[kind];
  if (kind < WAITING) return `take ${holder}, ${IN_TAKE[kind - STATUS]}`;
  return kind < FLAGS ? `parcel place ${holder + 1}, ${IN_PARCEL[kind - WAITING]}` : markField(found);
}

/**
 * The first byte of the field with this byte; of a field of a mark, the mark's first.
 * @param {number} offset
 * @returns {number}
 */
function startOf(offset) {
  const { kind, holder, map, ground } = field(offset);
  for (let at = offset; at > 0; at--) {
    const before = field(at - 1), marks = kind >= FLAGS && before.kind >= FLAGS;
    if (!(marks || before.kind === kind) || before.holder !== holder || before.map !== map || before.ground !== ground) return at;
  }
  return 0;
}

/**
 * A mark in words.
 * @param {Mark | null} mark
 * @returns {string}
 */
export function markWords(mark) {
  return mark ? life(mark) + (mark.frozen ? " frozen" : "") : "no mark";
}

/**
 * The value of the field with this byte, in words.
 * @param {Uint8Array} image
 * @param {number} offset
 * @returns {string}
 */
function valueAt(image, offset) {
  const at = startOf(offset), { kind } = field(offset);
  if (kind >= FLAGS) return markWords(readMark(image, at));
  if (kind === STATUS) return STATUSES[image[at] >> 6];
  if (kind === WAITING) return image[at] & 128 ? `waits for take ${image[at] & 15}` : "no parcel";
  let end = at;
  while (end < image.length && startOf(end) === at) end++;
  return String(image.slice(at, end).reduce((n, byte) => n * 256 + byte, 0));
}

/**
 * The first field in which two images differ, or null.
 * @param {Uint8Array} a
 * @param {Uint8Array} b
 * @returns {{offset: number, field: string, left: string, right: string} | null}
 */
export function firstDifference(a, b) {
  const offset = a.findIndex((byte, i) => byte !== b[i]);
  return offset < 0 ? null : { offset, field: fieldAt(offset), left: valueAt(a, offset), right: valueAt(b, offset) };
}
