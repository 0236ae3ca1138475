// A hearing kept at the desk: the list of steps, the limits or the image it starts from, and beside them names for takes and words for
// texts, what each take is (a name or a page, a role, a first page), when each step was made, and by whom where a log said it. Its file is a
// JSON with a version; its log is a file of the store (log.mjs).
import { GREATEST, Refusal } from "../../../bindings/js/ledger.mjs";
import { toSteps, toText } from "../../../bindings/js/notation.mjs";
import { toBase64, fromBase64 } from "./address.mjs";
import { startOf } from "./record.mjs";

const FORMAT = "take ledger desk";
const VERSION = 1;

/** @typedef {{kind?: string, role?: string, first?: string, [more: string]: string | undefined}} About */
/**
 * @typedef {{
 *   title: string, limits: import("../../../bindings/js/ledger.mjs").Limits, image: Uint8Array | null, list: Uint8Array,
 *   takes: string[], texts: {[text: string]: string}, about: About[], times: (number | null)[]
 * }} Hearing
 */

/** @returns {Hearing} */
export function emptyHearing(limits = GREATEST) {
  return { title: "", limits: { ...limits }, image: null, list: new Uint8Array(0), takes: [], texts: {}, about: [], times: [] };
}

/** The hearing as its file. */
export function toFile({ title, limits, image, list, takes, texts, about = [], times = [], house = "", who = [], log = null }) {
  const steps = toText(list).split("\n").slice(0, -1);
  const file = { format: FORMAT, version: VERSION, title, limits, image: image && toBase64(image), steps };
  const beside = { takes: Array.from(takes, t => t ?? ""), texts, ...(about.length && { about: Array.from(about, a => a ?? {}) }), ...(times.length && { times }), ...(house ? { house } : {}), ...(who.length ? { who } : {}), ...(log ? { log } : {}) };
  return `${JSON.stringify({ ...file, ...beside }, null, 1)}\n`;
}

/** What is wrong with a file, in a sentence. */
export class Unreadable extends Error {}

function parsed(text) {
  try {
    return JSON.parse(text);
  } catch (e) {
    throw new Unreadable(`it is no whole file of this desk (${/** @type {Error} */ (e).message})`);
  }
}

const isRecord = value => typeof value === "object" && value !== null && !Array.isArray(value);
const strings = values => values.every(v => typeof v === "string");
const LARGEST_TEXT = 4294967295;
/** What a file says of its takes and times, where it says it well; the rest is left out. */
function besides({ about, times, house, who, log }) {
  const told = Array.isArray(about) && about.every(isRecord) ? about.map(a => Object.fromEntries(Object.entries(a).filter(([, v]) => typeof v === "string"))) : [];
  const kept = { ...(typeof house === "string" && { house }), ...(Array.isArray(who) && strings(who) && { who }), ...(Array.isArray(log) && strings(log) && { log }) };
  return { about: told, times: Array.isArray(times) && times.every(t => t === null || Number.isFinite(t)) ? times : [], ...kept };
}
const isText = word => /^(0|[1-9]\d{0,9})$/.test(word) && Number(word) <= LARGEST_TEXT;

/** The hearing of such a file; throws Unreadable. */
export function fromFile(text) {
  const file = parsed(text);
  if (!isRecord(file) || file.format !== FORMAT) throw new Unreadable("it is no file of this desk");
  if (file.version !== VERSION) throw new Unreadable(`its version is ${file.version}; this page reads version ${VERSION}`);
  const { title = "", limits, image, steps, takes = [], texts = {} } = file;
  if (!Array.isArray(steps) || !strings(steps)) throw new Unreadable("its steps are no lines of text");
  const named = Array.isArray(takes) && strings(takes) && isRecord(texts) && strings(Object.values(texts));
  if (!named) throw new Unreadable("its names are no words");
  const odd = Object.keys(texts).find(word => !isText(word));
  if (odd !== undefined) throw new Unreadable(`it has words for \u201c${odd}\u201d, which is no text`);
  const hearing = { title: String(title), limits, image: image ? imageOf(image) : null, list: listOf(steps), takes, texts, ...besides(file) };
  begun(hearing);
  return hearing;
}

function imageOf(word) {
  const bytes = fromBase64(String(word));
  if (!bytes) throw new Unreadable("its image is no base64");
  return bytes;
}

function listOf(steps) {
  const { steps: list, fault } = toSteps(steps.join("\n"));
  if (fault) throw new Unreadable(`step ${fault.line}, column ${fault.column}: expected ${fault.expected}`);
  return list;
}

/** The session that the hearing starts from; throws Unreadable where the library refuses it. */
export function begun(hearing) {
  try {
    return startOf(hearing);
  } catch (e) {
    if (e instanceof Refusal || e instanceof RangeError || e instanceof TypeError) throw new Unreadable(e.message);
    throw e;
  }
}

/** The number of a text by its words: the one it has, or the next that is free. Empty words are text 0. */
export function textNumber(hearing, words, used) {
  const wanted = words.trim();
  if (wanted === "") return 0;
  const known = Object.keys(hearing.texts).find(n => hearing.texts[n] === wanted);
  if (known !== undefined) return Number(known);
  let n = 1;
  while (n in hearing.texts || used.has(n)) n++;
  hearing.texts[n] = wanted;
  return n;
}
