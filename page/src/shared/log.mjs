// The log of a hearing as the store writes it (`ledger export FILE log`): a line for each step, name and text, with who and when, and before each
// line its sum, the SHA-256 of the sum before it, a blank, and the line. A line that begins with # is no part of it.
import { readStep } from "../../../bindings/js/packed.mjs";
import { emptyHearing, begun, Unreadable } from "./hearing.mjs";
import { Record } from "./record.mjs";
import { WITH_TEXT, kindOf } from "./words.mjs";

/** @typedef {{owner: string, name: string | null}} Holder */
/** @typedef {{steps: number, texts: Set<number>, holders: Holder[], house: string}} Told what the lines so far say */
/** @typedef {{sum: string, line: string}} Row */

export const HOUSE = "desk";
const LOG = /^([0-9a-f]{64}) ((hearing|step|take|words) .*)$/, BESIDE = "# desk ";

/** Whether a text is such a log. */
export const isLog = (/** @type {string} */ text) => /^(#.*\r?\n)*[0-9a-f]{64} hearing /.test(text);

const hexOf = (/** @type {Uint8Array} */ bytes) => Array.from(bytes, b => b.toString(16).padStart(2, "0")).join("");
const hexed = (/** @type {string} */ words) => hexOf(new TextEncoder().encode(words));

/**
 * The bytes of hexadecimal digits.
 * @param {string} digits
 */
function unhexed(digits) {
  if (!/^([0-9a-f]{2})*$/.test(digits)) throw new Unreadable(`\u201c${digits.slice(0, 20)}\u201d are no bytes`);
  return Uint8Array.from(digits.match(/../g) ?? [], d => parseInt(d, 16));
}

const wordsIn = (/** @type {string} */ digits) => new TextDecoder().decode(unhexed(digits));
const orNone = (/** @type {string} */ digits) => (digits === "-" ? null : wordsIn(digits));

/**
 * The sum of a line, after the sum of the line before it; nothing before the first.
 * @param {string} before
 * @param {string} line
 */
export async function sumOf(before, line) {
  const bytes = new TextEncoder().encode(before ? `${before} ${line}` : line);
  return hexOf(new Uint8Array(await crypto.subtle.digest("SHA-256", bytes)));
}

/**
 * The rows of a log, whose chain of sums holds; throws Unreadable.
 * @param {string} text
 * @returns {Promise<Row[]>}
 */
async function rowsOf(text) {
  /** @type {Row[]} */
  const rows = [];
  for (const [i, line] of text.split(/\r?\n/).entries()) {
    if (line === "" || line.startsWith("#")) continue;
    const [, sum, said] = LOG.exec(line) ?? [];
    if (!sum) throw new Unreadable(`line ${i + 1} is none of a hearing's log`);
    if (sum !== await sumOf(rows.at(-1)?.sum ?? "", said)) throw new Unreadable(`the sums do not hold at line ${i + 1}: there, or before it, something was changed or left out`);
    rows.push({ sum, line: said });
  }
  return rows;
}

/** What the desk wrote beside the log: the present title, and what each take is. */
function besideOf(/** @type {string} */ text) {
  const line = text.split(/\r?\n/).find(l => l.startsWith(BESIDE));
  try {
    return line ? JSON.parse(line.slice(BESIDE.length)) : null;
  } catch {
    return null;
  }
}

/**
 * The hearing of a log whose sums hold and whose replies are the library's; throws Unreadable.
 * @param {string} text
 */
export async function fromLog(text) {
  const rows = await rowsOf(text), beside = besideOf(text), [, takes, parcels, signings, , house, title] = rows[0].line.split(" ");
  /** @type {any} */
  const hearing = { ...emptyHearing({ takes: Number(takes), parcels: Number(parcels), signings: Number(signings) }), title: wordsIn(title), house: wordsIn(house), who: [] };
  /** @type {Uint8Array[]} */
  const steps = [], /** @type {string[]} */ replies = [];
  for (const { line } of rows.slice(1)) {
    const parts = line.split(" "), at = Date.parse(parts[parts[0] === "step" ? 4 : parts.length - 2]);
    if (parts[0] === "hearing" || (parts[0] === "step" && Number(parts[1]) !== steps.length + 1)) throw new Unreadable(`\u201c${line.slice(0, 20)}\u201d stands where it can't`);
    if (parts[0] === "step") (steps.push(unhexed(parts[2])), replies.push(parts[3]), hearing.times.push(at), hearing.who.push(wordsIn(parts[5])));
    if (parts[0] === "take" && parts[2] !== "-") hearing.takes[Number(parts[1])] = wordsIn(parts[2]);
    if (parts[0] === "words") hearing.texts[Number(parts[1])] = wordsIn(parts[3]);
  }
  hearing.list = Uint8Array.from(steps.flatMap(s => [...s]));
  const record = new Record(begun(hearing), hearing.list), odd = replies.findIndex((r, i) => r !== hexOf(record.packedReplies.subarray(8 * i, 8 * i + 8)));
  if (odd >= 0 || hearing.list.length !== 8 * steps.length) throw new Unreadable(`the ledger's reply to step ${odd + 1} is another than the file says`);
  hearing.takes = Array.from(hearing.takes, t => t ?? "");
  hearing.about = Array.isArray(beside?.about) ? beside.about : hearing.takes.map((/** @type {string} */ name) => ({ kind: Object.values(hearing.texts).includes(name) ? "name" : "page" }));
  if (typeof beside?.title === "string") hearing.title = beside.title;
  return { ...hearing, log: rows.map(r => r.line) };
}

/**
 * What lines say of takes, texts and steps.
 * @param {string[]} lines
 * @returns {Told}
 */
function toldBy(lines) {
  /** @type {Told} */
  const told = { steps: 0, texts: new Set(), holders: [], house: wordsIn(lines[0].split(" ")[5]) };
  for (const line of lines) {
    const [kind, number, name, owner] = line.split(" ");
    if (kind === "step") told.steps++;
    if (kind === "words") told.texts.add(Number(number));
    if (kind === "take") told.holders[Number(number)] = { owner: wordsIn(owner), name: orNone(name) };
  }
  return told;
}

/** The lines that a hearing's log began with, where they still are part of it: the same steps first, and the same words. */
function begunWith(hearing) {
  const { log, list, texts } = hearing, steps = (log ?? []).filter(l => l.startsWith("step ")).map(l => l.split(" ")[2]).join("");
  const same = (log ?? []).filter(l => l.startsWith("words ")).map(l => l.split(" ")).every(([, n, , words]) => texts[n] === wordsIn(words));
  return log && hexOf(list).startsWith(steps) && same ? [...log] : null;
}

/**
 * The lines of a hearing's log: those that it was opened with, and what was done since. A hearing that starts from an image has none.
 * @param {any} hearing
 * @param {Record} record
 * @returns {string[] | null}
 */
export function linesOf(hearing, record) {
  if (hearing.image) return null;
  const { limits, times, texts, takes, who = [] } = hearing, first = times.find(Boolean) ?? 0, house = hearing.house || HOUSE;
  const lines = begunWith(hearing) ?? [`hearing ${limits.takes} ${limits.parcels} ${limits.signings} ${new Date(first).toISOString()} ${hexed(house)} ${hexed(hearing.title)}`];
  const told = toldBy(lines), session = record.at(told.steps), whenOf = i => new Date(times[i] ?? times.at(-1) ?? first).toISOString();
  const hold = (take, name, owner, at, by) => {
    told.holders[take] = { owner, name };
    lines.push(`take ${take} ${name === null ? "-" : hexed(name)} ${hexed(owner)} ${at} ${hexed(by)}`);
  };
  const say = (text, at) => {
    if (!(text in texts) || told.texts.has(Number(text))) return;
    told.texts.add(Number(text));
    lines.push(`words ${text} - ${hexed(texts[text])} ${at} ${hexed(told.house)}`);
  };
  const named = (take, at) => {
    const holder = told.holders[take];
    if (takes[take] && holder && holder.name !== takes[take]) hold(take, takes[take], holder.owner, at, told.house);
  };
  for (let i = told.steps; i < record.length; i++) {
    const bytes = record.list.slice(8 * i, 8 * i + 8), at = whenOf(i), by = who[i] ?? told.house;
    played({ bytes, at, by, i }, { session, record, told, hold, say, named, lines });
  }
  takes.forEach((_, take) => named(take, whenOf(record.length)));
  for (const text of Object.keys(texts)) say(text, whenOf(record.length));
  return lines;
}

/** The lines of one step: its words, takes that are given to whoever acts for them, the step, and the take that it opened. */
function played({ bytes, at, by, i }, { session, record, told, hold, say, named, lines }) {
  const step = readStep(bytes, 0), reply = record.replies[i], { kind, takes } = session.actor(bytes);
  if (WITH_TEXT.has(kindOf(step))) say(step.text, at);
  const mine = kind === "a take" || (kind === "a volume" && by !== told.house);
  if (mine) told.holders.forEach((holder, t) => (takes >> t) & 1 && holder.owner !== by && hold(t, holder.name, by, at, told.house));
  lines.push(`step ${i + 1} ${hexOf(bytes)} ${hexOf(record.packedReplies.subarray(8 * i, 8 * i + 8))} ${at} ${hexed(by)} -`);
  if (["root", "new"].includes(kindOf(step)) && reply.outcome === 0) {
    hold(reply.take, null, by, at, by);
    named(reply.take, at);
  }
  session.run(bytes);
}

/**
 * The log of a hearing as a file, with the sum of each line; null where it has none.
 * @param {any} hearing
 * @param {Record} record
 */
export async function toLog(hearing, record) {
  const lines = linesOf(hearing, record), said = [`${BESIDE}${JSON.stringify({ title: hearing.title, about: Array.from(hearing.about, a => a ?? {}) })}`];
  if (!lines) return null;
  let sum = "";
  for (const line of lines) said.push(`${(sum = await sumOf(sum, line))} ${line}`);
  return { text: `${said.join("\n")}\n`, sum };
}
