// What rests on what: the lines of the picture. From the unpacked maps and the record of steps; who is reached, the library says.
import { takesOf } from "../../../bindings/js/packed.mjs";
import { readHeads, readTake } from "../../../bindings/js/image.mjs";
import { fateOf, settled } from "./states.mjs";
import { fates } from "./parcels.mjs";
import { kindOf } from "./words.mjs";

/** @typedef {import("../../../bindings/js/ledger.mjs").Session} Session */
/** @typedef {import("./record.mjs").Record} Record */
/** @typedef {{from: number, to: number, kind: "plain" | "withdrawn" | "together", word?: string}} Line word: said of it instead of its kind's */

/**
 * The takes that rest on the present life of one, through others too, without itself.
 * @param {Session} session
 * @param {number} take
 * @returns {number[]}
 */
export function reachOf(session, take) {
  return takesOf(session.dependents(take).through).filter(t => t !== take);
}

/**
 * The live takes whose present lives one rests on, through others too, without itself.
 * @param {Session} session
 * @param {number} take
 * @returns {number[]}
 */
export function groundsOf(session, take) {
  const heads = readHeads(session.image), live = heads.map((_, u) => u).filter(u => u !== take && heads[u].status !== "vanished");
  return live.filter(u => (session.dependents(u).through >> take) & 1);
}

/**
 * The unsigned lives that a take has in its state and creation maps, others' alone: whose, and whether it is withdrawn.
 * @param {Uint8Array} image
 * @param {number} take
 */
export function unsignedGrounds(image, take) {
  const { state, creation } = readTake(image, take), heads = readHeads(image);
  return [state, creation].flatMap(map => map.flatMap((mark, u) => {
    const fate = mark && u !== take ? fateOf(mark, heads[u].mark) : "signed";
    return mark && fate !== "signed" ? [{ take: u, mark, withdrawn: fate === "withdrawn" }] : [];
  }));
}

/**
 * Which take opened which, up to a moment.
 * @param {Record} record
 * @param {number} count
 * @returns {Map<number, number>}
 */
function openers(record, count) {
  const opens = (/** @type {number} */ i) => kindOf(record.steps[i]) === "new" && record.replies[i].outcome === 0;
  return new Map(record.steps.slice(0, count).flatMap((step, i) => (opens(i) ? [[record.replies[i].take, step.take]] : [])));
}

/**
 * Who gave a take something to work with up to a moment: the senders of the parcels that it took in, and its opener.
 * @param {Record} record
 * @param {number} count
 * @param {Map<number, number>} opened
 * @returns {Map<number, Set<number>>}
 */
function givers(record, count, opened) {
  const found = new Map([...opened].map(([child, opener]) => [child, new Set([opener])]));
  for (const { from, to, how, ended } of fates(record)) {
    if (from !== null && ended !== null && ended <= count && how === "taken") found.set(to, (found.get(to) ?? new Set()).add(from));
  }
  return found;
}

/**
 * The lines of a moment: each take to what it was set from, and those that a signing settled.
 * @param {Record} record
 * @param {number} count
 * @returns {Line[]}
 */
export function linesOf(record, count) {
  const lines = openLines(record, count);
  return [...lines, ...together(record, count).filter(l => !lines.some(m => m.from === l.from && m.to === l.to))];
}

/**
 * Each take to what it was set from and is not signed. A ground that it has through another gets no line of its own.
 * @param {Record} record
 * @param {number} count
 * @returns {Line[]}
 */
function openLines(record, count) {
  const { image } = record.at(count), opened = openers(record, count), givenBy = givers(record, count, opened), heads = record.heads[count];
  /** @type {Line[]} */
  const lines = [];
  heads.forEach((head, from) => {
    if (head.status === "vanished") return;
    const grounds = unsignedGrounds(image, from), known = givenBy.get(from) ?? new Set(), direct = grounds.filter(g => known.has(g.take));
    for (const g of direct.length ? direct : grounds) {
      const born = !g.withdrawn && opened.get(from) === g.take ? { word: "opened by" } : {};
      if (!lines.some(l => l.from === from && l.to === g.take)) lines.push({ from, to: g.take, kind: g.withdrawn ? "withdrawn" : "plain", ...born });
    }
  });
  return lines;
}

/**
 * The lines that the last signing of each take settled, of those takes that still have what was signed then.
 * @param {Record} record
 * @param {number} count
 * @returns {Line[]}
 */
function together(record, count) {
  /** @type {Map<number, number>} */
  const last = new Map();
  for (let i = 0; i < count; i++) {
    const signs = kindOf(record.steps[i]) === "sign" && record.replies[i].outcome === 0;
    for (const t of signs ? takesOf(record.steps[i].parcel) : []) last.set(t, i);
  }
  const session = record.at(count), before = new Map([...new Set(last.values())].map(i => [i, openLines(record, i)]));
  return [...last].filter(([t]) => settled(session, t)).flatMap(([t, i]) => {
    const inside = (/** @type {Line} */ l) => l.from === t && (record.steps[i].parcel >> l.to) & 1;
    return (before.get(i) ?? []).filter(inside).map(l => /** @type {Line} */ ({ ...l, kind: "together" }));
  });
}

/**
 * The lines along which a take rests on others: from it to its grounds, and on from there.
 * @param {Line[]} lines
 * @param {number} take
 * @returns {Line[]}
 */
export function linesBelow(lines, take) {
  const found = new Set(), open = [take];
  while (open.length) {
    const from = open.pop();
    for (const line of lines) if (line.from === from && line.kind !== "together" && !found.has(line)) open.push((found.add(line), line.to));
  }
  return [...found];
}
