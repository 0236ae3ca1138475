// The tables of a hearing: names, pages, what rests on what, and the record of steps. The same rows go into CSV files and onto paper.
import { FALLEN_BACK, REFUSED, VANISHED, kindOf, verdict } from "../shared/words.mjs";
import { STATE_WORDS } from "../shared/marks.mjs";
import { HOUSE } from "../shared/log.mjs";
import { setFromIt, cardNames } from "./cards.mjs";
import { signingOf } from "./wishes.mjs";
import { leftToDo, listOf, inside, staleWords } from "./saying.mjs";

const two = n => String(n).padStart(2, "0");
/** A time as spreadsheets read it. */
export const dateOf = ms => (ms ? (d => `${d.getFullYear()}-${two(d.getMonth() + 1)}-${two(d.getDate())}`)(new Date(ms)) : "");
export const timeOf = ms => (ms ? (d => `${two(d.getHours())}:${two(d.getMinutes())}:${two(d.getSeconds())}`)(new Date(ms)) : "");
export const stateOfCard = c => (c.withdrawn ? "withdrawn" : c.blank && c.state === "draft" ? "blank" : STATE_WORDS[c.state]);
const oldText = (front, c) => [...[...c.older].map(([g, { text }]) => `${front.cards[g].title}: ${front.desk.hearing.texts[text] ?? ""}`), ...(c.stale.length ? [staleWords(c)] : [])].join("; ");

/** What is left to do with a card, in a few words. */
export function leftOf(front, c) {
  if (c.state === "signed" || c.state === "vanished" || c.blank) return "";
  const list = signingOf(front.session, [c.take]);
  return list ? leftToDo(front.cards, list).join("; ") : "set again";
}

export function namesSheet(front) {
  const rows = front.cards.filter(c => c.kind === "name").map(c => [front.desk.hearing.takes[c.take] || c.title, c.role, c.title, c.was.join("; "), c.first, stateOfCard(c), setFromIt(front.cards, c.take).map(p => p.title).join("; ")]);
  return [["name", "role", "spelling", "earlier spellings", "first page", "state", "pages set from it"], ...rows];
}

export function pagesSheet(front) {
  const rows = front.cards.filter(c => c.kind === "page").map(c => [c.title, c.words, stateOfCard(c), c.grounds.map(g => front.cards[g].title).join("; "), oldText(front, c), leftOf(front, c)]);
  return [["page", "words", "state", "set from", "set from an older text", "left to do"], ...rows];
}

export function restsSheet(front) {
  const { cards } = front, way = w => (w.length ? `through ${listOf(cards, w)}` : "set from it");
  const rows = cards.flatMap(c => [...c.below].map(([ground, w]) => [c.title, stateOfCard(c), cards[ground].title, way(w), c.older.has(ground) ? "older text" : ""]));
  return [["card", "state", "rests on", "how", "text"], ...rows];
}

// What a step did, in words without the numbers that the ledger gives to parcels and texts.
const SAID = {
  root: x => `${x}: opened`, letter: x => `${x}: a note from outside waits`, receive: x => `${x}: the note is taken in, at work`, new: (x, s, names) => `${x}: opened by ${names.take(s.take)}`,
  send: (x, s, names) => `${x}: sends a note to ${names.take(s.other)}`, read: x => `${x}: is read`, freeze: x => `${x}: frozen`, done: x => `${x}: the work is put down`, lose: () => "a note is lost",
};

/** What a step did: its words where it was done, or what it tried. */
function saidOf(step, reply, names, texts) {
  const kind = kindOf(step), x = kind === "sign" ? names.volume(step.parcel) : kind === "lose" || reply.outcome >= REFUSED ? "" : names.take(reply.take);
  if (kind === "sign") return reply.outcome === 0 ? `signed: ${x}` : `asked to sign: ${x}`;
  if (reply.outcome >= REFUSED) return `${kind}: refused`;
  if (reply.outcome === FALLEN_BACK) return `${x}: withdrawn, and back to what was signed`;
  if (reply.outcome === VANISHED) return `${x}: withdrawn, and gone`;
  if (reply.outcome !== 0) return `${x}: ${kind}`;
  return kind === "write" ? `${x}: ${texts[step.text] ? `written: \u201c${texts[step.text]}\u201d` : "written blank"}` : SAID[kind]?.(x, step, names) ?? `${x}: ${kind}`;
}

export function recordSheet(front) {
  const { record, hearing } = front.desk, names = cardNames(front.cards, hearing.texts);
  const rows = record.steps.map((step, i) => [i + 1, dateOf(hearing.times[i]), timeOf(hearing.times[i]), hearing.who?.[i] ?? (hearing.house || HOUSE), saidOf(step, record.replies[i], names, hearing.texts), verdict(record.replies[i])]);
  return [["step", "date", "time", "who", "what was done", "reply"], ...rows];
}

/** A summary for the first lines of the record. */
export function summaryOf(front) {
  const { cards } = front, live = cards.filter(c => !c.withdrawn && c.state !== "vanished"), signed = live.filter(c => c.state === "signed"), old = live.filter(c => c.older.size), gone = live.filter(c => c.state === "gone");
  const words = [`${signed.length} of ${live.length} cards are signed${signed.length ? `: ${listOf(cards, signed.map(c => c.take))}` : ""}.`];
  if (gone.length) words.push(`Without ground: ${listOf(cards, gone.map(c => c.take))}.`);
  if (old.length) words.push(`Set from an older text: ${listOf(cards, old.map(c => c.take))}.`);
  const stale = live.filter(c => c.stale.length);
  if (stale.length) words.push(`With an old spelling in the words: ${listOf(cards, stale.map(c => c.take))}.`);
  const dead = cards.filter(c => c.withdrawn || c.state === "vanished");
  if (dead.length) words.push(`Withdrawn: ${dead.map(inside).join(", ")}.`);
  return words;
}
