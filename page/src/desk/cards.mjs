// A card for each take, as the desk shows it: a name or a page, its title and words, its state, what it was set from, and what is old in it.
import { readImage } from "../../../bindings/js/image.mjs";
import { takesOf } from "../../../bindings/js/packed.mjs";
import { stateOf } from "../shared/states.mjs";
import { Names } from "../shared/names.mjs";
import { staleIn } from "./spellings.mjs";
import { allBelow, edgesBelow, olderIn, storiesOf } from "./links.mjs";

/** @typedef {import("../shared/record.mjs").Record} Record */
/** @typedef {import("../shared/marks.mjs").State} State */
/**
 * @typedef {{take: number, kind: "name" | "page", title: string, words: string, was: string[], role: string, first: string, state: State, blank: boolean,
 *   withdrawn: boolean, grounds: number[], below: Map<number, number[]>, edges: number[][], older: Map<number, {text: number, way: number[]}>, signings: number,
 *   changed: number, stale: {ground: number, old: string, now: string}[]}} Card
 */

const PAGE = /^(page|pages|p\.|pp\.|pg)\b/i;

/** Whether a take is a page: as the desk noted it, or by its name. */
function kindOf(hearing, t) {
  return hearing.about[t]?.kind === "name" || hearing.about[t]?.kind === "page" ? hearing.about[t].kind : PAGE.test(hearing.takes[t] ?? "") ? "page" : "name";
}

/** What a card is called: a name by its present spelling, a page by its number. */
function titleOf(hearing, kind, text, t) {
  const called = hearing.takes[t] || `${kind === "page" ? "Page" : "Name"} ${t + 1}`;
  return kind === "name" ? hearing.texts[text] || called : called;
}

/** The spellings or words that a take had before its present ones, newest first. */
function before(hearing, story, text) {
  return [...new Set([...story.texts].reverse())].filter(n => n !== text && n !== 0 && hearing.texts[n]).map(n => hearing.texts[n]);
}

/**
 * @param {Record} record
 * @param {any} hearing
 * @returns {Card[]}
 */
export function cardsOf(record, hearing) {
  const session = record.end, heads = record.lastHeads, stories = storiesOf(record), texts = heads.map(h => h.text);
  const cards = heads.map((head, take) => {
    const story = stories[take], kind = kindOf(hearing, take), found = stateOf(session, take), blank = head.text === 0;
    const { role = "", first = "" } = hearing.about[take] ?? {}, state = found === "signed" && blank ? "draft" : found;
    const links = state === "vanished" ? new Map() : story.links, older = state === "gone" ? new Map() : olderIn(links, texts);
    return {
      take, kind, title: titleOf(hearing, kind, head.text, take), words: hearing.texts[head.text] ?? (blank ? "" : `text ${head.text}`),
      was: before(hearing, story, head.text), role, first, state, blank, withdrawn: story.withdrawn && blank,
      grounds: [...links.keys()], below: allBelow(links), edges: edgesBelow(take, links), older, signings: head.mark?.list.length ?? 0, changed: story.last, stale: [],
    };
  });
  return cards.map(card => ({ ...card, stale: staleIn(card, cards) }));
}

/** The cards whose takes were set from a take, through others too, as the record says: signed ones too. */
export function setFromIt(cards, take) {
  return cards.filter(c => c.take !== take && c.below.has(take));
}

/** What cards are called in sentences. */
export function cardNames(cards, texts) {
  return new Names(cards.map(c => (c.kind === "page" ? c.title.replace(/^Page\b/, "page") : c.title)), texts);
}

/** The takes that a withdrawal of one reaches, and how: set from it, or through which one. */
export function reachedBy(session, cards, take) {
  const { through } = session.dependents(take), reached = takesOf(through).filter(t => t !== take);
  return new Map(reached.map(t => [t, cards[t].grounds.includes(take) ? null : cards[t].below.get(take)?.[0] ?? null]));
}

/** How many takes may be opened still. */
export function roomOf(session) {
  const { opened, limits } = readImage(session.image);
  return { left: limits.takes - opened, takes: limits.takes, signings: limits.signings };
}
