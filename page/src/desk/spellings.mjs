// Old spellings of names in the words of pages: where one still stands, and the words with the present spelling in its place.

// A spelling of one sign is no word to look for.
const LEAST = 2;
const escaped = word => word.replace(/[\\^$.*+?()[\]{}|/]/g, "\\$&");

/** Finds both spellings as whole words, the longer one first: an old one inside of the present one is none. */
function finder(old, now) {
  const same = old.toLocaleLowerCase() === now.toLocaleLowerCase(), both = [`(${escaped(now)})`, escaped(old)];
  return new RegExp(`(?<![\\p{L}\\p{N}])(?:${(old.length > now.length ? both.reverse() : both).join("|")})(?![\\p{L}\\p{N}])`, same ? "gu" : "giu");
}

/** Whether words have the old spelling of a name. */
export function stillSays(words, old, now) {
  return old.length >= LEAST && now !== "" && [...words.matchAll(finder(old, now))].some(found => found[1] === undefined);
}

/** The words with the present spelling; in capitals where the old one was. */
export function respelled(words, old, now) {
  const capitals = word => word === word.toLocaleUpperCase() && word !== word.toLocaleLowerCase();
  return words.replace(finder(old, now), (found, present) => (present !== undefined ? found : found !== old && capitals(found) ? now.toLocaleUpperCase() : now));
}

/**
 * The old spellings that a page's words still have, of names that it is set from, itself or through others.
 * @param {import("./cards.mjs").Card} card
 * @param {import("./cards.mjs").Card[]} cards
 */
export function staleIn(card, cards) {
  const names = card.kind === "page" && !card.blank ? [...card.below.keys()].map(t => cards[t]).filter(c => c.kind === "name" && !c.blank) : [];
  return names.flatMap(({ take, was, words }) => was.filter(old => stillSays(card.words, old, words)).map(old => ({ ground: take, old, now: words })));
}
