// The desk's sentences: which names and pages, and what is left to do with them.
import { listed, isolated, counted } from "../shared/names.mjs";
import { partsOf } from "./wishes.mjs";

const NUMBERED = /^Page (\S+)$/;

/** The number in a page's title; null where it has none, or is a name. */
const numberOf = card => NUMBERED.exec(card.title)?.[1] ?? null;

/** "Mr. Abara, and pages 1, 6 and 9" in one list: names first, then pages by their numbers. */
export function listOf(cards, takes) {
  const chosen = [...takes].map(t => cards[t]), names = chosen.filter(c => numberOf(c) === null), pages = chosen.filter(c => numberOf(c) !== null);
  const numbers = pages.map(numberOf);
  const said = pages.length ? [`${pages.length > 1 ? "pages" : "page"} ${listed(numbers)}`] : [];
  return listed([...names.map(c => isolated(c.title)), ...said]);
}

/** A card's title in the middle of a sentence. */
export const inside = card => (numberOf(card) === null ? isolated(card.title) : `page ${numberOf(card)}`);

/** What a list of steps does, as a person would count it: what is frozen, and what is signed. */
export function leftToDo(cards, list) {
  const { freezes, signs } = partsOf(list);
  const sign = signs.length > 1 ? `Sign together: ${listOf(cards, signs)}` : `Sign ${listOf(cards, signs)}`;
  return [...freezes.map(t => `Freeze ${inside(cards[t])}`), ...(signs.length ? [sign] : [])];
}

/** The same in two lines: all that is frozen, and all that is signed. */
export function inShort(cards, list) {
  const { freezes, signs } = partsOf(list), left = leftToDo(cards, list), same = signs.length === freezes.length && signs.every(t => freezes.includes(t));
  return freezes.length > 3 ? [`Freeze ${listOf(cards, freezes)}`, ...(same ? ["Sign all of these together"] : left.slice(freezes.length))] : left;
}

/** What is old in these takes, in sentences. */
export function oldWords(cards, takes, texts) {
  return takes.filter(t => cards[t].older.size).map(t => {
    const [[ground, { text }]] = cards[t].older;
    return `${cards[t].title} was set when ${inside(cards[ground])} read \u201c${isolated(texts[text] ?? "nothing")}\u201d.`;
  });
}

/** Which old spellings a page's words still have, after its title. */
export const staleWords = card => `still says ${listed([...new Set(card.stale.map(s => isolated(s.old)))])}`;

/** What a signing costs of the signings that a take has. */
export function signingWords(cards, takes, most) {
  const scarce = takes.filter(t => most - cards[t].signings <= 3);
  return scarce.map(t => `${cards[t].title} has ${counted(most - cards[t].signings, "signing")} left of ${most}.`);
}
