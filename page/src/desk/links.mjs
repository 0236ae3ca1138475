// What each take was set from, and with which text: from the record of steps, by the library's replies along it. A signed take keeps what
// it was signed with, and a take that falls goes back to that.
import { takesOf } from "../../../bindings/js/packed.mjs";
import { kindOf, FALLEN_BACK, REFUSED, VANISHED } from "../shared/words.mjs";

/** @typedef {Map<number, Link>} Links what a take was set from: by ground */
/** @typedef {{text: number, below: Links}} Link the ground's text at that time, and what the ground itself was set from then */

/** What the record says of one take. */
class Story {
  constructor() {
    /** @type {Links} */
    this.links = new Map();
    /** @type {Links} */
    this.signed = new Map();
    /** @type {{ground: number, link: Link} | null} */
    this.hand = null;
    /** @type {number[]} texts that were written, oldest first */
    this.texts = [];
    this.withdrawn = false;
    this.last = 0;
  }

  fell(vanished) {
    this.links = new Map(vanished ? [] : this.signed);
    this.hand = null;
    this.withdrawn = true;
  }
}

/**
 * @param {import("../shared/record.mjs").Record} record
 * @returns {Story[]}
 */
export function storiesOf(record) {
  const stories = record.heads[0].map(() => new Story()), sent = new Map();
  record.steps.forEach((step, i) => {
    const reply = record.replies[i];
    if (reply.outcome < REFUSED) told(stories, sent, { step, reply, kind: kindOf(step), before: record.heads[i], at: i + 1 });
  });
  return stories;
}

const linkTo = (stories, before, ground) => ({ text: before[ground].text, below: new Map(stories[ground].links) });

/** What one step adds. */
function told(stories, sent, { step, reply, kind, before, at }) {
  const opens = kind === "root" || kind === "new";
  if (opens) stories[reply.take] = new Story();
  const story = stories[kind === "sign" || kind === "lose" ? -1 : reply.take];
  if (story) story.last = at;
  if (opens && step.text) story.texts.push(step.text);
  if (kind === "new") story.links.set(step.take, linkTo(stories, before, step.take));
  if (kind === "send") sent.set(reply.parcel, { ground: step.take, link: linkTo(stories, before, step.take) });
  if (kind === "letter") sent.set(reply.parcel, null);
  if (reply.outcome === FALLEN_BACK || reply.outcome === VANISHED) story.fell(reply.outcome === VANISHED);
  else if (kind === "receive" && reply.outcome === 0) story.hand = sent.get(reply.parcel) ?? null;
  else if (kind === "write" && reply.outcome === 0) written(story, step.text);
  else if (kind === "done" || (kind === "fall" && reply.outcome === 1)) story.hand = null;
  else if (kind === "sign" && reply.outcome === 0) for (const t of takesOf(step.parcel)) Object.assign(stories[t], { signed: new Map(stories[t].links), hand: null, last: at });
}

function written(story, text) {
  if (story.hand) story.links.set(story.hand.ground, story.hand.link);
  story.texts.push(text);
  story.withdrawn = false;
}

/** All that a take was set from, through others too, with the grounds on the way to each: the nearest way. */
export function allBelow(links, way = [], found = new Map()) {
  for (const [ground] of links) if (!found.has(ground)) found.set(ground, way);
  for (const [ground, link] of links) if (!way.includes(ground)) allBelow(link.below, [...way, ground], found);
  return found;
}

/**
 * Every "set from" below a take, through others too: the take that was set, and its ground.
 * @param {number} take
 * @param {Links} links
 * @param {Map<Link, number[]>} [found]
 */
export function edgesBelow(take, links, found = new Map()) {
  for (const [ground, link] of links) {
    if (found.has(link)) continue;
    found.set(link, [take, ground]);
    edgesBelow(ground, link.below, found);
  }
  return [...found.values()];
}

/**
 * The grounds that were written since a take was set from them, itself or through others: by ground, the text that it had then.
 * @param {Links} links
 * @param {number[]} texts the present text of each take
 * @param {Map<number, {text: number, way: number[]}>} [found]
 * @param {number[]} [way]
 */
export function olderIn(links, texts, found = new Map(), way = []) {
  for (const [ground, { text, below }] of links) {
    if (text !== texts[ground] && !found.has(ground)) found.set(ground, { text, way });
    if (!way.includes(ground)) olderIn(below, texts, found, [...way, ground]);
  }
  return found;
}
