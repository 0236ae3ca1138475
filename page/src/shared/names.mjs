// What takes and texts are called. Names stand beside a session and never in it.
import { takesOf } from "../../../bindings/js/packed.mjs";

// Letters written from right to left, and signs that turn the direction.
const TURNING = /[\u0590-\u08ff\u200e\u200f\u202a-\u202e\u2066-\u2069\ufb1d-\ufdff\ufe70-\ufefc]/;

/** Words that keep their own direction to themselves. */
export function isolated(words) {
  return TURNING.test(words) ? `\u2068${words}\u2069` : words;
}

// A name like "van Dijk" or "iTunes log" is written as it is, also where a sentence starts with it.
const AS_IT_IS = /^\p{Ll}.*\p{Lu}/su;
// So many letters of a name are shown; the rest is for whoever asks for it.
const LONGEST = 80;

/** A name as it is said: its own direction, its own small letter, and not without end. */
function called(name) {
  const short = name.length > LONGEST ? `${name.slice(0, LONGEST)}\u2026` : name;
  return AS_IT_IS.test(short) && !TURNING.test(short) ? `\u2068${short}\u2069` : isolated(short);
}

export class Names {
  /** takes: a name for each take, by number; texts: words for a text, by number. */
  constructor(takes = [], texts = {}) {
    this.takes = takes;
    this.texts = texts;
  }

  take(t) {
    return this.takes[t] ? called(this.takes[t]) : `take ${t}`;
  }

  /** The number with the name, where both are wanted. */
  numbered(t) {
    return this.takes[t] ? `${t} ${called(this.takes[t])}` : `take ${t}`;
  }

  text(n) {
    return this.texts[n] ? `\u201c${isolated(this.texts[n])}\u201d` : `text ${n}`;
  }

  /** A text where a column says that it is one. */
  bare(n) {
    return this.texts[n] ? `\u201c${isolated(this.texts[n])}\u201d` : String(n);
  }

  /** A text's words as they are, or its number. */
  plain(n) {
    return this.texts[n] ? isolated(this.texts[n]) : n === 0 ? "no text yet" : `text ${n}`;
  }

  volume(volume) {
    return listed(takesOf(volume).map(t => this.take(t)));
  }
}

/** a, b and c */
export function listed(words) {
  return words.length < 2 ? words.join("") : `${words.slice(0, -1).join(", ")} and ${words.at(-1)}`;
}

export function counted(n, one, many = `${one}s`) {
  return `${n} ${n === 1 ? one : many}`;
}

export function braces(volume) {
  return `{${takesOf(volume).join(",")}}`;
}

/** With a capital letter first. */
export function capital(words) {
  return words.charAt(0).toUpperCase() + words.slice(1);
}
