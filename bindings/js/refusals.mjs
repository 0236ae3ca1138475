// The documents' outcomes and refusals: number, name, and the library's words.

/**
 * Outcomes of a step, a reply's first byte.
 * @type {Record<number, string>}
 */
export const OUTCOMES = {
  0: "done", 1: "held", 2: "dropped", 3: "fallen back", 4: "vanished", 5: "not ready",
};

/**
 * Refusals of calls and steps: a name, and the library's words, which `load` asks for (notation_refusal_text); empty until then.
 * @type {Record<number, [string, string]>}
 */
export const REFUSALS = {
  16: ["wrong length", ""],
  17: ["wrong part", ""],
  18: ["wrong room", ""],
  19: ["ill-formed", ""],
  20: ["malformed", ""],
  21: ["not opened", ""],
  22: ["gone", ""],
  23: ["wrong status", ""],
  24: ["not waiting", ""],
  25: ["all opened", ""],
  26: ["all waiting", ""],
  27: ["all numbered", ""],
  28: ["last life", ""],
  29: ["empty volume", ""],
  30: ["all signed", ""],
  31: ["unrelated", ""],
  32: ["too wide", ""],
  33: ["out of range", ""],
  34: ["wrong size", ""],
  35: ["wrong width", ""],
};

/**
 * The name of an outcome or a refusal.
 * @param {number} number
 * @returns {string}
 */
export function nameOf(number) {
  return OUTCOMES[number] ?? REFUSALS[number]?.[0] ?? `number ${number}`;
}

/** A call that was turned back. */
export class Refusal extends Error {
  /** @param {number} number the documents' number */
  constructor(number) {
    const [word, sentence] = REFUSALS[number] ?? [`number ${number}`, "no such refusal is known"];
    super(`refused with ${number}, ${word}${sentence ? `: ${sentence}` : ""}`);
    this.name = "Refusal";
    this.number = number;
    this.word = word;
    this.sentence = sentence;
  }
}
