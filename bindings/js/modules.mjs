// The library's modules: loaded once, and lent to one call after the other.
import { Memory, wide } from "./memory.mjs";
import { Refusal, REFUSALS } from "./refusals.mjs";

/** @typedef {"ledger" | "looking" | "engine" | "notation"} Name */

/** @type {Map<string, Memory>} */
const loaded = new Map();

/**
 * Loads the modules that bindings/js/build makes; needed once, before any call. A module that is not given can't be called.
 * @param {Partial<Record<Name, Uint8Array>>} modules
 */
export async function load(modules) {
  for (const [name, bytes] of Object.entries(modules)) if (bytes) loaded.set(name, await Memory.load(bytes));
  if (modules.notation) for (const [number, row] of Object.entries(REFUSALS)) row[1] = refusalText(Number(number));
}

const LINE = 256;

/**
 * The library's words for a refusal, 16 to 35; none for another number.
 * @param {number} number
 * @returns {string}
 */
export function refusalText(number) {
  if (!Number.isInteger(number) || number < 0 || number > 255) return "";
  const m = memory("notation"), answer = m.room(16), out = m.room(LINE);
  m.calls.notation_refusal_text(answer, number, out, wide(LINE));
  accepted(m.byte(answer + 8));
  return new TextDecoder().decode(m.copy(out, m.word(answer)));
}

/**
 * The memory of a module, with all its room free.
 * @param {Name} name
 * @returns {Memory}
 */
export function memory(name) {
  const found = loaded.get(name);
  if (!found) throw new Error(`the module ${name} is not loaded: call load first`);
  return found.clear();
}

/**
 * Throws where a call was turned back.
 * @param {number} number
 */
export function accepted(number) {
  if ((number & 255) !== 0) throw new Refusal(number & 255);
}
