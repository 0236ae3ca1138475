// What is to be said first of two files: a sentence, and what explains it.
import { sameBytes } from "../../../bindings/js/packed.mjs";
import { capital, counted, listed } from "../shared/names.mjs";
import { otherTakes } from "./ends.mjs";

const PLAYED = "The list is played to its end, and its image compared.";

/** Two files of which at least one can't be opened. */
function unopened(a, b) {
  if (!a.bytes || !b.bytes) return [false, `Only the ${a.image ? "left" : "right"} file can be opened: there is nothing to compare.`, ""];
  const alike = sameBytes(a.bytes, b.bytes);
  return [alike, `The files are ${alike ? "" : "not "}the same, byte for byte.`, ""];
}

/** How both end. */
function endWords(a, b) {
  if (sameBytes(a.image, b.image)) return "both end in the same image, byte for byte";
  if (a.reason || b.reason) return "they hold other bytes";
  const takes = otherTakes(a.image, b.image).map(t => a.names.take(t));
  return takes.length ? `${listed(takes)} ${takes.length > 1 ? "end" : "ends"} otherwise` : "what waits at the end differs";
}

/**
 * Whether they are alike, the sentence, and what explains it.
 * @param {any} a
 * @param {any} b
 * @param {import("./align.mjs").Run[] | null} runs
 * @returns {[boolean, string, string]}
 */
export function verdictOf(a, b, runs) {
  if (!(a.image && b.image)) return /** @type {[boolean, string, string]} */ (unopened(a, b));
  const ends = endWords(a, b), alike = sameBytes(a.image, b.image);
  if (!runs) return [alike, `${alike ? "They are the same" : "They differ"}: ${ends}.`, a.record || b.record ? PLAYED : ""];
  const other = runs.filter(r => r.kind === "other").reduce((n, r) => n + Math.max(r.left.length, r.right.length), 0);
  const orders = runs.filter(r => r.kind === "order").length, words = capital(counted(orders, "run is", "runs are"));
  const order = orders ? `${words} the same up to order: whose edit came first made no difference there.` : "";
  if (other) return [false, `They differ in ${counted(other, "step")}; ${ends}.`, order];
  return [true, orders ? `The same steps, in another order; ${ends}.` : `The steps are the same; ${ends}.`, order];
}
