// Steps as a story: several steps that make one deed become one sentence, as "page 12 is set from the names".
import { takesOf } from "../../../bindings/js/packed.mjs";
import { effect, kindOf, takesIn, FALLEN_BACK, GONE, NOT_READY, REFUSED, VANISHED, WRONG_STATUS } from "./words.mjs";
import { capital, listed } from "./names.mjs";
import { fates } from "./parcels.mjs";

/** @typedef {import("./record.mjs").Record} Record */
/** @typedef {{first: number, last: number, words: string, takes: number[]}} Event steps from first to last, counted from 1 */

// A deed ends with a step of one of these kinds; letters, receipts and sends before it are part of it.
const ENDS = new Set(["root", "new", "write", "freeze", "fall", "fail", "lose", "sign"]);

/**
 * The deeds of a record after a moment, up to another.
 * @param {Record} record
 * @param {import("./names.mjs").Names} names
 * @param {number} from
 * @param {number} to
 * @param {boolean} each whether each step has a sentence of its own
 * @returns {Event[]}
 */
export function eventsOf(record, names, from = 0, to = record.length, each = false) {
  const events = [], parcels = fates(record);
  let first = from + 1;
  for (let i = from + 1; i <= to; i++) {
    const { step, reply } = record.move(i), kind = kindOf(step), news = kind === "receive" && reply.outcome !== 0;
    const last = events.at(-1);
    if (kind === "done" && reply.outcome === 0 && last?.last === i - 1) {
      last.last = i;
      first = i + 1;
      continue;
    }
    if (!each && !ENDS.has(kind) && !news && i < to && reply.outcome < REFUSED) continue;
    events.push({ first, last: i, words: capital(sentence(record, i, names, parcels)), takes: takesIn(step, reply) });
    first = i + 1;
  }
  return events;
}

/**
 * The take that sent what a take has taken in last, at or before a step; null from outside.
 * @param {import("./parcels.mjs").Fate[]} parcels
 * @param {number} take
 * @param {number} at
 */
function giver(parcels, take, at) {
  const taken = parcels.flatMap(({ to, how, from, ended }) => (to === take && how === "taken" && ended !== null && ended <= at ? [{ from, ended }] : []));
  return taken.sort((a, b) => a.ended - b.ended).at(-1)?.from ?? null;
}

/** Who does it is not known to the ledger: someone. */
function sentence(record, i, names, parcels) {
  const { step, reply } = record.move(i), kind = kindOf(step), x = names.take(reply.take);
  if (reply.outcome >= REFUSED) return refused(step, reply, names);
  if (kind === "sign") return signing(step, reply, names);
  if (reply.outcome === VANISHED || reply.outcome === FALLEN_BACK) return falling(kind, reply, names);
  if (reply.outcome === 1) return `someone wants ${kind === "write" ? "to edit" : "to withdraw"} ${x}; frozen, it is held`;
  const from = kind === "write" ? giver(parcels, reply.take, i) : null, text = names.text(step.text);
  const said = {
    lose: () => effect(step, reply, names),
    root: () => `someone opens ${x}`,
    new: () => `${names.take(step.take)} opened ${x}`,
    freeze: () => `someone freezes ${x}`,
    letter: () => `letter ${reply.parcel} is sent to ${x}: ${text}`,
    send: () => `${x} sent note ${reply.parcel} to ${names.take(step.other)}: ${text}`,
    receive: () => `${x} opened ${parcels.find(p => p.number === reply.parcel)?.from === null ? "letter" : "note"} ${reply.parcel}: ${names.text(reply.text)}`,
    write: () => (from === null ? `someone writes into ${x}: ${text}` : `someone sets ${x} from ${names.take(from)}: ${text}`),
  };
  return said[kind]?.() ?? effect(step, reply, names);
}

/** A wish that the ledger refused, and why, by its reply. */
function refused(step, reply, names) {
  const kind = kindOf(step), receipt = kind === "receive", wish = { receive: `opening letter ${step.parcel}`, freeze: `freezing ${names.take(step.take)}` }[kind] ?? kind;
  const why = { [GONE]: "nothing is left there", [WRONG_STATUS]: receipt ? "its page is at work" : "nobody is at work on it" }[reply.outcome];
  return `${wish} is refused: ${why ?? effect(step, reply, names)}`;
}

function signing(step, reply, names) {
  const takes = listed(takesOf(step.parcel).map(t => names.take(t))), together = takesOf(step.parcel).length > 1 ? " together" : "";
  return reply.outcome === NOT_READY ? `someone wants to sign ${takes}: not ready, and nothing changes` : `someone signs ${takes}${together}`;
}

function falling(kind, reply, names) {
  const x = names.take(reply.take), end = reply.outcome === VANISHED ? "never signed, nothing is left" : "back to the signed text";
  return kind === "receive" ? `a note shows ${x} that the ground is gone: ${end}` : `someone withdraws ${x}: ${end}`;
}
