// A step's reply in a sentence. The reply is the ledger's; these are words for it.
import { KINDS, takesOf } from "../../../bindings/js/packed.mjs";
import { nameOf, REFUSALS } from "../../../bindings/js/refusals.mjs";

export const DROPPED = 2;
export const FALLEN_BACK = 3;
export const VANISHED = 4;
export const NOT_READY = 5;
export const GONE = 22;
export const WRONG_STATUS = 23;
// From here on a reply is a refusal.
export const REFUSED = 20;

// The kinds of step that have a text.
export const WITH_TEXT = new Set(["root", "write", "new", "send", "letter"]);

export function kindOf(step) {
  return KINDS[step.kind] ?? "raw";
}

/** The takes that a step is about. */
export function takesIn(step, reply) {
  if (reply.outcome >= REFUSED) return [];
  return kindOf(step) === "sign" ? takesOf(step.parcel) : kindOf(step) === "lose" ? [] : [reply.take];
}

// Sentences that hold for a name of one thing and of several: the past, or no verb.
const FALLS = {
  [FALLEN_BACK]: x => `${x} fell back to the signed text`,
  [VANISHED]: x => `${x} vanished: never signed`,
};

const RECEIPTS = {
  0: (x, r, names) => `${x} took in parcel ${r.parcel}, ${names.text(r.text)}: now at work`,
  [DROPPED]: (x, r) => `${x} dropped parcel ${r.parcel}: it carries a withdrawn life`,
  [FALLEN_BACK]: (x, r) => `${x} fell back to the signed text: parcel ${r.parcel} shows that the ground was withdrawn`,
  [VANISHED]: (x, r) => `${x} vanished: parcel ${r.parcel} shows that the ground was withdrawn, and there is no signed text`,
};

const HELD = {
  write: x => `frozen: ${x}; the write changes nothing`,
  fall: x => `frozen: ${x}; no fall, but the work is put down`,
  fail: x => `frozen: ${x}; no fall`,
};

const DONE = {
  root: (x, s, r, names) => `opened: ${x}, with ${names.text(s.text)}`,
  letter: (x, s, r, names) => `parcel ${r.parcel} from outside, ${names.text(s.text)}, waits for ${x}`,
  new: (x, s, r, names) => `${names.take(s.take)} opened ${x}, with ${names.text(s.text)}`,
  send: (x, s, r, names) => `${x} sent parcel ${r.parcel}, ${names.text(s.text)}, to ${names.take(s.other)}`,
  read: (x, s, r, names) => `read: the text of ${x}, ${names.text(r.text)}`,
  write: (x, s, r, names) => `new text of ${x}: ${names.text(s.text)}`,
  freeze: x => `frozen: ${x}`,
  done: x => `work put down: ${x}, idle now`,
  lose: (x, s, r) => `parcel ${r.parcel} is lost`,
  sign: (x, s, r, names) => `signed: ${names.volume(s.parcel)}`,
};

/** What the step did, in a sentence without its full stop. */
export function effect(step, reply, names) {
  const kind = kindOf(step), x = names.take(reply.take), outcome = reply.outcome;
  if (outcome >= REFUSED) return REFUSALS[outcome]?.[1] ?? "refused";
  if (outcome === NOT_READY) return `not signed: ${names.volume(step.parcel)}; nothing changes`;
  if (kind === "receive") return RECEIPTS[outcome](x, reply, names);
  if (outcome in FALLS) return FALLS[outcome](x);
  return outcome === 1 ? HELD[kind](x) : DONE[kind](x, step, reply, names);
}

/** What a button's kind of step does, in a few words. */
export const HINTS = {
  root: "opens a take",
  letter: "a parcel from outside, for this take",
  receive: "takes the parcel in, if nothing speaks against it",
  new: "opens another take from this one",
  send: "sends a parcel with what this take has at hand",
  read: "reads its text: what the text rests on is then at hand",
  write: "sets its text, which then rests on what is at hand",
  freeze: "promises to change no more until it is signed or falls",
  done: "puts the work down",
  fall: "withdraws this life, as part of its work",
  fail: "withdraws this life, whatever it is doing",
  lose: "the parcel is lost",
  sign: "signs the ticked takes together",
  work: "a letter from outside, and its receipt: the take is then at work",
};

/** The outcome or refusal by name. */
export function verdict(reply) {
  return reply.outcome >= REFUSED ? `refused with ${reply.outcome}, ${nameOf(reply.outcome)}` : nameOf(reply.outcome);
}

/** Whether the reply is good, neutral or bad news: a class for its colour and shape. */
export function tone(reply) {
  if (reply.outcome >= REFUSED) return "refused";
  return ["done", "held", "dropped", "fell", "fell", "unready"][reply.outcome];
}
