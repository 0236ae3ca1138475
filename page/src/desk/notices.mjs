// What the desk has to say or to ask first.
import { el, replace, byId, button } from "../shared/dom.mjs";
import { packStep } from "../../../bindings/js/packed.mjs";
import { readHead } from "../../../bindings/js/image.mjs";
import { trial } from "../shared/offered.mjs";
import { costWords } from "../shared/withdrawal.mjs";
import { save } from "../shared/files.mjs";
import { begun, toFile, Unreadable } from "../shared/hearing.mjs";
import { capital, isolated } from "../shared/names.mjs";
import { verdict, tone, FALLEN_BACK, VANISHED } from "../shared/words.mjs";

/**
 * Says something, with a button for what may help.
 * @param {string} words
 * @param {{label: string, act: () => any} | null} [help]
 */
export function tell(words, help = null) {
  const host = byId("desk-notice");
  replace(host, el("div", { class: "notice" }, el("p", {}, words), el("p", {}, help && [button(help.label, help.act), " "], button("close", () => replace(host)))));
}

/** Nothing is said any more of what was done before. */
export function hush() {
  for (const id of ["desk-notice", "desk-confirm"]) replace(byId(id));
}

/** A question that the escape key leaves. */
function dialog(label, leave) {
  return { class: "notice", role: "alertdialog", "aria-label": label, onkeydown: e => e.key === "Escape" && leave.click() };
}

/** A question at the desk's steps: yes does it; leaving it puts the cursor back where it was. */
function ask(label, paragraphs, yes, go, id) {
  const host = byId("desk-confirm"), from = /** @type {HTMLElement} */ (document.activeElement);
  const leave = button("leave it", () => {
    replace(host);
    from?.focus();
  });
  const done = button(yes, () => {
    from?.focus();
    replace(host);
    go();
  }, { id });
  replace(host, el("div", dialog(label, leave), paragraphs, el("p", {}, done, " ", leave)));
  leave.focus();
}

const TITLES = { fall: name => `Give up the work on ${name}? `, fail: name => `Withdraw ${name}? ` };
const YES = { fall: "give up", fail: "withdraw" };
const HELD = { fall: "It would not fall: it is frozen. Only its work is put down.", fail: "Nothing would happen: it is frozen." };

/** What becomes of the take's own text. */
function textWords(reply, head, names) {
  if (reply.outcome === VANISHED) return `It was never signed: its text ${names.bare(head.text)} is lost for good.`;
  if (reply.outcome !== FALLEN_BACK) return `The ledger's reply would be: ${verdict(reply)}.`;
  const back = `It goes back to its signed text, ${names.text(head.saved)}`;
  return head.text === head.saved ? `${back}.` : `${back}; ${names.text(head.text)} is lost.`;
}

/** Before a fall: what it would cost, and what would become of its text. */
export function confirmFall(desk, kind, take, go) {
  const { names, record } = desk, reply = trial(record.end, packStep(kind, { take })), head = readHead(record.end.image, take);
  const held = tone(reply) === "held", costs = held ? "" : costWords(record.end, take, names).join(" ");
  const title = el("strong", {}, TITLES[kind](names.take(take)));
  const words = [el("p", {}, title, held ? HELD[kind] : textWords(reply, head, names)), costs && el("p", { class: "cost-words" }, costs)];
  ask("what a withdrawal costs", words, YES[kind], go, "confirm-fall");
}

/** Before a receipt by which the addressee falls. */
export function confirmReceipt(desk, parcel, go) {
  const { names, record } = desk, reply = trial(record.end, packStep("receive", { parcel })), head = readHead(record.end.image, reply.take);
  const title = el("strong", {}, `Receive parcel ${parcel}? `), shows = `It shows that a ground of ${names.take(reply.take)} was withdrawn: it falls. `;
  const costs = costWords(record.end, reply.take, names).join(" ");
  const words = [el("p", {}, title, shows, textWords(reply, head, names)), el("p", { class: "cost-words" }, costs)];
  ask("what a receipt costs", words, "receive", go, "confirm-receipt");
}

/** Before a signing. */
export function confirmSigning(takes, go) {
  ask("a signing", el("p", {}, `Sign ${takes}? What is signed is kept for good.`), "sign", go, "confirm-sign");
}

/** Before a signing is taken back. */
export function confirmUndo(takes, go) {
  ask("a signing taken back", el("p", {}, `Take the signing of ${takes} back? Others may rely on what is signed.`), "take it back", go, "confirm-undo");
}

/** Before a parcel is lost. */
export function confirmLoss(parcel, go) {
  ask("a parcel lost", el("p", {}, `Lose parcel ${parcel}? It is gone for good, and nobody receives it.`), "lose it", go, "confirm-loss");
}

/** Before a text without words is written. */
export function confirmEmpty(desk, take, go) {
  const words = el("p", {}, `No words are given. ${capital(desk.names.take(take))} would get text 0, which has none.`);
  ask("no words", words, "write it without words", go, "confirm-empty");
}

/** Before a second take gets the name of another. */
export function confirmName(name, known, go) {
  ask("a name twice", el("p", {}, `Take ${known} is called \u201c${isolated(name)}\u201d already.`), "open another of this name", go, "confirm-name");
}

/** What a file's hearing lacks beside its steps. */
function lacking({ list, image, takes, texts }) {
  if (Object.keys(texts).length || !(list.length || image)) return null;
  return takes.some(Boolean) ? "This file has no words." : "This file has no words or names.";
}

/** Opens a hearing at the desk, or says why it can't be. */
function taken(desk, hearing, name) {
  const lacks = lacking(hearing);
  replace(byId("desk-notice"));
  try {
    begun(hearing);
    desk.keeper.begin();
    desk.reset(hearing);
    if (lacks) tell(lacks);
  } catch (e) {
    if (!(e instanceof Unreadable)) throw e;
    tell(`${name} can't be opened: ${e.message}`);
  }
}

/** Before another hearing takes this one's place. */
export function confirmOpening(desk, hearing, name, { question = `Open ${name} in place of the present hearing?`, yes = "open" } = {}) {
  if (!desk.hearing.list.length && !desk.hearing.image) return taken(desk, hearing, name);
  const host = byId("desk-notice"), from = /** @type {HTMLElement} */ (document.activeElement), leave = button("leave it", () => {
    replace(host);
    from?.focus();
  });
  const keep = button("save the present one", () => save("hearing.json", toFile(desk.hearing), "application/json"));
  const open = button(yes, () => {
    taken(desk, hearing, name);
    desk.rows.list.focus({ preventScroll: true });
  }, { id: "confirm-open" });
  replace(host, el("div", dialog("replace the hearing", leave),
    el("p", {}, question),
    el("p", {}, keep, " ", open, " ", leave)));
  return leave.focus();
}
