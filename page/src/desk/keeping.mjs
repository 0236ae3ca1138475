// What the browser keeps of the desk, and what is said of it: hearings that were put aside, and one that another window keeps.
import { el, replace, byId, button } from "../shared/dom.mjs";
import { aside, dropAside, dropKept, isKept, keep, keptElsewhere, putAside } from "../shared/store.mjs";
import { fromFile, toFile, Unreadable } from "../shared/hearing.mjs";
import { save } from "../shared/files.mjs";
import { confirmOpening, tell } from "./notices.mjs";
import { counted, isolated } from "../shared/names.mjs";

// What is said now, so that it is not said again at each step.
let said = "";

/** Keeps the desk's hearing after a step, unless another window's, or one that can't be restored, would be lost by it. */
export function keepHearing(desk) {
  const text = toFile(desk.hearing), other = keptElsewhere(), free = desk.stuck === null && (other === null || other === text);
  const trouble = free ? keep(text) : null;
  showKept(desk);
  if (trouble) tell(trouble);
}

/** Shows what is kept beside the present hearing; each stays until somebody decides about it. */
export function showKept(desk) {
  const other = keptElsewhere(), stuck = desk.stuck === null ? [] : [desk.stuck], texts = [...aside(), ...stuck], now = JSON.stringify([other, texts]);
  if (now === said) return;
  said = now;
  replace(byId("desk-kept"), stuck.length || other === null ? null : elsewhere(desk, other), texts.map(text => putBy(desk, text)));
}

function notice(name, words, ...more) {
  return el("div", { class: `notice ${name}`, role: "alert" }, el("p", {}, words), more);
}

/** The question which of two windows' hearings is kept; the one that is not is put aside. */
function elsewhere(desk, other) {
  const done = trouble => {
    if (trouble) tell(trouble);
    return !trouble;
  };
  const theirs = button("open the other one", () => {
    const text = toFile(desk.hearing);
    if (isKept(text) || done(putAside(text))) desk.restore();
  });
  const ours = button("keep this one", () => {
    if (done(putAside(other))) done(keep(toFile(desk.hearing)));
    showKept(desk);
  });
  const words = "Another window of this page has kept a hearing since. The one in this window is not kept now; whichever you leave is put aside.";
  return notice("elsewhere", words, el("p", {}, theirs, " ", ours));
}

/** The hearing of a text, or why it is none. */
function readable(text) {
  try {
    return { hearing: fromFile(text) };
  } catch (e) {
    if (!(e instanceof Unreadable)) throw e;
    return { reason: e.message };
  }
}

/** A text that was put aside, or (stuck) could not be: to be saved as it is; gone only when told so. */
function putBy(desk, text) {
  const { hearing, reason } = readable(text), stuck = text === desk.stuck;
  const remove = button("remove", () => {
    if (stuck) dropKept();
    else dropAside(text);
    desk.stuck = stuck ? null : desk.stuck;
    keepHearing(desk);
  });
  const keeping = button("save as it is", () => save("kept-hearing.txt", text, "text/plain")), room = " It fills the browser's room: the present hearing is not kept.";
  if (hearing) return notice("aside", titled(hearing), el("p", {}, button("open", () => confirmOpening(desk, hearing, "it")), " ", keeping, " ", remove));
  const words = `A hearing that was kept here can't be restored: ${reason}. It is kept as it is.${stuck ? room : ""}`;
  return notice("unrestored", words, el("pre", {}, text.slice(0, 2000)), el("p", {}, keeping, " ", remove));
}

function titled({ title, list }) {
  return `A hearing of another window was put aside: ${title ? `\u201c${isolated(title)}\u201d, ` : ""}${counted(list.length / 8, "step")}.`;
}
