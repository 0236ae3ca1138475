// Keys at the desk: undo and redo, arrows from card to card, S and F for the chosen card, escape to leave.
import { byId } from "../shared/dom.mjs";
import { freezing } from "../shared/deeds.mjs";

const typing = target => target instanceof HTMLElement && target.matches("input:not([type=checkbox]):not([type=radio]), textarea, select");

/** The card next to one in the order of reading, or the one above or below it. */
function beside(from, key) {
  const cards = /** @type {HTMLElement[]} */ ([...document.querySelectorAll("#desk-lanes [data-card]")]), at = from.getBoundingClientRect();
  if (key === "ArrowRight" || key === "ArrowLeft") return cards[cards.indexOf(from) + (key === "ArrowRight" ? 1 : -1)];
  const down = key === "ArrowDown", far = c => c.getBoundingClientRect();
  const rows = cards.filter(c => (down ? far(c).top >= at.bottom - 4 : far(c).bottom <= at.top + 4));
  const off = c => Math.abs(far(c).top - at.top) * 4 + Math.abs(far(c).left - at.left);
  return rows.sort((a, b) => off(a) - off(b))[0];
}

/**
 * @param {any} front
 * @param {KeyboardEvent} e
 */
export function keysOf(front, e) {
  if (byId("desk").hidden || document.querySelector("dialog[open]")) return;
  const target = /** @type {HTMLElement} */ (e.target), z = (e.ctrlKey || e.metaKey) && e.key.toLowerCase() === "z", y = (e.ctrlKey || e.metaKey) && e.key.toLowerCase() === "y";
  if (e.key === "Escape") return left(front);
  if (typing(target) && /** @type {any} */ (target).value) return;
  if (z || y) {
    e.preventDefault();
    if (y || e.shiftKey) front.redo();
    else front.undo();
  }
  if (typing(target) || e.ctrlKey || e.metaKey || e.altKey) return;
  cardKeys(front, e, target);
}

function left(front) {
  if (front.ui.ask) front.ui.ask.leave();
  else if (front.ui.chosen !== null) front.choose(null);
}

function cardKeys(front, e, target) {
  const card = front.cards[front.ui.chosen], on = target.closest?.("#desk-lanes [data-card]");
  if (on && e.key.startsWith("Arrow")) {
    e.preventDefault();
    beside(on, e.key)?.focus();
  }
  if (!card || front.ui.ask) return;
  if (e.key === "s") /** @type {any} */ (document.querySelector("#desk-side [data-from]"))?.focus();
  if (e.key === "f" && card.words && freezing(front.session, card.take)) front.freeze(card);
}
