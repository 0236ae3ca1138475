// The strip under the board: a new name, or a new page with its words and what it is set from. Enter adds it, and the cursor stays.
import { el, replace, byId, button } from "../shared/dom.mjs";
import { mark } from "../shared/marks.mjs";
import { counted, isolated } from "../shared/names.mjs";
import { roomOf } from "./cards.mjs";

/** The number after the greatest that a page has. */
function nextPage(cards) {
  const numbers = cards.map(c => /^Page (\d+)$/.exec(c.title)).filter(Boolean).map(m => Number(m[1]));
  return `Page ${Math.max(0, ...numbers) + 1}`;
}

/** The names that the words of a page begin with or mention. */
function mentioned(cards, words) {
  const said = words.toLocaleUpperCase();
  return cards.filter(c => c.kind === "name" && !c.withdrawn && c.state !== "vanished" && c.title && said.includes(c.title.toLocaleUpperCase())).map(c => c.take);
}

const field = (id, label, attributes) => el("input", { type: "text", id, "aria-label": label, autocomplete: "off", dir: "auto", ...attributes });

/** @param {any} front */
export function showAdding(front) {
  const { cards, ui } = front, { left, takes } = roomOf(front.session), host = byId("desk-add");
  if (left <= 0) {
    replace(host, el("p", { class: "full" }, `All ${takes} cards of this session are used. `, button("Continue in a fresh session\u2026", () => front.desk.continueFresh(), { class: "btn sm", id: "desk-fresh" })));
    return;
  }
  replace(host, nameForm(front, ui.adding), cards.length ? pageForm(front, ui.adding) : null, left <= 3 && el("p", { class: "soft room", role: "status" }, `Room for ${counted(left, "more card")} in this session.`));
}

function submitted(act) {
  return e => {
    e.preventDefault();
    act();
  };
}

/** Asks first where it would be the last card that the session has room for. */
function mindful(front, act) {
  const { left, takes } = roomOf(front.session);
  if (left > 1) return act();
  const words = [el("p", {}, `This is the last of ${takes} cards that one session has. After it, names and pages go into a fresh session, which takes over what is signed.`)];
  return front.ask({ title: "Use the last card?", words, yes: "Use it", list: null, said: "", edit: act });
}

function nameForm(front, adding) {
  const name = field("add-name", "new name", { placeholder: "Name of a speaker", value: adding.name, oninput: () => (adding.name = name.value) });
  const go = () => {
    const words = name.value.trim();
    if (!words) return name.focus();
    return mindful(front, () => {
      adding.name = "";
      front.add("name", words, words, []);
      byId("add-name")?.focus();
    });
  };
  return el("form", { class: "add", "aria-label": "new name", onsubmit: submitted(go) }, name, el("button", { class: "btn sm" }, mark("plus", 12), "Name"));
}

function pageForm(front, adding) {
  const { cards } = front, title = field("add-page", "number of the new page", { class: "short", value: adding.page || nextPage(cards), oninput: () => (adding.page = title.value) });
  const words = field("add-words", "words of the new page", { placeholder: "Words of the page", value: adding.words, oninput: () => {
    adding.words = words.value;
    if (adding.touched) return;
    adding.grounds = new Set(mentioned(cards, words.value));
    pressed();
  } });
  const found = el("span", { class: "soft", id: "add-found", role: "status", hidden: adding.touched || !adding.grounds.size }, "found in the words"), chips = groundChips(front, adding, cards, () => (found.hidden = true));
  const pressed = () => {
    for (const chip of chips.querySelectorAll("button")) chip.setAttribute("aria-pressed", String(adding.grounds.has(Number(chip.dataset.ground))));
    found.hidden = adding.touched || !adding.grounds.size;
  };
  const go = () => mindful(front, () => {
    const name = title.value, said = words.value, grounds = [...adding.grounds].filter(g => cards[g] && cards[g].state !== "vanished");
    Object.assign(adding, { page: "", words: "", touched: false, grounds: new Set() });
    front.add("page", name, said, grounds);
    byId("add-words")?.focus();
  });
  return el("form", { class: "add page", "aria-label": "new page", onsubmit: submitted(go) }, title, words, el("span", { class: "from" }, el("span", { class: "soft" }, "set from"), chips, found), el("button", { class: "btn sm", id: "add-go" }, mark("plus", 12), "Page"));
}

/** A chip for each card that the page can be set from. */
function groundChips(front, adding, cards, touched) {
  const able = cards.filter(c => c.state !== "vanished" && c.state !== "gone" && !c.blank);
  const toggle = (chip, take) => {
    adding.touched = true;
    touched();
    if (adding.grounds.has(take)) adding.grounds.delete(take);
    else adding.grounds.add(take);
    chip.setAttribute("aria-pressed", String(adding.grounds.has(take)));
  };
  const chip = c => {
    const shown = el("button", { type: "button", class: "chip tick", "data-ground": c.take, "aria-label": `set from ${c.title}`, "aria-pressed": String(adding.grounds.has(c.take)), onclick: () => toggle(shown, c.take) }, isolated(c.title.replace(/^Page /, "p. ")));
    return shown;
  };
  return el("span", { class: "chips", role: "group", "aria-label": "set from" }, able.map(chip));
}
