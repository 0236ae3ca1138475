// Elements by hand. Whatever is shown goes in as text, never as markup.

const SVG = "http://www.w3.org/2000/svg";

function filled(element, attributes, children) {
  for (const [name, value] of Object.entries(attributes)) {
    if (name.startsWith("on")) element.addEventListener(name.slice(2), value);
    else if (value === true) element.setAttribute(name, "");
    else if (value !== false && value !== null && value !== undefined) element.setAttribute(name, value);
  }
  const given = children.flat(Infinity).filter(c => c !== null && c !== undefined && c !== false);
  element.append(...given.map(c => (c instanceof Node ? c : String(c))));
  return element;
}

export function el(tag, attributes = {}, ...children) {
  return filled(document.createElement(tag), attributes, children);
}

export function svg(tag, attributes = {}, ...children) {
  return filled(document.createElementNS(SVG, tag), attributes, children);
}

export function replace(host, ...children) {
  host.replaceChildren();
  return filled(host, {}, children);
}

/**
 * @param {string} id
 * @returns {any}
 */
export function byId(id) {
  return document.getElementById(id);
}

export function button(label, action, attributes = {}) {
  return el("button", { type: "button", onclick: action, ...attributes }, label);
}

export function heading(text, level = 3) {
  return el(`h${level}`, {}, text);
}

/** Says something to whoever listens rather than looks. */
export function announce(text) {
  byId("announcement").textContent = text;
}

// Whether something is being pressed, and what waits until it is not.
let pressing = false;
const waiting = [], release = () => {
  pressing = false;
  if (waiting.length) setTimeout(() => waiting.splice(0).forEach(action => action()));
};
window.addEventListener("pointerdown", () => (pressing = true), true);
for (const end of ["pointerup", "pointercancel", "keydown", "pagehide"]) window.addEventListener(end, release, true);

/** Draws anew now, or once what is being pressed was clicked: a field is left by pressing a button, which must not be gone by then. */
export function unpressed(action) {
  if (pressing) waiting.push(action);
  else action();
}

/** Notes which button or field of a host has the cursor; to be called with a field once the host is drawn anew: the same one, or that field. */
export function focusIn(host) {
  const from = document.activeElement, within = from !== document.body && host.contains(from), data = from instanceof HTMLElement ? Object.entries(from.dataset) : [];
  const same = data.length ? data.map(([name, value]) => `[data-${name}="${CSS.escape(value ?? "")}"]`).join("") : from?.id && `#${CSS.escape(from.id)}`;
  return field => {
    if (within) ((same && host.querySelector(`${same}:enabled`)) || field).focus({ preventScroll: true });
  };
}
