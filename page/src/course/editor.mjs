// The step list as text, with the line of the chosen step and the first fault marked at its place.
import { el, replace } from "../shared/dom.mjs";
import { KINDS } from "../../../bindings/js/packed.mjs";

const LINE = 20, PAD = 6, A_KIND = "a kind of step";

export class Editor {
  /** changed(text) is told of edits, asked(line) that the cursor went to a line (from 0). */
  constructor(host, changed, asked) {
    const said = { "aria-label": "step list, one step a line", "aria-describedby": "fault" };
    this.area = el("textarea", { id: "text", spellcheck: "false", wrap: "off", ...said });
    this.here = el("div", { class: "here-line", hidden: true });
    this.wrong = el("div", { class: "wrong", hidden: true });
    this.fault = el("div", { id: "fault", class: "fault", role: "status" });
    const marks = el("div", { class: "marks", "aria-hidden": "true" }, this.here, this.wrong);
    replace(host, el("div", { class: "editor" }, marks, this.area), this.fault);
    this.area.addEventListener("input", () => changed(this.area.value));
    this.area.addEventListener("scroll", () => this.follow());
    for (const event of ["click", "keyup"]) this.area.addEventListener(event, () => asked(this.cursorLine()));
  }

  get text() {
    return this.area.value;
  }

  set text(text) {
    this.area.value = text;
  }

  cursorLine() {
    return this.area.value.slice(0, this.area.selectionStart).split("\n").length - 1;
  }

  /** Moves the marks along with the text. */
  follow() {
    const parent = this.here.parentElement;
    parent.style.transform = `translate(${-this.area.scrollLeft}px, ${-this.area.scrollTop}px)`;
  }

  /** Marks a line (from 0), or none, and brings it into view unless somebody is writing. */
  markLine(line) {
    this.here.hidden = line === null;
    if (line === null) return;
    const top = PAD + LINE * line;
    this.here.style.top = `${top}px`;
    if (document.activeElement !== this.area) requestAnimationFrame(() => this.bringUp(top));
  }

  /** Scrolls to a line that is out of view. */
  bringUp(top) {
    const { area } = this;
    if (area.scrollTop <= top && top + LINE <= area.scrollTop + area.clientHeight) return;
    area.scrollTop = top - area.clientHeight / 2;
    this.follow();
  }

  /** Shows a fault where it is, and in words below; null takes it away. */
  showFault(fault) {
    this.wrong.hidden = !fault;
    this.area.setAttribute("aria-invalid", fault ? "true" : "false");
    if (!fault) {
      replace(this.fault);
      return;
    }
    const line = this.area.value.split("\n")[fault.line - 1] ?? "", before = charactersBefore(line, fault.column);
    this.wrong.style.top = `${PAD + LINE * (fault.line - 1)}px`;
    this.wrong.style.left = `calc(${PAD}px + ${before}ch)`;
    const kinds = fault.expected === A_KIND ? `: ${[...KINDS, "raw"].join(", ")}` : "";
    const words = el("strong", {}, `line ${fault.line}, column ${fault.column}: expected ${fault.expected}${kinds}`);
    replace(this.fault, words, el("pre", {}, `${line}\n${" ".repeat(before)}^`), "The picture shows the list as it was before.");
  }
}

/** How many characters stand before a column that counts bytes from 1. */
function charactersBefore(line, column) {
  const bytes = new TextEncoder().encode(line).slice(0, column - 1);
  return [...new TextDecoder().decode(bytes)].length;
}
