// Light or dark: as the reader's system has it, until the button is pressed; then as it was pressed last.
import { replace } from "./dom.mjs";
import { mark } from "./marks.mjs";
import { keptWord, keepWord } from "./store.mjs";

const KEY = "take-ledger.theme", DARK = matchMedia("(prefers-color-scheme: dark)");

function show() {
  document.documentElement.dataset.theme = keptWord(KEY) ?? (DARK.matches ? "dark" : "light");
}

/** @param {HTMLElement} button */
export function themeButton(button) {
  replace(button, mark("moon", 20));
  button.addEventListener("click", () => {
    const next = document.documentElement.dataset.theme === "dark" ? "light" : "dark";
    keepWord(KEY, next);
    document.documentElement.dataset.theme = next;
  });
  DARK.addEventListener("change", show);
  show();
}
