// Contrast, as WCAG 2 has it: text at least 4.5 : 1, lines and shapes at least 3 : 1. Once of the tokens, pair by pair, and once of what
// is drawn: each view of the course and the desk is looked at in the light and the dark theme and in forced colours, pixel by pixel.
import assert from "node:assert/strict";
import { readFileSync } from "node:fs";
import { listed } from "./steps.mjs";
import { askFaint } from "./faint.mjs";
import { student } from "./student.mjs";

const TEXT_LEAST = 4.5, SHAPE_LEAST = 3;

export async function contrastChecks(context) {
  await tokenPairs(context);
  await drawn(context);
}

/** The colours of both themes, by name. */
function tokens(root) {
  const css = readFileSync(`${root}page/src/shared/tokens.css`, "utf8"), read = block => Object.fromEntries([...block.matchAll(/--([\w-]+): (#[0-9A-F]{6});/gi)].map(m => [m[1], m[2]]));
  const [light, rest] = css.split(`:root[data-theme="dark"] {`), dark = rest.split("@media")[0];
  return { light: read(light), dark: { ...read(light), ...read(dark) } };
}

/** Relative luminance, and the ratio of two, as WCAG 2 has them. */
const luminance = hex => [1, 3, 5].map(i => parseInt(hex.slice(i, i + 2), 16) / 255).map(c => (c <= 0.04045 ? c / 12.92 : ((c + 0.055) / 1.055) ** 2.4)).reduce((sum, c, i) => sum + c * [0.2126, 0.7152, 0.0722][i], 0);
const ratio = (a, b) => (([x, y]) => (x + 0.05) / (y + 0.05))([luminance(a), luminance(b)].sort((p, q) => q - p));

const SURFACES = ["paper", "card", "sunk"], STATES = ["frozen", "signed", "gone"];
const TEXT = [
  ...["ink", "ink-2", ...STATES, "vanished", "draft", "drop"].flatMap(c => SURFACES.map(s => [c, s])), ["on-ink", "ink"], ["on-signed", "signed"], ["on-gone", "gone"],
  ...["ink", "ink-2"].flatMap(c => ["hl-soft", ...STATES.map(s => `${s}-bg`)].map(s => [c, s])), ...STATES.flatMap(s => [[s, `${s}-bg`], [s, "hl-soft"]]), ["signed", "frozen-bg"], ["signed", "gone-bg"], ["frozen", "gone-bg"],
];
const SHAPES = [...["edge", "hair", "lit-line", "focus", "frozen", "signed", "gone", "vanished", "draft"].flatMap(c => SURFACES.map(s => [c, s])), ["edge", "hl-soft"], ["edge", "signed-bg"], ["gone", "signed-bg"], ["frozen", "signed-bg"], ["gone", "gone-bg"]];

async function tokenPairs({ check, root }) {
  const themes = tokens(root), tables = /** @type {[string, string[][], number][]} */ ([["text", TEXT, TEXT_LEAST], ["lines and shapes", SHAPES, SHAPE_LEAST]]);
  for (const [what, pairs, least] of tables) {
    await check(`contrast of ${what} is at least ${least} : 1 in both themes, by the tokens`, async () => {
      const low = Object.entries(themes).flatMap(([name, c]) => pairs.filter(([a, b]) => !(ratio(c[a], c[b]) >= least)).map(([a, b]) => `${name}: ${a} on ${b} ${ratio(c[a], c[b]).toFixed(2)}`));
      assert.deepEqual(low, []);
    });
  }
}

// What carries nothing by itself: the glow under a line that is lit, the gaps that let a line break, what is drawn under a mark.
const WITHOUT_MEANING = ".glow, .halo, .gap, .under";
// Where a fill alone would tell what is chosen, changed or reached: an edge must tell it too.
const TELLING = "[role=tab][aria-selected=true], [aria-current], [aria-pressed=true], [role=option][aria-selected=true], .progress i, .reply-box.inside, .changed, .here-line, .answer:not(:empty)";
const OUTLINED = ".card, .life, .spot, .chip, .btn:not(.bare), .note, .reply-box, .hole";

const THEMES = /** @type {[string, string, {name: string, value: string}[]][]} */ ([
  ["light", "light", []], ["dark", "dark", []], ["forced colours", "light", [{ name: "forced-colors", value: "active" }]],
  ["forced colours, dark", "dark", [{ name: "forced-colors", value: "active" }, { name: "prefers-color-scheme", value: "dark" }]],
]);

/** The views, each with what is done in it before it is looked at. */
function views({ browser, url }) {
  const me = student(browser), go = hash => () => browser.go(`${url}#${hash}`), lesson = (name, k) => `lesson=${name}&screen=${k}`;
  const solved = (name, k, ...clicks) => async () => {
    await browser.go(`${url}#${lesson(name, k)}`);
    for (const click of clicks) await me.press(click);
    await browser.until(`(document.querySelector(".stage")?.dataset.late ?? "0") === "0"`);
  };
  const one = "01-frozen-and-signed", two = "02-what-a-withdrawal-reaches", three = "03-the-count-restarts";
  const take = t => `.stage [data-take="${t}"]`, life = i => `.stage [data-life="${i}"]`, choice = c => `[data-choice="${c}"]`, check = `[data-focus="check"]`;
  const desk = (...clicks) => async () => {
    await browser.go(`${url}#view=desk`);
    await browser.forget();
    await browser.go(`${url}#view=desk`);
    for (const click of ["#desk-example", ...clicks]) await me.press(click);
  };
  return {
    "the first page": go(""), "a question by cards": solved(two, 1, take(0)), "a wrong answer": solved(two, 2, take(3), check), "what a withdrawal reaches": solved(two, 2, take(1), take(2), check),
    "a future": go(lesson(one, 3)), "a future, answered": solved(one, 3, choice("frozen")), "two sets": solved(one, 4, `.sets [data-chip="0"]`), "a goal": solved(one, 5, `[data-deed="freeze 0"]`),
    "signed and frozen": solved(one, 6, take(1), check), "the next life": go(lesson(three, 1)), "lives": solved(three, 3, life(1)), "a note": solved(three, 4, choice(2)), "an order": solved(three, 6, choice(3)),
    "two orders": solved("06-two-laptops", 3, choice("other")), "an hour": solved("13-a-bad-hour", 1, choice(9)), "details": solved(two, 2, `[data-focus="details"]`), "an end": go(lesson(one, 99)),
    "steps": go(listed("10-frozen-is-not-signed", 26)), "words": go("view=words"), "compare": go("view=compare"),
    "the desk": desk(), "a card of the desk": desk(`[data-card="6"]`), "a withdrawal at the desk": desk(`[data-card="0"]`, "#card-withdraw"), "the desk's details": async () => { await desk()(); await browser.go(`${url}#view=details`); },
  };
}

async function drawn(context) {
  const { browser, check, shots } = context, how = { text: TEXT_LEAST, shape: SHAPE_LEAST, ignored: WITHOUT_MEANING, telling: TELLING, outlined: OUTLINED };
  await browser.size(1400, 1000);
  for (const [name, open] of Object.entries(views(context))) {
    await check(`contrast as drawn, in light, dark and forced colours: ${name}`, async () => {
      await browser.send("Emulation.setEmulatedMedia", { features: [] });
      await open();
      const low = [];
      for (const [theme, set, features] of THEMES) {
        await browser.send("Emulation.setEmulatedMedia", { features: [...features, { name: "prefers-reduced-motion", value: "reduce" }] });
        await browser.eval(`document.documentElement.dataset.theme = "${set}", document.activeElement?.blur(), new Promise(r => requestAnimationFrame(() => requestAnimationFrame(() => setTimeout(r, 120))))`);
        const { data } = await browser.send("Page.captureScreenshot", { format: "png" });
        low.push(...(await browser.eval(askFaint(data, how))).map(words => `${theme}: ${words}`));
        if (theme !== "light") await browser.shot(`${shots}${theme.replace(", ", "-").replaceAll(" ", "-")}-${name.replaceAll(" ", "-")}.png`);
      }
      assert.deepEqual(low, []);
    });
  }
  await browser.send("Emulation.setEmulatedMedia", { features: [] });
  await browser.size(1500, 950);
  await browser.forget();
}
