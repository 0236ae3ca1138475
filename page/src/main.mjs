// Loads the library, and opens the view that the address asks for.
import { load, GREATEST, Refusal } from "../../bindings/js/ledger.mjs";
import { byId, el, replace } from "./shared/dom.mjs";
import { themeButton } from "./shared/theme.mjs";
import { glossary } from "./shared/glossary.mjs";
import { Course } from "./course/course.mjs";
import { Workbench } from "./course/workbench.mjs";
import { Desk } from "./desk/desk.mjs";
import { Compare } from "./compare/compare.mjs";
import { address, readAddress, fromBase64 } from "./shared/address.mjs";
import { toText } from "../../bindings/js/notation.mjs";
import { isolated } from "./shared/names.mjs";

// The views; the step view belongs to the course, the details to the desk.
const TABS = ["course", "desk", "compare", "words"], VIEWS = [...TABS, "steps", "details"];
const views = {};

/** Shows one of the views. */
function show(name) {
  const tab = { steps: "course", details: "desk" }[name] ?? name;
  document.body.dataset.view = name;
  for (const view of VIEWS) byId(view).hidden = view !== name;
  for (const view of TABS) {
    byId(`tab-${view}`).setAttribute("aria-selected", String(view === tab));
    byId(`tab-${view}`).tabIndex = view === tab ? 0 : -1;
  }
}

/** Goes to an address of this page, so that the browser's back comes back from it. */
function go(parts) {
  const to = address(parts);
  if (to === location.href) follow();
  else location.href = to;
}

function tabs() {
  for (const view of TABS) byId(`tab-${view}`).addEventListener("click", () => go(view === "course" ? {} : { view }));
  document.querySelector("[role=tablist]")?.addEventListener("keydown", (/** @type {any} */ e) => {
    const by = { ArrowRight: 1, ArrowLeft: -1 }[e.key];
    if (!by) return;
    const next = TABS[(TABS.findIndex(v => e.target.id === `tab-${v}`) + by + TABS.length) % TABS.length];
    go(next === "course" ? {} : { view: next });
    byId(`tab-${next}`).focus();
  });
}

/** What the address after # asks for. */
function follow() {
  const asked = { ...readAddress(location.hash), taken: null }, { course, steps } = views, text = asked.text ?? listText(asked.list);
  const known = course.lessons.some(l => l.name === asked.lesson);
  const listed = text !== null || asked.view === "steps" || asked.wrong.list || asked.wrong.limits || asked.list !== null;
  const view = listed ? "steps" : VIEWS.find(v => v === asked.view) ?? "course";
  show(view);
  if (view === "course") course.open(known ? asked.lesson : null, asked.screen ?? 1);
  if (view === "steps") openSteps(asked, text);
  if (view === "desk" || view === "details") views.desk.open(view);
  const sentences = troubles(asked, text, known);
  if (sentences.length && view === "steps") steps.say(sentences.join(" "));
  else if (sentences.length) replace(byId("course-trouble"), el("p", { class: "notice" }, sentences.join(" ")));
  else replace(byId("course-trouble"));
}

/** The list of the address, or one's own. */
function openSteps(asked, text) {
  const { steps } = views;
  asked.taken = asked.limits && steps.begin(asked.limits) ? asked.limits : null;
  if (text !== null) steps.openText(text, asked.step ?? Infinity, asked.taken ?? GREATEST, views.origin?.text === text ? views.origin : null);
  else steps.openOwn();
}

/** The text of packed steps, or null where they are none. */
function listText(list) {
  try {
    return list && toText(list);
  } catch (e) {
    if (!(e instanceof Refusal)) throw e;
    return null;
  }
}

/** What the address asked for and can't be had, in sentences. */
function troubles({ view, lesson, list, wrong, step, limits, taken }, text, known) {
  const found = [], without = known || lesson === null || text !== null;
  if (view !== null && !VIEWS.includes(view)) found.push(`There is no view called \u201c${isolated(view)}\u201d.`);
  if (!without) found.push(`There is no lesson called \u201c${isolated(lesson)}\u201d.`);
  if (wrong.list || (list && text === null)) found.push("The address holds no whole list of steps.");
  if (text?.trim() === "") found.push("The address holds no steps.");
  if (wrong.limits || (limits && !taken)) found.push("The address's limits are none that a session can have.");
  if (wrong.step) found.push("The address names no step.");
  else if (step !== null && text !== null && step > views.steps.record.length) found.push(`There is no step ${step}.`);
  return found;
}

/**
 * Opens the step view: with a screen's list and story, or with a list of one's own.
 * @param {string | null} text
 * @param {number | null} [step]
 * @param {import("./course/workbench.mjs").Origin | null} [origin]
 */
function toSteps(text, step = null, origin = null) {
  views.origin = origin && { ...origin, text };
  go(text === null ? { view: "steps" } : { view: "steps", text, step });
}

// Not yet in the types that tsc has.
const { DecompressionStream } = /** @type {any} */ (globalThis);

/** The bytes that were compressed into a word. */
async function unzipped(word) {
  const bytes = fromBase64(word);
  if (!bytes) throw new Error("the page is not whole");
  const stream = new Blob([bytes]).stream().pipeThrough(new DecompressionStream("gzip"));
  return new Uint8Array(await new Response(stream).arrayBuffer());
}

/** bundled: the library's modules, compressed and in base64, their sums, and the lessons. */
export async function start(bundled) {
  if (typeof WebAssembly !== "object" || typeof DecompressionStream !== "function") return;
  const named = await Promise.all(Object.entries(bundled.modules).map(async ([name, word]) => [name, await unzipped(word)]));
  const lessons = JSON.parse(new TextDecoder().decode(await unzipped(bundled.lessons)));
  await load(Object.fromEntries(named));
  byId("without").remove();
  byId("sums").textContent = Object.entries(bundled.sums).map(([name, sum]) => `${name} ${sum}`).join(", ");
  byId("glossary").append(glossary());
  themeButton(byId("theme"));
  views.course = new Course(lessons, { steps: toSteps, go });
  views.steps = new Workbench(({ lesson, screen }) => go({ lesson, screen }));
  views.desk = new Desk();
  views.compare = new Compare(() => views.desk.hearing);
  await views.desk.recover();
  if (!location.hash && views.desk.keeper.ended) history.replaceState(null, "", address({ view: "desk" }));
  tabs();
  follow();
  window.addEventListener("hashchange", follow);
  document.body.dataset.ready = "true";
}
