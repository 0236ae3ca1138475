// The first page of the course, with all lessons, and the last one of a lesson, with what was learnt.
import { el, button } from "../shared/dom.mjs";
import { mark, badge, STATES, STATE_MEANINGS } from "../shared/marks.mjs";

// So many lessons come first, as cards.
export const FIRST = 3;

const INTRODUCTION = "Pages of a hearing rest on the list of speaker names and on each other. "
  + "Each lesson takes five minutes: look at the picture, say what will happen, and see.";

/** Signs in a row: marks by name, and what else stands between them. */
function emblem(signs, size, name = "emblem") {
  const sign = s => (/^[a-z]+$/.test(s) ? mark(s, s === "arrow" ? size / 2 : size) : el("b", {}, s));
  return el("span", { class: name, "aria-hidden": "true" }, signs.map(sign));
}

/** Where the reader was last, if the lesson is not finished. */
function goingOn({ lessons, progress }) {
  const { last } = progress.kept, lesson = last && lessons.find(l => l.name === last.lesson);
  return lesson && last.screen > 1 && !progress.of(lesson.name).done ? { lesson, screen: last.screen } : null;
}

function beginButton(course, lesson, filled) {
  const label = course.progress.of(lesson.name).done ? "Again" : "Begin";
  const said = { "data-begin": lesson.name, "aria-label": `begin lesson ${lesson.number}: ${lesson.title}` };
  return button(label, () => course.to(lesson, 1), { class: `btn${filled ? " go" : ""}`, ...said });
}

function card(course, lesson, filled) {
  const { number, title, data } = lesson;
  return el("section", { class: "pick-card" },
    emblem(data.emblem, 52), el("h2", {}, `${number}. ${title}`), el("p", {}, data.short), beginButton(course, lesson, filled));
}

function row(course, lesson) {
  const { number, title, data } = lesson;
  const words = el("span", { class: "row-words" }, el("b", {}, `${number}. ${title}`), " ", el("span", { class: "soft" }, data.for ? `${data.for}: ` : "", data.short));
  return el("li", {}, emblem(data.emblem, 24, "emblem small"), words, beginButton(course, lesson, false));
}

/** The first page; one button is filled: where to go on, or the next lesson that is not finished. */
export function home(course) {
  const { lessons, progress } = course, going = goingOn(course), due = lessons.find(l => !progress.of(l.name).done) ?? lessons[0];
  const on = going && button([`Go on: lesson ${going.lesson.number}, screen ${going.screen}`, mark("arrow", 18)],
    () => course.to(going.lesson, going.screen), { class: "btn go", id: "go-on" });
  const state = s => el("div", { class: `card s-${s}` }, badge(s, 24), el("span", { class: "txt" }, STATE_MEANINGS[s]));
  const own = button("a list of your own", () => course.steps(null), { class: "link", id: "own-list" });
  return el("div", { class: "wide" },
    el("h1", { tabindex: -1 }, "Three things about signing a transcript that nearly everyone gets wrong"),
    el("p", { class: "prose" }, INTRODUCTION),
    on && el("p", { class: "going" }, on),
    el("div", { class: "picks" }, lessons.slice(0, FIRST).map(l => card(course, l, !going && l === due))),
    el("h2", { class: "part" }, "The five states of a page"),
    el("div", { class: "five" }, STATES.map(state)),
    el("h2", { class: "part" }, "And then"),
    el("ul", { class: "lesson-list" }, lessons.slice(FIRST).map(l => row(course, l))),
    el("p", { class: "soft" }, "Or look at every step of ", own, ", as the ledger sees it."));
}

/** The questions that were missed at the first try, as ways back to them. */
function missed(course, lesson) {
  const { first } = course.progress.of(lesson.name), screens = lesson.screens.map((screen, k) => ({ screen, k })).filter(({ k }) => first[k + 1] === false);
  const link = ({ screen, k }) => el("li", {}, button(screen.question, () => course.to(lesson, k + 1), { class: "link", "data-missed": k + 1 }));
  return screens.length ? el("section", { class: "missed" }, el("h2", { class: "part" }, "Look once more at"), el("ul", {}, screens.map(link))) : null;
}

/** The end of a lesson: what was foreseen, what was learnt, the next lesson, and what is worth another look. */
export function ending(course, lesson) {
  const { lessons, progress } = course, answers = Object.values(progress.of(lesson.name).first), next = lessons[lesson.number];
  const [words, onward] = next ? [`Next: ${next.title}`, () => course.to(next, 1)] : ["Try it on the desk", () => course.go({ view: "desk" })];
  const bare = { class: "btn bare" }, foreseen = `You foresaw ${answers.filter(Boolean).length} of ${answers.length} at the first try.`;
  return el("div", { class: "wide" },
    el("p", { class: "eyebrow" }, `Lesson ${lesson.number} of ${lessons.length}, finished`),
    el("h1", { tabindex: -1 }, "What you know now"),
    answers.length ? el("p", { class: "prose" }, foreseen) : null,
    el("ul", { class: "learnt" }, lesson.data.learnt.map(l => el("li", {}, emblem(l.signs, 44), el("span", {}, l.words)))),
    lesson.data.source ? el("p", { class: "soft" }, `The example is from ${lesson.data.source}.`) : null,
    el("div", { class: "end-foot" },
      button([words, mark("arrow", 20)], onward, { class: "btn go", id: "next-lesson" }),
      button("This lesson again", () => course.to(lesson, 1), bare),
      button("All lessons", () => course.go({}), bare)),
    missed(course, lesson));
}
