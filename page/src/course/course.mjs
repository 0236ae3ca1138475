// The course: the first page with all lessons, the screens of a lesson, and its end. Where the reader is stands in the address and is kept.
import { el, replace, byId, button } from "../shared/dom.mjs";
import { mark } from "../shared/marks.mjs";
import { Lesson } from "./lessons.mjs";
import { home, ending, FIRST } from "./pages.mjs";
import { Player } from "./player.mjs";
import { Progress } from "./progress.mjs";

const TITLE = document.title;

export class Course {
  /** @type {Player | null} */ player = null;
  /** @type {Lesson | null} */ lesson = null;
  at = 0;

  /** steps(text, step, origin): opens the step view; go(parts): to an address */
  constructor(lessons, { steps, go }) {
    this.lessons = lessons.map((data, i) => Object.assign(new Lesson(data), { number: i + 1 }));
    this.steps = steps;
    this.go = go;
    this.host = byId("course-screen");
    this.bar = byId("course-lessons");
    this.progress = new Progress();
  }

  /**
   * A lesson's screen (from 1), its end (one after the last), or the first page of the course.
   * @param {string | null} [name]
   * @param {number} [screen]
   */
  open(name = null, screen = 1) {
    const lesson = this.lessons.find(l => l.name === name) ?? null;
    this.player?.leave();
    this.player = null;
    this.lesson = lesson;
    this.at = lesson ? Math.max(0, Math.min(screen - 1, lesson.screens.length)) : 0;
    if (!lesson) replace(this.host, home(this));
    else if (this.at < lesson.screens.length) this.play(lesson);
    else this.finish(lesson);
    this.drawBar();
    document.title = lesson ? `${lesson.title}, ${this.at + 1}: the take ledger` : TITLE;
    this.host.querySelector("h1")?.focus({ preventScroll: true });
    window.scrollTo(0, 0);
  }

  /** @param {Lesson} lesson */
  play(lesson) {
    const { at, progress } = this, origin = { lesson: lesson.name, screen: at + 1, names: lesson.namesOn(at) };
    const told = {
      back: () => (at ? this.to(lesson, at) : this.go({})),
      next: () => this.to(lesson, at + 2),
      answered: foreseen => progress.answered(lesson.name, at + 1, foreseen),
      steps: (text, step) => {
        this.steps(text, step, { ...origin, title: `Lesson ${lesson.number}, ${lesson.title}`, story: lesson.screens[at].story });
      },
    };
    progress.at(lesson.name, at + 1);
    this.player = new Player(this.host, lesson, at, told, at + 1 === lesson.screens.length);
  }

  /** @param {Lesson} lesson */
  finish(lesson) {
    this.progress.finished(lesson.name);
    replace(this.host, ending(this, lesson));
  }

  to(lesson, screen) {
    this.go({ lesson: lesson.name, screen });
  }

  /** The lessons that come first, or the one that is open if it is none of them; and how far it is. */
  drawBar() {
    const { lesson, at, lessons } = this, first = lessons.slice(0, FIRST), shown = !lesson || first.includes(lesson) ? first : [lesson];
    const back = { class: "btn bare", id: "all-lessons", hidden: !lesson, "aria-label": "all lessons" };
    const dots = lesson ? lesson.screens.map((_, i) => el("i", { class: i < at ? "past" : i === at ? "here" : "" })) : [];
    const where = lesson && at < lesson.screens.length ? el("b", {}, `${at + 1} of ${lesson.screens.length}`) : null;
    replace(this.bar,
      button([mark("back", 18), el("span", { class: "tw" }, "All lessons")], () => this.go({}), back),
      el("ol", { class: "tabs", "aria-label": "lessons" }, shown.map(l => el("li", {}, this.tab(l)))),
      el("div", { class: "progress" }, el("span", { "aria-hidden": "true" }, dots), where));
  }

  tab(lesson) {
    const { done } = this.progress.of(lesson.name), here = lesson === this.lesson;
    const parts = [el("span", { class: "no" }, done ? mark("tick", 14) : lesson.number), el("span", { class: "tw" }, lesson.title)];
    const said = { "aria-current": here ? "step" : null, "aria-label": `lesson ${lesson.number}: ${lesson.title}${done ? ", finished" : ""}` };
    return button(parts, () => this.to(lesson, 1), { class: `lesson-tab${done ? " done" : ""}`, ...said });
  }
}
