// What the browser keeps of the course: which lessons are finished, what was foreseen at the first try, and where the reader was last.
import { keepWord, keptWord } from "../shared/store.mjs";

const KEY = "take-ledger.progress";

/** @typedef {{last: {lesson: string, screen: number} | null, lessons: Record<string, {done?: boolean, first: Record<string, boolean>}>}} Kept */

/** @returns {Kept} */
function read() {
  try {
    const kept = JSON.parse(keptWord(KEY) ?? "");
    return { last: kept.last ?? null, lessons: typeof kept.lessons === "object" && kept.lessons ? kept.lessons : {} };
  } catch {
    return { last: null, lessons: {} };
  }
}

export class Progress {
  constructor() {
    this.kept = read();
  }

  /** @param {string} name */
  of(name) {
    return (this.kept.lessons[name] ??= { first: {} });
  }

  /** @param {(kept: Kept) => void} change */
  note(change) {
    change(this.kept);
    keepWord(KEY, JSON.stringify(this.kept));
  }

  /**
   * @param {string} lesson
   * @param {number} screen
   */
  at(lesson, screen) {
    this.note(kept => (kept.last = { lesson, screen }));
  }

  /**
   * A question was answered; only the first answer counts.
   * @param {string} lesson
   * @param {number} screen
   * @param {boolean} foreseen
   */
  answered(lesson, screen, foreseen) {
    this.note(() => (this.of(lesson).first[screen] ??= foreseen));
  }

  /** @param {string} lesson */
  finished(lesson) {
    this.note(() => (this.of(lesson).done = true));
  }
}
