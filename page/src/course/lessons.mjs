// A lesson: data of page/lessons, and the records of its screens. Its steps are lines of the notation, or deeds, which become steps by
// being tried on a copy of the session.
import { Session } from "../../../bindings/js/ledger.mjs";
import { toSteps } from "../../../bindings/js/notation.mjs";
import { joined } from "../../../bindings/js/packed.mjs";
import { DEEDS } from "../shared/deeds.mjs";
import { Names } from "../shared/names.mjs";
import { Record } from "../shared/record.mjs";

/** @typedef {string | [string, ...number[]]} Line a line of the notation, or a deed with its numbers */

/**
 * The steps of some lines after a session, which they are run on.
 * @param {Session} session
 * @param {Line[]} lines
 * @returns {Uint8Array}
 */
export function stepsOf(session, lines) {
  return joined(lines.map(line => {
    const steps = typeof line === "string" ? toSteps(line).steps : DEEDS[line[0]](session, ...line.slice(1));
    if (!steps) throw new Error(`a lesson's line can't be played: ${JSON.stringify(line)}`);
    session.run(steps);
    return steps;
  }));
}

export class Lesson {
  // Its place in the course, from 1.
  number = 0;

  /** @param {any} data a file of page/lessons */
  constructor(data) {
    this.data = data;
    this.name = data.name;
    this.title = data.title;
    this.screens = data.screens;
    this.names = new Names(data.takes, data.texts);
    this.scenes = [];
  }

  /**
   * What takes and texts are called on a screen: as in the whole lesson, or by words of its own.
   * @param {number} k
   */
  namesOn(k) {
    const { takes, texts } = this.screens[k];
    return takes || texts ? new Names(takes ?? this.data.takes, texts ?? this.data.texts) : this.names;
  }

  /**
   * The situation of a screen: the steps before it, after its own, and after its answer.
   * @param {number} k
   * @returns {{record: Record, start: number, count: number}} what it adds to the one before is from start to count
   */
  scene(k) {
    if (this.scenes[k]) return this.scenes[k];
    const screen = this.screens[k], before = screen.fresh || k === 0 ? { list: new Uint8Array(0), count: 0 } : this.after(k - 1);
    const session = Session.begin();
    session.runAll(before.list);
    const now = joined([before.list, stepsOf(session, screen.steps ?? [])]);
    const then = stepsOf(session.copy(), screen.then ?? screen.solution ?? []);
    const scene = { record: new Record(Session.begin(), joined([now, then])), start: before.list.length / 8, count: now.length / 8 };
    this.scenes[k] = scene;
    return scene;
  }

  /** The list after a screen's answer. */
  after(k) {
    return { list: this.scene(k).record.list };
  }
}
