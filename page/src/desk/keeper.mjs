// Keeps the desk's hearing in the browser's database, deed by deed, one after the other; and finds it again at the start.
import { byId } from "../shared/dom.mjs";
import { keptWord, keepWord } from "../shared/store.mjs";
import { toFile } from "../shared/hearing.mjs";
import { isolated } from "../shared/names.mjs";
import { Elsewhere, all, restore, write } from "./journal.mjs";
import { dateOf, timeOf } from "./exports.mjs";
import { tell } from "./notices.mjs";
import { fileOf } from "./saving.mjs";

const KEY = "take-ledger.desk.id", CLOSED = "take-ledger.desk.closed", LOCK = "take-ledger desk";
const FULL = "The browser does not keep this, for its room is full: save it as a file. Nothing is lost while this window is open, and what is missing is kept as soon as there is room.";
const COPY = "Another window has changed this hearing since. This window goes on in a copy; both are in the list of hearings.";

const newId = () => Array.from(crypto.getRandomValues(new Uint8Array(8)), b => b.toString(16).padStart(2, "0")).join("");

/** Whether a list begins with all the steps of another. */
const beginsWith = (list, other) => other.length <= list.length && other.every((b, i) => b === list[i]);

/** A hearing that does not change when the desk's does. */
const apart = hearing => hearing && { ...hearing, takes: [...hearing.takes], texts: { ...hearing.texts }, about: [...hearing.about], times: [...hearing.times] };

export class Keeper {
  /** @param {any} desk */
  constructor(desk) {
    this.desk = desk;
    /** The hearing on the desk, and how many deeds were done to it. */
    this.id = null;
    this.deeds = 0;
    /** @type {Map<string, {rev: number, written: any}>} what was written last of each hearing */
    this.last = new Map();
    this.queue = Promise.resolve();
    // Whether the browser ended in the midst of a hearing.
    this.ended = false;
    // Whether the database was full when it was last written to.
    this.full = false;
    window.addEventListener("pagehide", () => this.id && keepWord(CLOSED, JSON.stringify({ id: this.id, deeds: this.deeds })));
  }

  /** Which hearing the page kept last, and after how many deeds; noted at once with each deed, while the database takes its time. */
  known(key = KEY) {
    try {
      const { id, deeds } = JSON.parse(keptWord(key) ?? "{}");
      return typeof id === "string" && Number.isInteger(deeds) ? { id, deeds } : null;
    } catch {
      return null;
    }
  }

  /** At the start: the hearing of the database, where it has more deeds than what the page kept, or goes on from it. */
  async recover() {
    try {
      const mark = this.known(), first = mark ?? (await all())[0], found = first && await restore(first.id);
      if (!found) return;
      const here = this.desk.hearing.list, there = found.hearing.list, related = beginsWith(there, here) || beginsWith(here, there);
      const newer = mark ? found.deeds > mark.deeds : beginsWith(there, here);
      if (newer) this.desk.take(apart(found.hearing));
      if (newer || related) this.begin(first.id, found.rev, found.hearing, Math.max(found.deeds, mark?.deeds ?? 0));
      if (await this.alone() && this.broken(first.id, found.deeds)) this.tellOfEnd(found);
    } catch (e) {
      console.warn(e);
    }
  }

  /** Whether no other window of this browser has the page open; from now on this one has. */
  async alone() {
    const { locks } = navigator, { held = [] } = await locks.query(), others = held.some(l => l.name === LOCK);
    locks.request(LOCK, { mode: "shared" }, () => new Promise(() => {}));
    return !others;
  }

  /** Whether the browser ended without closing the page after the last deed. */
  broken(id, deeds) {
    const closed = this.known(CLOSED);
    return !(closed && closed.id === id && closed.deeds >= deeds);
  }

  /** Says that nothing was lost when the browser ended, and how far the hearing goes. */
  tellOfEnd({ hearing, last }) {
    this.ended = true;
    const title = hearing.title ? `\u201c${isolated(hearing.title)}\u201d` : "The hearing", when = last ? `, ${dateOf(last.at)} at ${timeOf(last.at)}` : "";
    tell(`The browser ended before this page was closed. ${title} is here with all that was done${when}${last?.words ? `: the last was \u201c${isolated(last.words.replace(/\.$/, ""))}\u201d` : ""}.`);
  }

  /** Another hearing is at the desk: one of the database, or a new one. */
  begin(id = null, rev = 0, hearing = null, deeds = 0) {
    Object.assign(this, { id, deeds });
    if (id) this.last.set(id, { rev, written: apart(hearing) });
  }

  /** Writes the hearing as it stands after a deed. */
  keep(words) {
    this.id ??= newId();
    this.deeds++;
    this.note();
    const { id, deeds } = this, hearing = this.desk.copy();
    this.queue = this.queue.then(() => this.put(id, deeds, hearing, words)).catch(e => this.failed(e));
    return this.queue;
  }

  note() {
    keepWord(KEY, JSON.stringify({ id: this.id, deeds: this.deeds }));
  }

  async put(id, deeds, hearing, words) {
    const { rev, written } = this.last.get(id) ?? { rev: 0, written: null };
    if (written && toFile(written) === toFile(hearing)) return;
    try {
      await write({ id, rev: rev + 1, deeds, hearing, before: written, words });
    } catch (e) {
      if (!(e instanceof Elsewhere)) throw e;
      return this.copied(id, deeds, hearing, words);
    }
    this.last.set(id, { rev: rev + 1, written: hearing });
    if (this.full) tell("There is room again: the hearing is kept whole.");
    this.full = false;
    byId("desk").dataset.kept = String(hearing.list.length / 8);
    return undefined;
  }

  /** Another window wrote this hearing first: this window goes on in a copy. */
  copied(id, deeds, hearing, words) {
    const other = newId(), title = `${hearing.title || "hearing"} (copy)`;
    tell(COPY);
    if (this.id === id) {
      this.id = other;
      this.desk.hearing.title = title;
      this.note();
    }
    return this.put(other, deeds, { ...hearing, title }, words);
  }

  failed(e) {
    if (!/Quota/.test(e?.name ?? "")) return console.warn(e);
    this.full = true;
    return tell(FULL, { label: "Save as a file", act: () => fileOf(this.desk.hearing) });
  }
}
