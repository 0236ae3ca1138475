// Hearings in the browser's database. Each deed is written with one transaction that is on the disk when it ends: an entry of the journal
// with the steps it added, and now and then a snapshot. A hearing is its last snapshot and the entries since, so that a browser that dies
// loses nothing that was written. Where another window wrote first, nothing is overwritten.
import { fromFile, toFile } from "../shared/hearing.mjs";
import { joined } from "../../../bindings/js/packed.mjs";

const NAME = "take-ledger", VERSION = 1, APART = 32;
const STORES = ["hearings", "snapshots", "journal"];

/** Another window has written this hearing since. */
export class Elsewhere extends Error {}

let opened = null;

function database() {
  opened ??= new Promise((yes, no) => {
    const ask = indexedDB.open(NAME, VERSION);
    ask.onupgradeneeded = () => {
      for (const name of STORES.slice(0, 2)) ask.result.createObjectStore(name, { keyPath: "id" });
      ask.result.createObjectStore("journal", { keyPath: ["id", "rev"] });
    };
    ask.onsuccess = () => yes(ask.result);
    ask.onerror = () => no(ask.error);
  });
  return opened;
}

const answer = ask => new Promise((yes, no) => {
  ask.onsuccess = () => yes(ask.result);
  ask.onerror = () => no(ask.error);
});

/** Runs within one transaction, which is on the disk when this is done. */
async function within(mode, act) {
  const parts = (await database()).transaction(STORES, mode, { durability: "strict" }), store = name => parts.objectStore(name);
  const ended = new Promise((yes, no) => {
    parts.oncomplete = yes;
    parts.onabort = () => no(parts.error ?? new Error("aborted"));
  });
  let found;
  try {
    found = await act(store);
  } catch (e) {
    ended.catch(() => {});
    try {
      parts.abort();
    } catch {
      // it has ended already
    }
    throw e;
  }
  await ended;
  return found;
}

const entriesOf = id => IDBKeyRange.bound([id, 0], [id, Infinity]);

/** How many bytes at the beginning two lists share, in whole steps. */
function shared(a, b) {
  let n = 0;
  while (n < a.length && n < b.length && a[n] === b[n]) n++;
  return n - (n % 8);
}

const headOf = (id, rev, deeds, { title, list, times }) => ({ id, rev, deeds, title, steps: list.length / 8, from: times.find(Boolean) ?? null, to: times.filter(Boolean).at(-1) ?? null, saved: Date.now() });

/**
 * Writes a hearing after a deed; before: as it was written last, or null. rev counts what was written of it, deeds what was done to it.
 * @param {{id: string, rev: number, deeds: number, hearing: any, before: any, words: string}} what
 */
export function write({ id, rev, deeds, hearing, before, words }) {
  return within("readwrite", async store => {
    const head = await answer(store("hearings").get(id));
    if ((head?.rev ?? 0) !== rev - 1) throw new Elsewhere();
    const keep = before ? shared(before.list, hearing.list) : 0, { title, takes, texts, about, times, house = "", who = [] } = hearing;
    store("hearings").put(headOf(id, rev, deeds, hearing));
    store("journal").put({ id, rev, at: Date.now(), words, keep, list: hearing.list.slice(keep), beside: { title, takes: Array.from(takes, t => t ?? ""), texts, about: Array.from(about, a => a ?? {}), times, house, who } });
    if (!before || rev % APART === 1) store("snapshots").put({ id, rev, file: toFile(hearing) });
  });
}

/** The hearing of an id with how many deeds it has and what was done last, or null. */
export async function restore(id) {
  const found = await within("readonly", async store => {
    const [head, snapshot, entries] = await Promise.all([answer(store("hearings").get(id)), answer(store("snapshots").get(id)), answer(store("journal").getAll(entriesOf(id)))]);
    return head && snapshot ? { rev: head.rev, deeds: head.deeds, snapshot, entries } : null;
  });
  if (!found) return null;
  let hearing = fromFile(found.snapshot.file);
  for (const entry of found.entries.filter(e => e.rev > found.snapshot.rev)) hearing = { ...hearing, ...entry.beside, list: joined([hearing.list.slice(0, entry.keep), entry.list]) };
  return { hearing, rev: found.rev, deeds: found.deeds, last: found.entries.at(-1) ?? null };
}

/** All hearings, the one written last first. */
export async function all() {
  const heads = await within("readonly", store => answer(store("hearings").getAll()));
  return heads.sort((a, b) => b.saved - a.saved);
}

export function remove(id) {
  return within("readwrite", async store => {
    for (const name of STORES.slice(0, 2)) store(name).delete(id);
    store("journal").delete(entriesOf(id));
  });
}
