// What the browser keeps: of the desk the hearing's file after each step, of the course the list that was edited.
// What can't be read again is kept aside as it is. Windows of this page share what is kept: each knows what it read or kept last.

const KEY = "take-ledger.desk";
const ASIDE = "take-ledger.desk.aside";
const LIST = "take-ledger.course";
const EARLIER = "take-ledger.course.earlier";

const QUOTA = "QuotaExceededError", FULL = "The browser does not keep this, for its room is full: save it as a file.";
const DENIED = "The browser does not keep this, for it lets this page keep nothing: save it as a file.";

// The hearing's file as this window read or kept it last.
let mine = null;

/** A word that was kept under a key of its own, or null. */
export function keptWord(key) {
  return stored(key);
}

/** Keeps a word under a key of its own; null, or why it could not. */
export function keepWord(key, word) {
  return store(key, word);
}

function stored(key) {
  try {
    return localStorage.getItem(key);
  } catch {
    return null;
  }
}

/** Null, or why it could not be stored. */
function store(key, text) {
  try {
    localStorage.setItem(key, text);
    return null;
  } catch (e) {
    return /** @type {Error} */ (e).name === QUOTA ? FULL : DENIED;
  }
}

/** Keeps a hearing's file; null, or why it could not. */
export function keep(text) {
  const trouble = store(KEY, text);
  if (!trouble) mine = text;
  return trouble;
}

/** The file that was kept, or null. */
export function kept() {
  mine = stored(KEY);
  return mine;
}

/** Whether this is what this window kept last. */
export function isKept(text) {
  return text === mine;
}

/** The file that another window has kept since, or null. */
export function keptElsewhere() {
  const now = stored(KEY);
  return now === mine ? null : now;
}

/** Gives up what is kept. */
export function dropKept() {
  localStorage.removeItem(KEY);
  mine = null;
}

/** Keeps the list of one's own that was edited in the course, or the one before it. */
export function keepList(text, earlier = false) {
  return store(earlier ? EARLIER : LIST, text);
}

/** The list that was kept, or null. */
export function keptList(earlier = false) {
  return stored(earlier ? EARLIER : LIST);
}

/** The texts that were put aside. */
export function aside() {
  const text = stored(ASIDE);
  if (text === null) return [];
  try {
    const texts = JSON.parse(text);
    return Array.isArray(texts) ? texts.map(t => (typeof t === "string" ? t : JSON.stringify(t))) : [text];
  } catch {
    return [text];
  }
}

export function putAside(text) {
  return store(ASIDE, JSON.stringify([...aside().filter(t => t !== text), text]));
}

export function dropAside(text) {
  return store(ASIDE, JSON.stringify(aside().filter(t => t !== text)));
}
