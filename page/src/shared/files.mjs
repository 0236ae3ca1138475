// Files in and out, and what a file holds. The library says whether an image is one and whether a text is one.
import { el } from "./dom.mjs";
import { Session, Refusal, IMAGE, OLD_IMAGE, forward } from "../../../bindings/js/ledger.mjs";
import { toSteps } from "../../../bindings/js/notation.mjs";
import { isLog } from "./log.mjs";

/** Offers bytes or a text as a file to save. */
export function save(name, content, type = "application/octet-stream") {
  const url = URL.createObjectURL(new Blob([content], { type })), link = el("a", { href: url, download: name });
  document.body.append(link);
  link.click();
  link.remove();
  setTimeout(() => URL.revokeObjectURL(url), 1000);
}

/** A button that opens a file and gives its name and bytes. */
export function opener(label, opened, id) {
  const input = el("input", { type: "file", class: "unseen", id, "aria-label": label, onchange: async () => {
    const [file] = input.files;
    if (!file) return;
    const bytes = new Uint8Array(await file.arrayBuffer());
    input.value = "";
    opened(file.name, bytes);
  } });
  return el("label", { class: "button" }, label, input);
}

// How an image in words begins.
const IMAGE_IN_WORDS = "limits: takes ";
// How the store's own file begins.
const DATABASE = "SQLite format 3\0";
// The reply to a step that is none.
const MALFORMED = 20;

/** Bytes that a text never has. */
const binary = bytes => bytes.some(b => b < 9);

/**
 * What a call gives, or why the library refuses it.
 * @template T
 * @param {() => T} call
 * @returns {{value: T, refusal: null} | {value: null, refusal: Refusal}}
 */
function attempt(call) {
  try {
    return { value: call(), refusal: null };
  } catch (e) {
    if (e instanceof Refusal) return { value: null, refusal: e };
    throw e;
  }
}

const unknown = (reason, text = null) => ({ kind: "unknown", reason, text });

/** An image of either form, or why it is none. */
function imageIn(bytes) {
  if (bytes.length !== IMAGE && bytes.length !== OLD_IMAGE) return unknown("it is not a whole image.");
  const old = bytes.length === OLD_IMAGE, image = attempt(() => Session.fromImage(old ? forward(bytes) : bytes).image);
  return image.refusal ? unknown(image.refusal.message) : { kind: "image", image: image.value, old };
}

/** A packed list, unless the ledger finds its first step malformed: then the file is something else. */
function listIn(bytes) {
  if (bytes.length % 8) return unknown("it is no image, no text, and no list of whole steps.");
  const [outcome] = Session.begin().run(bytes, 0, Math.min(8, bytes.length));
  return outcome === MALFORMED ? unknown("this does not look like a step list.") : { kind: "list", list: bytes };
}

function textIn(text) {
  if (text.trimStart().startsWith("{")) return { kind: "desk", text };
  if (isLog(text)) return { kind: "log", text };
  if (text.startsWith(IMAGE_IN_WORDS)) return unknown("this is an image in words, to be read only.");
  const { steps, fault } = toSteps(text);
  return fault ? unknown(`line ${fault.line}, column ${fault.column}: expected ${fault.expected}`, text) : { kind: "text", text, list: steps };
}

/** What a file holds: kind image, list, text, desk, or log, the store's; or kind unknown with the reason. */
export function recognize(bytes, name = "") {
  if (!bytes.length) return unknown("it is empty.");
  if (String.fromCharCode(...bytes.subarray(0, DATABASE.length)) === DATABASE) return unknown("it is the store's own file. Its log, which the store's program writes by \u201cexport\u201d, can be opened.");
  const image = imageIn(bytes), whole = bytes.length === IMAGE || bytes.length === OLD_IMAGE;
  if (image.kind === "image" || /\.(old-)?image$/i.test(name) || (whole && bytes.length % 8)) return image;
  if (!binary(bytes)) return textIn(new TextDecoder().decode(bytes));
  const list = listIn(bytes);
  return whole && list.kind === "unknown" ? image : list;
}
