// The address after #: a lesson by name, or a whole list as text or as packed bytes, with limits and the chosen step.

/** Bytes as base64 that an address can hold. */
export function toBase64(bytes) {
  let binary = "";
  for (const b of bytes) binary += String.fromCharCode(b);
  return btoa(binary).replaceAll("+", "-").replaceAll("/", "_").replaceAll("=", "");
}

/** The bytes of such a word, or null. */
export function fromBase64(word) {
  try {
    return Uint8Array.from(atob(word.replaceAll("-", "+").replaceAll("_", "/")), c => c.charCodeAt(0));
  } catch {
    return null;
  }
}

export function limitsWord({ takes, parcels, signings }) {
  return [takes, parcels, signings].join(",");
}

function limitsFrom(word) {
  const numbers = (word ?? "").split(",").map(Number);
  return numbers.length === 3 && numbers.every(Number.isInteger) ? { takes: numbers[0], parcels: numbers[1], signings: numbers[2] } : null;
}

/** What an address asks for; wrong: whether it names a step, list or limits that are none. */
export function readAddress(hash) {
  const asked = new URLSearchParams(hash.replace(/^#/, "").replaceAll("+", "%2B")), step = asked.get("step");
  const list = asked.has("list") ? fromBase64(asked.get("list")) : null, limits = limitsFrom(asked.get("limits"));
  const whole = step !== null && /^\d{1,9}$/.test(step), wrong = { step: step !== null && !whole, list: asked.has("list") && !list };
  return {
    view: asked.get("view"),
    lesson: asked.get("lesson"),
    text: asked.get("text"),
    list,
    limits,
    step: whole ? Number(step) : null,
    screen: /^\d{1,3}$/.test(asked.get("screen") ?? "") ? Number(asked.get("screen")) : null,
    wrong: { ...wrong, limits: asked.has("limits") && !limits },
  };
}

/** The address of this page with these parts. */
export function address(parts) {
  const given = Object.entries(parts).filter(([, value]) => value !== null && value !== undefined);
  const words = given.map(([name, value]) => `${name}=${encodeURIComponent(value)}`);
  return `${location.href.split("#")[0]}#${words.join("&")}`;
}
