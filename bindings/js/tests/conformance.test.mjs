// The conformance kit, whole: every test of conformance/vectors through these bindings.
import { test } from "node:test";
import assert from "node:assert/strict";
import { existsSync, readdirSync, readFileSync } from "node:fs";
import { createHash } from "node:crypto";
import { fileURLToPath } from "node:url";
import { loadFrom } from "../node.mjs";
import { Session, Refusal, IMAGE, OLD_IMAGE, forward, back, worstWindow, play, fault } from "../ledger.mjs";
import { toSteps } from "../notation.mjs";

await loadFrom();
const FOLDER = process.env.CONFORMANCE ?? fileURLToPath(new URL("../../../conformance/vectors/", import.meta.url));
const OBSTACLES = ["nothing", "not frozen", "outside", "withdrawn"];
const ACTORS = ["nobody", "the house", "a take", "a volume"];
const IMPEDIMENTS = ["nothing", "withdrawn", "all signed", "not frozen"];
const numbers = (kinds, { kind, ...rest }) => [kinds.indexOf(kind), ...Object.values(rest)];

/** Words of hexadecimal digits, without the zeros at their end; zeros behind the list up to the length. */
function words(text, length = undefined) {
  const whole = Buffer.concat(text.split(" ").filter(Boolean).map(w => Buffer.from(w.padEnd(16, "0"), "hex")));
  const bytes = new Uint8Array(length ?? whole.length);
  bytes.set(whole.subarray(0, bytes.length));
  return bytes;
}

function sparse(stretches, length) {
  const whole = new Uint8Array(length);
  for (const [at, digits] of stretches) whole.set(Buffer.from(digits, "hex"), at);
  return whole;
}

/** The image of a test with its changed bytes, cut off at its length or with zeros behind. */
function imageOf(file, t, size = IMAGE) {
  const given = typeof t.image === "string" ? file.images[t.image].bytes : t.image ?? [];
  const whole = sparse([...given, ...(t.change ?? [])], size), cut = new Uint8Array(t.length ?? size);
  cut.set(whole.subarray(0, cut.length));
  return cut;
}

/** What a call gives, or its refusal. */
function answered(call) {
  try {
    return { refusal: 0, value: call() };
  } catch (e) {
    if (!(e instanceof Refusal)) throw e;
    return { refusal: e.number, value: null };
  }
}

function sameImage(t, image) {
  if (t.after) assert.deepEqual(image, sparse(t.after, image.length));
  if (t.sha256) assert.equal(createHash("sha256").update(image).digest("hex"), t.sha256);
}

const limitsOf = t => ({ takes: t.limits[0], parcels: t.limits[1], signings: t.limits[2] });

function checkRun(file, t) {
  const list = words(t.list, t.list_length), start = t.start ?? 0, end = t.end ?? list.length;
  const session = t.image === undefined ? Session.begin(limitsOf(t)) : new Session(imageOf(file, t)), before = session.image;
  const { refusal, value } = answered(() => session.run(list, start, end, t.room));
  assert.equal(refusal, t.refusal);
  if (t.text) assert.deepEqual(toSteps(t.text.join("\n")).steps, list);
  if (refusal) return assert.deepEqual(session.image, before);
  assert.deepEqual(value, words(t.replies));
  return sameImage(t, session.image);
}

function checkBegin(file, t) {
  const { refusal, value } = answered(() => Session.begin(limitsOf(t), t.length));
  assert.equal(refusal, t.refusal);
  return refusal ? undefined : sameImage(t, value.image);
}

const QUERIES = {
  offer: (s, t) => s.offer(t.take),
  smallest_volume: (s, t) => s.smallestVolume(t.take),
  ready_count: (s, t) => s.readyCount(t.size),
  all_heard_frozen: (s, t) => s.allHeardFrozen(t.take),
  dependents: (s, t) => Object.values(s.dependents(t.take)),
  obstacle: (s, t) => numbers(OBSTACLES, s.obstacle(t.volume)),
  impediment: (s, t) => numbers(IMPEDIMENTS, s.impediment(t.take)),
  actor: (s, t) => numbers(ACTORS, s.actor(words(t.list, t.list_length))),
  show: (s, t) => s.show(t.parcel),
  plan: (s, t) => s.plan(t.take, t.room),
  independent: (s, t) => s.independent(...stepsOf(t)),
};

/** The two steps of a test, of their lengths. */
function stepsOf(t) {
  const list = words(t.list), [first, second] = t.lengths ?? [8, 8];
  const part = (at, length) => Uint8Array.from({ length }, (_, i) => (i < 8 ? list[at + i] : 0));
  return [part(0, first), part(8, second)];
}

function checkQuery(file, t) {
  const image = imageOf(file, t), { refusal, value } = answered(() => QUERIES[t.call](new Session(image), t));
  assert.equal(refusal, t.refusal);
  if (refusal) return undefined;
  if (t.call === "plan") return assert.deepEqual([value.length / 8, value], [t.answer, words(t.out)]);
  if (t.call === "show") return assert.deepEqual(value, image.slice(t.answer[0], t.answer[0] + t.answer[1]));
  return assert.deepEqual(value, t.answer);
}

function checkThin(file, t) {
  const list = words(t.list, t.list_length), start = t.start ?? 0, end = t.end ?? list.length;
  const { refusal, value } = answered(() => new Session(imageOf(file, t)).thin(list, start, end, t.room));
  assert.equal(refusal, t.refusal);
  return refusal ? undefined : assert.deepEqual(value, words(t.out, 8 * t.answer));
}

function checkConvert(file, t) {
  const isForward = t.call === "forward";
  const { refusal, value } = answered(() => (isForward ? forward : back)(imageOf(file, t, isForward ? OLD_IMAGE : IMAGE), t.target_length));
  assert.equal(refusal, t.refusal);
  return refusal ? undefined : sameImage(t, value);
}

function checkWindow(file, t) {
  const { refusal, value } = answered(() => worstWindow(words(t.list, t.list_length), t.width));
  assert.equal(refusal, t.refusal);
  return refusal ? undefined : assert.deepEqual([value.count, value.place], t.answer);
}

/** The function gives byte and clause beside 19, and is refused with 16 alone. */
function checkFault(file, t) {
  const { refusal, value } = answered(() => fault(imageOf(file, t)));
  assert.equal(value ? 19 : refusal, t.refusal);
  return assert.deepEqual(value ? [value.at, value.clause] : [0, 0], t.answer);
}

function checkPlay(file, t) {
  const list = words(t.list, t.list_length);
  const { refusal, value } = answered(() => play(list, limitsOf(t), t.room));
  assert.equal(refusal, t.refusal);
  return refusal ? undefined : assert.deepEqual(value, words(t.replies));
}

const PASSES = { thin: checkThin, forward: checkConvert, back: checkConvert, worst_window: checkWindow };
const CHECKS = { begin: checkBegin, run: checkRun, play: checkPlay, fault: checkFault, ...PASSES };

test("the conformance kit", { skip: existsSync(FOLDER) ? false : "conformance/vectors is not there" }, async context => {
  for (const name of readdirSync(FOLDER).filter(f => f.endsWith(".json") && f !== "schema.json")) {
    const file = JSON.parse(readFileSync(`${FOLDER}/${name}`, "utf8"));
    await context.test(`${file.subject}: ${file.tests.length} tests`, () => {
      assert.equal(file.version, 1);
      for (const t of file.tests) {
        try {
          (CHECKS[t.call] ?? checkQuery)(file, t);
        } catch (e) {
          e.message = `${file.subject} ${t.number}, ${t.comment}: ${e.message}`;
          throw e;
        }
      }
    });
  }
});
