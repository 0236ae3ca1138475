// Every refusal's error, and nothing but refusals for whatever bytes are given.
import { test } from "node:test";
import assert from "node:assert/strict";
import { loadFrom } from "../node.mjs";
import { Session, Refusal, REFUSALS, IMAGE, OLD_IMAGE, forward, back, worstWindow, play } from "../ledger.mjs";
import { packStep, joined } from "../packed.mjs";
import { toSteps, toText } from "../notation.mjs";

await loadFrom();

function refused(number, call) {
  const [word, sentence] = REFUSALS[number];
  const right = e => e instanceof Refusal && e.number === number && e.word === word && e.message.includes(sentence);
  assert.throws(call, right, `refusal ${number}`);
}

test("calls: 16 to 19, 32 to 35", () => {
  const session = Session.begin(), step = packStep("root", { text: 1 });
  refused(16, () => Session.fromImage(new Uint8Array(IMAGE - 1)));
  refused(16, () => forward(new Uint8Array(OLD_IMAGE + 1)));
  refused(16, () => back(new Uint8Array(7)));
  refused(17, () => session.run(step, 0, 7));
  refused(17, () => session.run(step, 8, 0));
  refused(17, () => session.run(step, 0, 16));
  refused(17, () => session.thin(new Uint8Array(8200)));
  refused(17, () => play(new Uint8Array(8200)));
  refused(17, () => worstWindow(new Uint8Array(9), 3));
  for (const [p, q] of [[step, step.slice(1)], [new Uint8Array(9), step]]) refused(17, () => session.independent(p, q));
  refused(19, () => Session.fromImage(new Uint8Array(IMAGE)));
  refused(19, () => forward(new Uint8Array(OLD_IMAGE).fill(255)));
  refused(32, () => back(Session.begin({ takes: 4 }).image));
  for (const limits of [{ takes: 0 }, { takes: 17 }, { parcels: 33 }, { signings: 16 }]) refused(33, () => Session.begin(limits));
  refused(33, () => play(step, { parcels: 0 }));
  for (const size of [0, 17]) refused(34, () => session.readyCount(size));
  for (const width of [0, 257]) refused(35, () => worstWindow(step, width));
});

const OF_A_TAKE = ["offer", "smallestVolume", "allHeardFrozen", "dependents", "impediment", "plan"];

test("queries: 21, 22, 24, 29, 30", () => {
  const session = Session.begin({ signings: 1 });
  for (const ask of OF_A_TAKE) refused(21, () => session[ask](0));
  session.run(joined([packStep("root"), packStep("root"), packStep("fail")]));
  for (const ask of OF_A_TAKE) refused(22, () => session[ask](0));
  for (const room of [0, 391, 400]) refused(18, () => session.plan(1, room));
  for (const number of [0, 65536, 2 ** 40]) refused(24, () => session.show(number));
  refused(29, () => session.obstacle(0));
  for (const volume of [4, 65536, 65537, 2 ** 40]) refused(21, () => session.obstacle(volume));
  refused(22, () => session.obstacle(1));
  session.run(toSteps("letter to 1 text 0\nreceive 0\nfreeze 1\nsign {1}\n").steps);
  refused(30, () => session.obstacle(2));
});

test("18 has its error; numbers that a call can't take are no refusals of the ledger", () => {
  assert.equal(new Refusal(18).message, "refused with 18, wrong room: replies, or other room lent, not of the right length");
  for (const n of [-1, 0.5, NaN, 2 ** 60]) assert.throws(() => Session.begin().offer(n), RangeError);
  assert.throws(() => Session.begin().obstacle(-1), RangeError);
});

function random(seed) {
  let x = seed;
  return below => {
    x ^= x << 13;
    x ^= x >>> 17;
    x ^= x << 5;
    return (x >>> 0) % below;
  };
}

/** What a call gives, or null where it was refused; anything else that is thrown goes on. */
function attempt(call) {
  try {
    return call();
  } catch (e) {
    if (e instanceof Refusal) return null;
    throw e;
  }
}

const QUERIES = [...OF_A_TAKE, "show", "obstacle"];

// Bytes of texts and of the own marks' life numbers of takes 0 and 1: changed, the image stays well-formed.
const HARMLESS = [9, 10, 11, 12, 18, 19, 1602, 1603, 1604, 1605, 1644, 1645];

test("10,000 random buffers as images, lists, replies and texts: nothing but refusals", () => {
  const next = random(34), session = Session.begin();
  session.run(toSteps("root text 1\nroot text 2\nletter to 0 text 3\nreceive 0\nsend 0 to 1 text 4\n").steps);
  const good = session.image;
  let accepted = 0;
  for (let i = 0; i < 10000; i++) {
    const bytes = Uint8Array.from({ length: next(300) }, () => next(256)), image = good.slice();
    const places = i % 4 === 0 ? HARMLESS : null;
    for (let k = next(4); k >= 0; k--) image[places ? places[next(places.length)] : next(IMAGE)] = next(256);
    const stored = attempt(() => Session.fromImage(i % 10 === 0 ? bytes : image));
    const list = bytes.slice(0, bytes.length & ~7);
    if (stored) {
      accepted++;
      assert.equal(attempt(() => stored.run(list)).length, list.length);
      for (const ask of QUERIES) attempt(() => stored[ask](next(65536)));
      assert.ok(Session.fromImage(stored.image));
    }
    for (const call of [play, forward, back, list => session.run(list), list => session.thin(list)]) attempt(() => call(bytes));
    attempt(() => worstWindow(bytes, next(300)));
    assert.deepEqual(toSteps(toText(list)).steps, list);
    toSteps(new TextDecoder("latin1").decode(bytes));
  }
  assert.ok(accepted > 500, `${accepted} images were well-formed`);
});
