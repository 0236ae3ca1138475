// Packers: what does not fit throws; what fits comes back. For whom a step acts, the words of refusals, the first fault of an image.
import { test } from "node:test";
import assert from "node:assert/strict";
import { loadFrom } from "../node.mjs";
import { Session, REFUSALS, IMAGE, fault, refusalText } from "../ledger.mjs";
import { KINDS, packStep, readStep, volumeOf } from "../packed.mjs";
import { toSteps } from "../notation.mjs";

await loadFrom();

test("a number that its field does not hold throws, and no other step comes out of it", () => {
  for (const fields of [{ take: 16 }, { take: 32 }, { other: 16 }, { parcel: 65536 }, { text: 2 ** 32 }, { take: -1 }, { text: 0.5 }, { parcel: NaN }]) {
    for (const kind of KINDS) assert.throws(() => packStep(kind, fields), RangeError);
  }
  for (const n of [16, 32, -1, 1.5, Infinity]) assert.throws(() => volumeOf([0, n]), RangeError);
});

test("strings are not numbers, and kinds and fields have their names", () => {
  for (const fields of [{ take: "1" }, { text: "7" }, { parcel: null }, { other: 3n }, { text: true }]) assert.throws(() => packStep("send", fields), TypeError);
  assert.throws(() => volumeOf(["0"]), TypeError);
  for (const kind of ["sing", "", "Root", 0, undefined]) assert.throws(() => packStep(kind), RangeError);
  assert.throws(() => packStep("root", { txet: 7 }), RangeError);
});

test("what fits comes back, at the edges too", () => {
  for (const [k, kind] of KINDS.entries()) {
    for (const fields of [{}, { take: 15, other: 15, parcel: 65535, text: 4294967295 }, { take: undefined, text: 1 }]) {
      const { take = 0, other = 0, parcel = 0, text = 0 } = fields;
      assert.deepEqual(readStep(packStep(kind, fields), 0), { kind: k, take, other, zero: 0, parcel, text });
    }
  }
  assert.equal(volumeOf([0, 15, 0]), 32769);
});

test("for whom a step acts", () => {
  const session = Session.begin();
  session.run(toSteps("root text 1\nroot text 2\nletter to 1 text 3\n").steps);
  const acts = text => session.actor(toSteps(text).steps), house = { kind: "the house", takes: 0 }, nobody = { kind: "nobody", takes: 0 };
  for (const text of ["root text 9", "letter to 1 text 0", "lose 0", "lose 7"]) assert.deepEqual(acts(text), house);
  for (const kind of ["read", "freeze", "done", "fall", "fail"]) assert.deepEqual(acts(`${kind} 1`), { kind: "a take", takes: 2 });
  for (const text of ["write 15 text 4", "send 15 to 0 text 4", "new 15 text 4"]) assert.deepEqual(acts(text), { kind: "a take", takes: 32768 });
  assert.deepEqual(acts("receive 0"), { kind: "a take", takes: 2 });
  assert.deepEqual(acts("receive 1"), nobody);
  assert.deepEqual(acts("sign {0,1}"), { kind: "a volume", takes: 3 });
  assert.deepEqual(session.actor(Uint8Array.of(0xd0, 0, 0, 0, 0, 0, 0, 0)), nobody);
  assert.deepEqual(session.actor(packStep("read", { take: 1, text: 1 })), nobody);
  assert.throws(() => session.actor(new Uint8Array(7)), e => e.number === 17);
});

test("every refusal has the library's words, and no other number has any", () => {
  for (let n = 0; n < 256; n++) assert.equal(refusalText(n), n < 16 || n > 35 ? "" : REFUSALS[n][1]);
  assert.equal(refusalText(19), "image ill-formed");
  assert.equal(refusalText(35), "width outside 1 to 256");
  for (const n of [-1, 256, 1.5, NaN]) assert.equal(refusalText(n), "");
});

// Each clause by one byte changed in the image of a small session: where it stands, and its number.
const FAULTS = [
  [3, 1, 3, 1], [7, 1, 7, 1], [4, 0, 4, 2], [4, 17, 4, 2], [0, 17, 0, 6], [5, 1, 5, 6], // head and limits
  [8, 0x41, 8, 3], [8, 0, 8, 7], [8, 0xc0, 9, 11], [17, 0, 17, 8], [16, 1, 13, 9], [1073, 0x80, 1073, 10], // take 0, idle
  [20, 1, 17, 5], [545 + 33 * 9, 0x80, 545, 5], [1601 + 1593, 0x40, 1601 + 1593, 3], // its maps; take 2, which is not opened
  [25496, 0x85, 25496, 15], [25496, 0x90, 25496, 4], [25497, 1, 25497, 14], // parcel place 0
  [26033, 0, 26032, 13], [26032 + 535, 9, 26031 + 535, 4], [26031 + 1070, 0x80, 26031 + 1070, 12], // places 1, 2 and 3
];

test("the first fault of an image: which byte, which clause", () => {
  const session = Session.begin();
  session.run(toSteps("root text 1\nroot text 2\nletter to 0 text 3\nletter to 1 text 4\n").steps);
  assert.equal(fault(session.image), null);
  assert.throws(() => fault(new Uint8Array(IMAGE + 1)), e => e.number === 16);
  for (const [byte, value, at, clause] of FAULTS) {
    const image = session.image;
    image[byte] = value;
    assert.deepEqual(fault(image), { at, clause }, `byte ${byte} is ${value}`);
    assert.throws(() => Session.fromImage(image), e => e.number === 19);
  }
});
