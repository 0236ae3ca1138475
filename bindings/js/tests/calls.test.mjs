// The questions, conversions and passes on small sessions; expected answers by hand.
import { test } from "node:test";
import assert from "node:assert/strict";
import { loadFrom } from "../node.mjs";
import { Session, forward, back, worstWindow, field, compare, IMAGE, OLD_IMAGE } from "../ledger.mjs";
import { packStep, joined, readReply } from "../packed.mjs";
import { readImage, readMap, fieldAt, firstDifference, packMark, life } from "../image.mjs";
import { toSteps, toText, replyText, imageText } from "../notation.mjs";

await loadFrom();
const steps = text => toSteps(text).steps;

// Names (0), a page set from them (1), a page set from that page (2), a page of its own (3).
const GROUNDS = `root text 1
root text 2
root text 3
root text 4
letter to 0 text 5
receive 0
send 0 to 1 text 6
receive 1
write 1 text 7
freeze 1
done 1
letter to 1 text 0
receive 2
send 1 to 2 text 8
receive 3
write 2 text 9
freeze 2
`;

function grounds() {
  const session = Session.begin();
  session.run(steps(GROUNDS));
  return session;
}

test("offer, show", () => {
  const session = Session.begin();
  session.run(steps("root text 1\nletter to 0 text 5\nreceive 0\nsend 0 to 0 text 6\nletter to 0 text 7\n"));
  assert.equal(session.offer(0), 1);
  assert.deepEqual(readMap(session.show(1)).map(m => m && life(m)), ["(empty; 0)", ...Array(15).fill(null)]);
  assert.ok(session.show(2).every(b => b === 0));
  session.run(steps("done 0\nreceive 1\n"));
  assert.equal(session.offer(0), 2);
  session.run(steps("lose 2\n"));
  assert.equal(session.offer(0), null);
});

test("smallest volume, ready counts, obstacle, dependents", () => {
  const session = grounds();
  assert.equal(session.smallestVolume(2), null);
  assert.deepEqual(session.obstacle(0b0100), { kind: "outside", take: 2, ground: 1 });
  assert.deepEqual(session.obstacle(0b0110), { kind: "outside", take: 1, ground: 0 });
  assert.deepEqual(session.obstacle(0b0111), { kind: "not frozen", take: 0, ground: 0 });
  assert.deepEqual(session.dependents(0), { resting: 0b0011, through: 0b0111, unfinished: 0, carried: 0 });
  session.run(steps("freeze 0\n"));
  assert.equal(session.smallestVolume(2), 0b0111);
  assert.deepEqual([1, 2, 3].map(size => session.readyCount(size)), [1, 1, 1]);
  assert.equal(session.obstacle(0b0111).kind, "nothing");
});

test("why no volume exists: what is in the way, and the chain to it", () => {
  const session = grounds();
  assert.deepEqual(session.impediment(2), { kind: "not frozen", take: 0, ground: 0, next: 1 });
  assert.deepEqual(session.impediment(1), { kind: "not frozen", take: 0, ground: 0, next: 0 });
  session.run(steps("freeze 0\n"));
  assert.deepEqual(session.impediment(2), { kind: "nothing", take: 0, ground: 0, next: 0 });
  const fallen = grounds();
  fallen.run(steps("fail 0\n"));
  assert.deepEqual(fallen.impediment(2), { kind: "withdrawn", take: 1, ground: 0, next: 1 });
  assert.deepEqual(fallen.impediment(1), { kind: "withdrawn", take: 1, ground: 0, next: 1 });
});

test("what is left to do: the steps, run on a copy, sign the take", () => {
  const session = grounds();
  assert.equal(toText(session.plan(2)), "freeze 0\nsign {0,1,2}\n");
  const replies = session.copy().run(session.plan(2));
  assert.deepEqual([0, 1].map(i => readReply(replies, i).outcome), [0, 0]);
  session.run(steps("done 0\n"));
  assert.equal(toText(session.plan(1)), "letter to 0 text 0\nreceive 4\nfreeze 0\nsign {0,1}\n");
  session.run(steps("fail 0\n"));
  assert.equal(session.plan(1).length, 0);
  assert.equal(session.impediment(1).kind, "withdrawn");
});

test("a plan without steps for lack of room: impediment tells it apart", () => {
  const session = Session.begin({ parcels: 1 });
  session.run(steps("root text 1\nroot text 2\nletter to 1 text 3\n"));
  assert.equal(session.plan(0).length, 0);
  assert.equal(session.impediment(0).kind, "not frozen");
  session.run(steps("lose 0\n"));
  assert.equal(toText(session.plan(0)), "letter to 0 text 0\nreceive 1\nfreeze 0\nsign {0}\n");
});

test("independent steps leave the same image in either order", () => {
  const session = Session.begin();
  session.run(steps("root text 1\nroot text 2\nletter to 0 text 3\nreceive 0\nletter to 1 text 4\nreceive 1\n"));
  const [a, b, c] = ["write 0 text 5\n", "write 1 text 6\n", "read 0\n"].map(steps);
  assert.equal(session.independent(a, b), true);
  const [one, other] = [session.copy(), session.copy()];
  one.run(a), one.run(b), other.run(b), other.run(a);
  assert.deepEqual(one.image, other.image);
  assert.equal(session.independent(a, c), false);
  assert.equal(session.independent(steps("letter to 0 text 1\n"), steps("letter to 1 text 2\n")), false);
});

test("all signings used up", () => {
  const session = Session.begin({ signings: 1 });
  session.run(steps("root text 1\nletter to 0 text 1\nreceive 0\nfreeze 0\nsign {0}\n"));
  assert.deepEqual(session.impediment(0), { kind: "all signed", take: 0, ground: 0, next: 0 });
});

test("withdrawn ground; all heard frozen", () => {
  const session = grounds();
  assert.equal(session.allHeardFrozen(1), false);
  assert.equal(session.allHeardFrozen(3), true);
  session.run(steps("fail 0\n"));
  assert.deepEqual(session.obstacle(0b0010), { kind: "withdrawn", take: 1, ground: 0 });
  assert.equal(session.smallestVolume(1), null);
});

test("a copy goes its own way", () => {
  const session = grounds(), copy = session.copy();
  copy.run(steps("fail 3\n"));
  assert.notDeepEqual(copy.image, session.image);
  assert.deepEqual(session.image, grounds().image);
});

test("thin: refused steps and unused reads go, the rest gives the same image", () => {
  const list = steps("root text 1\nread 0\nletter to 0 text 5\nreceive 0\nread 0\ndone 0\nreceive 9\n"), session = Session.begin();
  const short = session.thin(list);
  assert.deepEqual(short, steps("root text 1\nletter to 0 text 5\nreceive 0\ndone 0\n"));
  const whole = session.copy();
  whole.run(list);
  session.run(short);
  assert.deepEqual(session.image, whole.image);
});

test("conversions: old form and back", () => {
  const image = grounds().image, old = back(image);
  assert.equal(old.length, OLD_IMAGE);
  assert.deepEqual(forward(old), image);
});

test("worst window", () => {
  const replies = joined([0, 3, 0, 4, 3, 0].map(outcome => Uint8Array.of(outcome, 0, 0, 0, 0, 0, 0, 0)));
  assert.deepEqual(worstWindow(replies, 2), { count: 2, place: 3 });
  assert.deepEqual(worstWindow(replies, 1), { count: 1, place: 1 });
  assert.deepEqual(worstWindow(replies, 256), { count: 3, place: 0 });
  assert.deepEqual(worstWindow(new Uint8Array(0), 5), { count: 0, place: 0 });
});

test("an image unpacked", () => {
  const { opened, next, limits, takes, parcels } = readImage(grounds().image);
  assert.deepEqual([opened, next, limits, parcels], [4, 4, { takes: 16, parcels: 32, signings: 15 }, []]);
  const expected = [["at work", 1, 0, false], ["at work", 7, 0, true], ["at work", 9, 0, true], ["idle", 4, 0, false]];
  assert.deepEqual(takes.map(t => [t.status, t.text, t.saved, t.mark.frozen]), expected);
  assert.deepEqual(takes[2].state.map((m, u) => (m ? u : null)).filter(u => u !== null), [1, 2]);
});

test("the field of a byte, and the first difference", () => {
  assert.equal(fieldAt(8 + 1593 * 3 + 9 + 33 * 5 + 2), "take 3, state map, mark of take 5, life number");
  assert.equal(fieldAt(25496 + 535 + 4), "parcel place 2, text");
  assert.equal(fieldAt(42615), "parcel place 32, map, mark of take 15, entry 15 of its list");
  const a = grounds(), b = grounds();
  assert.equal(firstDifference(a.image, b.image), null);
  b.run(steps("freeze 0\n"));
  const field = "take 0, state map, mark of take 0, presence, frozen flag and count of signings";
  assert.deepEqual(firstDifference(a.image, b.image), { offset: 17, field, left: "(empty; 0)", right: "(empty; 0) frozen" });
});

test("every byte of an image has a field of its own, and none past it", () => {
  const none = { kind: 0, holder: 0, map: 0, ground: 0, entry: 0, byte: 0 }, said = new Set();
  assert.deepEqual(field(2), { ...none, kind: 2, byte: 1 });
  assert.deepEqual(field(8 + 1593 * 15), { ...none, kind: 8, holder: 15 });
  assert.deepEqual(field(8 + 1593 * 2 + 8), { ...none, kind: 10, holder: 2, byte: 3 });
  assert.deepEqual(field(8 + 1593 + 9 + 528 * 2 + 33 * 4 + 3), { kind: 16, holder: 1, map: 2, ground: 4, entry: 0, byte: 0 });
  assert.deepEqual(field(IMAGE - 1), { kind: 16, holder: 31, map: 3, ground: 15, entry: 14, byte: 1 });
  for (const past of [IMAGE, 2 ** 40]) assert.deepEqual(field(past), none);
  for (let o = 0; o < IMAGE; o++) said.add(Object.values(field(o)).join(" "));
  assert.equal(said.size, IMAGE);
});

/** (L; n), frozen if so said. */
const mark = (list, n, frozen = false) => packMark({ frozen, n, list });

test("two marks compared: document 01's edges", () => {
  const says = (a, b, relation, newer) => assert.deepEqual(compare(a, b), { relation, newer });
  says(mark([], 0), mark([], 1), "left withdrawn", "right");
  says(mark([], 0), mark([0], 0), "left signed", "right");
  says(mark([0], 0), mark([0, 1], 0), "left withdrawn", "right");
  says(mark([0], 1), mark([0, 1], 0), "left signed", "right");
  says(mark([0], 0), mark([0], 0, true), "same life", "right");
  says(mark([0], 0, true), mark([0], 0), "same life", "left");
  says(mark([0, 1], 0), mark([0], 5), "unrelated", "left");
  says(mark([], 1), mark([0], 0), "unrelated", "right");
  says(mark([0], 4), mark([0], 3), "right withdrawn", "left");
  says(mark([2, 7], 0), mark([2], 7), "right signed", "left");
  for (const bytes of [mark([], 0).subarray(1), new Uint8Array(34)]) assert.throws(() => compare(bytes, mark([], 0)), e => e.number === 16);
  for (const wrong of [new Uint8Array(33), mark([], 0).fill(1, 5, 6), mark([], 0).fill(144, 0, 1)]) assert.throws(() => compare(mark([], 0), wrong), e => e.number === 19);
});

// Take 2 is signed, sends parcel 2, falls, and sends parcel 4, which shows that the life behind parcel 2 fell.
const TWO_LIVES = `root text 1\nroot text 2\nroot text 3
letter to 2 text 0\nreceive 0\nfreeze 2\nsign {2}
letter to 2 text 0\nreceive 1\nsend 2 to 1 text 8\nfail 2
letter to 2 text 0\nreceive 3\nsend 2 to 1 text 9
`;

test("what a receipt would do, and whose mark decides", () => {
  const session = Session.begin(), refused = (number, parcel, on = session) => assert.throws(() => on.decision(parcel), e => e.number === number);
  session.run(steps(TWO_LIVES));
  for (const parcel of [2, 4]) assert.deepEqual(session.decision(parcel), { outcome: 0, take: 0 });
  refused(24, 0);
  const [older, newer] = [session.copy(), session.copy()];
  older.run(steps("receive 4\nwrite 1 text 5\n"));
  refused(23, 2, older);
  older.run(steps("done 1\n"));
  assert.deepEqual(older.decision(2), { outcome: 2, take: 2 });
  newer.run(steps("receive 2\nwrite 1 text 5\ndone 1\n"));
  assert.deepEqual(newer.decision(4), { outcome: 4, take: 2 });
  const signed = session.copy();
  signed.run(steps("letter to 1 text 0\nreceive 5\nfreeze 1\nsign {1}\nreceive 2\nwrite 1 text 5\ndone 1\n"));
  assert.deepEqual(signed.decision(4), { outcome: 3, take: 2 });
  session.run(steps("fail 1\n"));
  refused(22, 2);
  assert.throws(() => new Session(new Uint8Array(9)).decision(0), e => e.number === 16);
  assert.throws(() => new Session(new Uint8Array(IMAGE)).decision(0), e => e.number === 19);
});

test("text to steps and back", () => {
  assert.deepEqual(steps("  sign { 1 , 0,1 } # both\r\n\n"), packStep("sign", { parcel: 3 }));
  assert.equal(toText(steps(GROUNDS)), GROUNDS);
  assert.equal(toText(Uint8Array.of(0xd0, 0, 0, 0, 0, 0, 0, 1)), "raw d000000000000001\n");
  const fault = (text, line, column, expected) => assert.deepEqual(toSteps(text).fault, { line, column, expected }, text);
  fault("root text 7\nsign 3\n", 2, 6, "a volume in braces");
  fault("read 16\n", 1, 6, "a take, 0 to 15");
  fault("send 0 to x", 1, 11, "an addressee, a take, 0 to 15");
  fault("\nopn 0", 2, 1, "a kind of step");
  fault("root text", 1, 10, "a text, 0 to 4294967295");
  fault("raw 12", 1, 5, "16 hexadecimal digits");
  fault("read 0 1", 1, 8, "the end of the line");
});

test("a list longer than one part, to text and back", () => {
  const list = joined(Array.from({ length: 2500 }, (_, i) => packStep("write", { take: i % 16, text: i })));
  assert.equal(toText(list).split("\n")[2499], "write 3 text 2499");
  assert.deepEqual(steps(toText(list)), list);
});

test("replies in words", () => {
  const list = steps("root text 7\nletter to 0 text 5\nreceive 0\nread 0\nsign {0}\nfreeze 0\nfail 0\nfail 1\nsign {}\n");
  const replies = Session.begin().run(list), told = Array.from({ length: list.length / 8 }, (_, i) => replyText(list, replies, i));
  assert.deepEqual(told.slice(0, 4), ["done take 0", "done take 0 parcel 0", "done take 0 parcel 0 text 5", "done take 0 text 7"]);
  assert.deepEqual(told.slice(4, 7), ["not ready", "done take 0", "held take 0"]);
  assert.match(told[7], /^refused 21: /);
  assert.match(told[8], /^refused 29: /);
  assert.equal(replyText(list, replies, 9), "");
});

test("an image in words", () => {
  const session = Session.begin({ takes: 4, parcels: 8, signings: 2 });
  session.run(steps("root text 7\nroot text 8\nletter to 0 text 5\nreceive 0\nsend 0 to 1 text 9\nfail 1\nfreeze 0\n"));
  assert.equal(imageText(session.image), `limits: takes 4, parcels 8, signings 2
opened 2, next parcel 2
take 0: at work, text 7, saved 0
  state: take 0 (empty; 0) frozen
take 1: vanished
parcel 1 to 1, text 9
  map: take 0 (empty; 0)
`);
  assert.throws(() => imageText(new Uint8Array(8)), { number: 16 });
  assert.throws(() => imageText(new Uint8Array(42616)), { number: 19 });
});
