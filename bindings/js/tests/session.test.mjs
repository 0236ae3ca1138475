// Document 01's session byte for byte, and long mixed lists against sums of an independent model.
import { test } from "node:test";
import assert from "node:assert/strict";
import { readFileSync } from "node:fs";
import { createHash } from "node:crypto";
import { loadFrom } from "../node.mjs";
import { Session, play } from "../ledger.mjs";
import { packStep, readReply, joined } from "../packed.mjs";
import { readHeads } from "../image.mjs";

await loadFrom();
const file = name => readFileSync(new URL(`../../../crates/${name}`, import.meta.url));
const sha = bytes => createHash("sha256").update(bytes).digest("hex");

// Document 01, "Edges and a full session": the input in words, and the lines that replay prints.
const SESSION = joined([
  packStep("root", { text: 7 }),
  packStep("root", { text: 8 }),
  packStep("letter", { take: 0, text: 5 }),
  packStep("receive", { parcel: 0 }),
  packStep("write", { take: 0, text: 9 }),
  packStep("send", { take: 0, other: 1, text: 9 }),
  packStep("receive", { parcel: 1 }),
  packStep("write", { take: 1, text: 10 }),
  packStep("freeze", { take: 1 }),
  packStep("sign", { parcel: 2 }),
  packStep("freeze", { take: 0 }),
  packStep("sign", { parcel: 3 }),
  packStep("fail", { take: 0 }),
]);
const LINES = `1 0 0 0 0
2 0 1 0 0
3 0 0 0 0
4 0 0 0 5
5 0 0 0 0
6 0 0 1 0
7 0 1 1 9
8 0 1 0 0
9 0 1 0 0
10 5 0 0 0
11 0 0 0 0
12 0 0 0 0
13 3 0 0 0
`;
const lines = replies => Array.from({ length: replies.length / 8 }, (_, i) => {
  const r = readReply(replies, i);
  return `${i + 1} ${r.outcome} ${r.take} ${r.parcel} ${r.text}\n`;
}).join("");

test("document 01's session, by the ledger and by the engine", () => {
  assert.deepEqual(SESSION, new Uint8Array(file("replay/stdin").subarray(0, 104)));
  assert.equal(lines(Session.begin().run(SESSION)), LINES);
  assert.equal(lines(play(SESSION)), LINES);
});

test("the session in two parts, stored and loaded between them", () => {
  const first = Session.begin(), a = first.run(SESSION, 0, 48);
  const second = Session.fromImage(first.image), b = second.run(SESSION, 48, 104);
  assert.equal(lines(joined([a, b])), LINES);
  const heads = readHeads(second.image);
  assert.deepEqual(heads.map(h => [h.status, h.text, h.saved, h.mark.list, h.mark.n]), [["idle", 9, 9, [0], 1], ["idle", 10, 10, [0], 0]]);
});

function adler32(bytes) {
  let a = 1, b = 0;
  for (const byte of bytes) {
    a = (a + byte) % 65521;
    b = (b + a) % 65521;
  }
  return b * 65536 + a;
}

test("20,000 mixed steps: each part's last reply and the sums of its replies and of the image", () => {
  const list = new Uint8Array(file("test_mixed/stdin")), expected = file("test_mixed/stdout").toString().trim().split("\n");
  assert.equal(expected.length, 80);
  let session = Session.begin();
  expected.forEach((line, i) => {
    if (i % 8 === 0) session = Session.begin();
    if (i % 32 === 24) session = withNextParcel(session, 65280);
    const replies = session.run(list, 2000 * i, 2000 * (i + 1)), last = readReply(replies, 249);
    const numbers = [250 * (i + 1), last.outcome, last.take, last.parcel, last.text, adler32(replies), adler32(session.image)];
    assert.equal(numbers.join(" "), line);
  });
});

function withNextParcel(session, number) {
  const image = session.image;
  new DataView(image.buffer).setUint16(1, number);
  return Session.fromImage(image);
}

test("24 lists of 1,024 steps with limits of all kinds: sums of replies and image, ledger and engine", () => {
  const sums = JSON.parse(readFileSync(new URL("sums.json", import.meta.url), "utf8")), input = new Uint8Array(file("test_engine/stdin"));
  sums.forEach((sum, i) => {
    const list = input.slice(8200 * i + 8, 8200 * (i + 1)), session = Session.begin(sum.limits), replies = session.run(list);
    assert.equal(sha(replies), sum.replies);
    assert.equal(sha(session.image), sum.image);
    assert.deepEqual(play(list, sum.limits), replies);
  });
});
