// An example of each call in JavaScript; docs/CALLS.md shows them, tests/calls runs them.
import assert from "node:assert/strict";
import { loadFrom } from "../../bindings/js/node.mjs";
import { Refusal, Session, back, compare, fault, forward, play, refusalText, worstWindow } from "../../bindings/js/ledger.mjs";
import { imageText, replyText, toSteps, toText } from "../../bindings/js/notation.mjs";
import { readReply } from "../../bindings/js/packed.mjs";

await loadFrom();

/** Take 0 is the names, take 1 a page that was set from them and is frozen; parcel 2 waits. */
function hearing() {
  const session = Session.begin();
  session.run(toSteps(
    "root text 7\nroot text 8\nletter to 0 text 5\nreceive 0\nwrite 0 text 9\nsend 0 to 1 text 9\n" +
    "receive 1\nwrite 1 text 10\nfreeze 1\nsend 0 to 1 text 11\n"
  ).steps);
  return session;
}

const one = (text) => toSteps(text + "\n").steps;

export function ledger_begin() {
  const session = Session.begin({ takes: 4, parcels: 8, signings: 15 });
  assert.equal(session.image.length, 42616);
}

export function ledger_run() {
  const replies = Session.begin().run(toSteps("root text 7\nletter to 0 text 5\nreceive 0\n").steps);
  assert.deepEqual(readReply(replies, 2), { outcome: 0, take: 0, parcel: 0, text: 5 });
}

export function ledger_offer() {
  assert.equal(hearing().offer(1), 2);
  assert.equal(hearing().offer(0), null);
}

export function ledger_show() {
  assert.equal(hearing().show(2).length, 528);
}

export function ledger_smallest_group() {
  const session = hearing();
  assert.equal(session.smallestVolume(1), null);
  session.run(one("freeze 0"));
  assert.equal(session.smallestVolume(1), 0b11); // takes 0 and 1
}

export function ledger_ready_count() {
  const session = hearing();
  session.run(one("freeze 0"));
  assert.equal(session.readyCount(1), 1); // the names alone
  assert.equal(session.readyCount(2), 1); // the names and the page
}

export function ledger_all_heard_stable() {
  assert.equal(hearing().allHeardFrozen(1), false); // the names were not frozen when they sent
}

export function ledger_dependents() {
  const reached = hearing().dependents(0);
  assert.equal(reached.through, 0b11);
  assert.equal(reached.carried, 1); // parcel 2
}

export function ledger_obstacle() {
  assert.deepEqual(hearing().obstacle(0b10), { kind: "outside", take: 1, ground: 0 });
}

export function ledger_impediment() {
  const { kind, take } = hearing().impediment(1);
  assert.deepEqual({ kind, take }, { kind: "not frozen", take: 0 });
}

export function ledger_actor() {
  assert.equal(hearing().actor(one("write 1 text 3")).takes, 0b10);
  assert.equal(hearing().actor(one("receive 2")).takes, 0b10);
  assert.equal(hearing().actor(one("root text 1")).kind, "the house");
}

export function ledger_plan() {
  assert.equal(toText(hearing().plan(1)), "freeze 0\nsign {0,1}\n");
}

export function ledger_fault() {
  const damaged = hearing().image;
  damaged[7] = 1;
  assert.deepEqual(fault(damaged), { at: 7, clause: 1 }); // byte 7, clause 1 of the form
}

export function ledger_thin() {
  const kept = Session.begin().thin(toSteps("root text 1\nread 0\nroot text 2\n").steps);
  assert.equal(toText(kept), "root text 1\nroot text 2\n"); // the read was refused
}

export function ledger_forward() {
  const old = back(hearing().image);
  assert.deepEqual(forward(old), hearing().image);
}

export function ledger_back() {
  const small = Session.begin({ takes: 4 }).image;
  assert.throws(() => back(small), (e) => e instanceof Refusal && e.number === 32); // the old form has no limits
}

export function ledger_worst_window() {
  const replies = Session.begin().run(toSteps("root text 1\nfail 0\nroot text 2\nfail 1\n").steps);
  assert.deepEqual(worstWindow(replies, 3), { count: 2, place: 1 });
}

export function engine_play() {
  const { steps } = toSteps("root text 7\nletter to 0 text 5\nreceive 0\n");
  assert.deepEqual(play(steps), Session.begin().run(steps));
}

export function looking_decision() {
  const session = hearing();
  session.run(one("done 1")); // only an idle take receives
  assert.equal(session.decision(2).outcome, 0); // it would be taken in
}

export function looking_compare() {
  const own = hearing().image.slice(8 + 9, 8 + 9 + 33); // the own mark of take 0
  assert.equal(compare(own, own).relation, "same life");
}

export function looking_independent() {
  const session = hearing();
  assert.equal(session.independent(one("freeze 0"), one("done 1")), true);
  assert.equal(session.independent(one("root text 1"), one("root text 2")), false);
}

export function notation_parse() {
  assert.deepEqual(toSteps("read 16\n").fault, { line: 1, column: 6, expected: "a take, 0 to 15" });
}

export function notation_refusal_text() {
  assert.equal(refusalText(19), "image ill-formed");
}

export function notation_print() {
  assert.equal(toText(one("sign {1, 0}")), "sign {0,1}\n");
}

export function notation_reply() {
  const steps = one("root text 7");
  assert.equal(replyText(steps, Session.begin().run(steps), 0), "done take 0");
}

export function notation_image() {
  assert.ok(imageText(hearing().image).startsWith("limits: takes 16, parcels 32, signings 15\n"));
}
