// The picture: one mark for each state wherever it stands, what is signed stays marked, what a withdrawal reaches is hatched from then on
// and changes in the order of its cause; the strip of lives; the two sets of a signing; the picture's place on the screen.
import assert from "node:assert/strict";
import { readFileSync } from "node:fs";
import { loadFrom } from "../../bindings/js/node.mjs";
import { Session } from "../../bindings/js/ledger.mjs";
import { takesOf } from "../../bindings/js/packed.mjs";
import { toSteps } from "../../bindings/js/notation.mjs";
import { listed } from "./steps.mjs";
import { student } from "./student.mjs";

const ONE = "lesson=01-frozen-and-signed&screen=", TWO = "lesson=02-what-a-withdrawal-reaches&screen=", THREE = "lesson=03-the-count-restarts&screen=";
const STATES = ["draft", "frozen", "signed", "gone", "vanished"], ROW = 26;

/** The middle of a step's row, in the lanes. */
const rowY = i => ROW * (i - 0.5);

export async function pictureChecks(context) {
  await marks(context);
  await lanes(context);
  await spreading(context);
  await halo(context);
  await lives(context);
  await twoSets(context);
  await places(context);
}

async function marks({ browser, check, url }) {
  const drawn = () => browser.eval(`[...document.querySelectorAll("main:not([hidden]) .mark")].map(m => [m.getAttribute("class").split(" m-")[1], m.innerHTML])`);
  const views = { "the first page": "", cards: `${TWO}2`, "the two sets": `${TWO}5`, lanes: listed("10-frozen-is-not-signed", 33), desk: "view=desk" }, found = new Map(STATES.map(s => [s, new Set()]));
  await check("each state has one mark: on cards, chips and in lists, in lanes and their legend, at the desk and on paper", async () => {
    for (const [name, hash] of Object.entries(views)) {
      await browser.go(`${url}#${hash}`);
      if (name === "desk") await browser.click("#desk-example");
      if (name === "desk") await browser.eval(`window.dispatchEvent(new Event("beforeprint"))`);
      const here = (await drawn()).filter(([state]) => STATES.includes(state));
      for (const [state, shape] of here) found.get(state)?.add(shape);
      assert.ok(new Set(here.map(([state]) => state)).size >= 2, name);
    }
    for (const [state, shapes] of found) assert.equal(shapes.size, 1, `${state} is drawn in ${shapes.size} ways`);
    assert.equal(new Set([...found.values()].flatMap(s => [...s])).size, STATES.length);
    await browser.forget();
  });
}

async function lanes({ browser, check, url }) {
  const spans = name => browser.eval(`[...document.querySelectorAll("#course-rows .picture .${name}")].map(e => [Number(e.getAttribute("y")), Number(e.getAttribute("height"))])`);
  await check("from its signing on a lane keeps its band, whatever comes; a card keeps its seal and what was signed", async () => {
    await browser.go(`${url}#${listed("10-frozen-is-not-signed", 34)}`);
    const end = ROW * 34, signed = [10, 6];
    assert.deepEqual(await spans("kept"), signed.map(i => [rowY(i), end - rowY(i)]));
    await browser.go(`${url}#${ONE}6`);
    const names = `.stage [data-take="0"]`;
    assert.equal(await browser.eval(`document.querySelector('${names}').dataset.state`), "draft");
    assert.ok((await browser.place(`${names} .stamp`)).height > 0);
    assert.match(await browser.text(`${names} .trace`), /signed: “Mr\. Abara”/);
  });
  await check("what a withdrawal reaches, by the library, is hatched from the withdrawal on, and nothing else", async () => {
    await loadFrom();
    const text = readFileSync(new URL("lists/20-what-a-withdrawal-reaches.steps", import.meta.url), "utf8"), { steps } = toSteps(text), session = Session.begin(), withdrawal = 19;
    assert.ok(steps);
    session.runAll(steps.subarray(0, 8 * (withdrawal - 1)));
    const reached = takesOf(session.dependents(0).through).filter(t => t !== 0);
    assert.deepEqual(reached, [1, 2]);
    await browser.go(`${url}#${listed("20-what-a-withdrawal-reaches", 25)}`);
    assert.deepEqual((await spans("ground-gone")).map(([y]) => y), reached.map(() => rowY(withdrawal)));
    assert.equal((await spans("dead")).length, 1);
  });
}

/** What is seen of the picture over time. */
async function spreading({ browser, check, url }) {
  const me = student(browser), watch = `window.seen = [], new MutationObserver(() => {
    const now = [...document.querySelectorAll(".stage [data-take]")].sort((a, b) => a.dataset.take - b.dataset.take).map(c => c.dataset.state).slice(0, 3).join(" ");
    if (now && now !== window.seen.at(-1)) window.seen.push(now);
  }).observe(document.querySelector(".stage"), { childList: true, subtree: true, attributes: true }), 0`;
  const settled = () => browser.until(`document.querySelector(".stage").dataset.late === "0"`);
  await check("a withdrawal is seen to spread: first what is withdrawn, then what was set from it, then what was set from that", async () => {
    await browser.go(`${url}#${TWO}2`);
    await browser.eval(watch);
    await me.pick({ kind: "takes" }, [1, 2]);
    assert.match((await me.said())[1], /^Right\./);
    await settled();
    assert.deepEqual(await browser.eval(`window.seen.slice(-3)`), ["vanished frozen frozen", "vanished gone frozen", "vanished gone gone"]);
  });
  await check("so is a deed of the student's own; a reader who wants no motion sees the end at once", async () => {
    for (const [value, moments] of [["no-preference", ["vanished draft", "vanished gone"]], ["reduce", ["vanished gone"]]]) {
      await browser.send("Emulation.setEmulatedMedia", { features: [{ name: "prefers-reduced-motion", value }] });
      await browser.go(`${url}#${ONE}2`);
      await browser.eval(watch);
      await me.press(`[data-deed="withdraw 0"]`);
      await settled();
      assert.deepEqual((await browser.eval(`window.seen`)).filter(s => s !== "draft draft"), moments);
    }
    await browser.send("Emulation.setEmulatedMedia", { features: [] });
  });
}

/** What lights up after the answer: the cards of the answer, as the keys have it, and the lines between them and what the question is about. */
async function halo({ browser, check, url }) {
  const me = student(browser), lit = () => browser.eval(`[...document.querySelectorAll(".stage .card.lit")].map(c => Number(c.dataset.take)).sort((a, b) => a - b)`);
  const lines = () => browser.eval(`document.querySelectorAll(".stage .line.lit-line").length`);
  /** @type {[string, number[], number, boolean?][]} */
  const screens = [[`${ONE}1`, [1], 1, true], [`${TWO}1`, [0, 1], 2], [`${TWO}2`, [1, 2], 2], [`${TWO}4`, [4], 1], [`${TWO}6`, [3, 4], 2]];
  await check("the right answer lights up its own cards, and of the lines those alone that lead to what is withdrawn or come from what is asked about", async () => {
    await browser.send("Emulation.setEmulatedMedia", { features: [{ name: "prefers-reduced-motion", value: "reduce" }] });
    for (const [screen, right, ways, one] of screens) {
      await browser.go(`${url}#${screen}`);
      await me.pick({ kind: "takes", one }, right);
      assert.match((await me.said())[1], /^Right\./);
      assert.deepEqual([await lit(), await lines()], [right, ways], screen);
    }
    await browser.send("Emulation.setEmulatedMedia", { features: [] });
  });
}

async function lives({ browser, check, url }) {
  const me = student(browser);
  await check("the strip: lives from left to right in the order of time, fallen ones struck out, a seal at each signing, the newer life 0 right of life 2 and lower", async () => {
    await browser.go(`${url}#${THREE}2`);
    const boxes = await browser.eval(`[...document.querySelectorAll(".stage .life")].map(l => (r => ({ n: l.querySelector(".n").textContent, left: r.left, right: r.right, foot: r.bottom, struck: getComputedStyle(l.querySelector(".n")).textDecorationLine }))(l.getBoundingClientRect()))`);
    assert.deepEqual(boxes.map(b => b.n), ["0", "0", "1", "2", "0"]);
    assert.deepEqual(boxes.map(b => b.struck), ["none", "line-through", "line-through", "none", "none"]);
    for (let i = 1; i < boxes.length; i++) assert.ok(boxes[i].left >= boxes[i - 1].right - 1, `box ${i}`);
    assert.ok(boxes[4].foot > boxes[3].foot + 10);
    const seals = await browser.eval(`[...document.querySelectorAll(".stage .gap-seal")].map(s => s.getBoundingClientRect().left)`);
    assert.deepEqual(seals.map(x => boxes.filter(b => b.left < x).length), [1, 4]);
  });
  await check("on a phone the strip stays in one row, each life right of the one before, and what may come next at its end", async () => {
    await browser.size(390, 844);
    for (const screen of [1, 2]) {
      await browser.go(`${url}#${THREE}${screen}`);
      const boxes = await browser.eval(`[...document.querySelectorAll(".stage .life:not(.slot), .stage .fork")].map(l => (r => [r.left, r.right])(l.getBoundingClientRect()))`);
      assert.equal(boxes.length, 5);
      for (let i = 1; i < boxes.length; i++) assert.ok(boxes[i][0] >= boxes[i - 1][1] - 1, `screen ${screen}, box ${i}`);
      assert.ok(boxes[4][1] <= 390);
    }
    await browser.size(1500, 950);
  });
  await check("how a life ended is drawn, and said in a word only after the question about it is answered", async () => {
    await browser.go(`${url}#${THREE}3`);
    const words = () => browser.eval(`[...document.querySelectorAll(".stage .life")].map(l => l.querySelector(".n + .w")?.textContent ?? "")`);
    assert.deepEqual(await words(), ["", "", "", "", "now"]);
    await me.pick({ kind: "lives" }, [1, 2]);
    assert.deepEqual(await words(), ["signed", "withdrawn", "withdrawn", "signed", "now"]);
    await browser.go(`${url}#${THREE}2`);
  });
  await check("the strip has each life's mark (L; n) behind the notation's switch", async () => {
    assert.deepEqual(await browser.all(".stage .life .code"), []);
    await me.press(`[data-focus="details"]`);
    await me.press(`[data-focus="codes"]`);
    assert.deepEqual(await browser.all(".stage .life .code"), ["(empty; 0)", "(0; 0)", "(0; 1)", "(0; 2)", "(0,2; 0)"]);
  });
}

async function twoSets({ browser, check, url }) {
  const me = student(browser), pairs = kind => browser.all(`.sets .pair.${kind} [data-chip]`);
  await check("the two sets of a signing stand side by side, and what is in one and not in the other stands out, here and in the picture", async () => {
    await browser.go(`${url}#${ONE}4`);
    assert.equal(await browser.eval(`getComputedStyle(document.querySelector(".sets .hole")).visibility`), "hidden");
    await me.press(`.sets [data-chip="0"]`);
    assert.deepEqual([await pairs("alone"), await pairs("paired")], [["The names"], ["Page 12"]]);
    assert.match(await browser.text(".sets .hole"), /missing not in the volume/);
    assert.notEqual(await browser.eval(`getComputedStyle(document.querySelector(".pair.alone .chip")).boxShadow`), "none");
    assert.deepEqual(await browser.eval(`[...document.querySelectorAll(".stage .card.lit")].map(c => c.dataset.take)`), ["0"]);
    await browser.eval(`document.querySelector('.sets [data-chip="1"]').dispatchEvent(new PointerEvent("pointerover", { bubbles: true }))`);
    assert.deepEqual(await browser.eval(`[...document.querySelectorAll(".stage .card.pointed")].map(c => c.dataset.take)`), ["1"]);
  });
}

async function places({ browser, check, url }) {
  await check("the picture has the width, and the question is pinned beside it", async () => {
    for (const [wide, high] of [[1400, 900], [1024, 768]]) {
      await browser.size(wide, high);
      await browser.go(`${url}#${TWO}2`);
      const stage = await browser.place(".stage"), ask = await browser.place(".ask"), say = await browser.place(".say");
      assert.ok(stage.width > 1.6 * ask.width && stage.x < ask.x && Math.abs(say.x - ask.x) < 2, JSON.stringify({ stage, ask, say }));
    }
    await browser.size(1500, 950);
  });
}
