// The lessons: their data against the schema, the ledger's answers against keys written by hand from the documents, and every screen
// clicked through as a student would, with each wrong answer once.
import assert from "node:assert/strict";
import { execFileSync } from "node:child_process";
import { readFileSync, readdirSync } from "node:fs";
import { loadFrom } from "../../bindings/js/node.mjs";
import { play } from "../../bindings/js/ledger.mjs";
import { REFUSED } from "../src/shared/words.mjs";
import { student } from "./student.mjs";

const folder = new URL("../lessons/", import.meta.url), quoted = JSON.stringify;
const files = readdirSync(folder).filter(f => /^\d.*\.json$/.test(f)).sort();
const lessons = files.map(f => ({ name: f.slice(0, -5), ...JSON.parse(readFileSync(new URL(f, folder), "utf8")) }));
const expected = JSON.parse(readFileSync(new URL("keys.json", import.meta.url), "utf8"));

export async function lessonsChecks(context) {
  await data(context);
  await students(context);
  await manners(context);
}

/** What the page makes of the lessons, without a browser. */
async function library() {
  globalThis.window ??= /** @type {any} */ ({ addEventListener() {} });
  await loadFrom();
  return { ...(await import("../src/course/lessons.mjs")), ...(await import("../src/course/answers.mjs")) };
}

/** All that can be chosen on a screen. */
function choicesOf(screen, { record, count }, right) {
  if (screen.choices) return screen.choices.map(c => c.is);
  if (screen.kind === "hour") return [...right, "fewer", "later"];
  if (screen.kind === "takes") return (screen.shown ?? record.heads[count].map((_, t) => t));
  if (screen.kind === "lives") return Object.keys(screen.wrong).filter(k => /^\d/.test(k)).map(Number).concat(right);
  return screen.kind === "sets" ? [...new Set([...screen.volume, ...right])] : [];
}

async function data({ check }) {
  const { Lesson, rightOf, reached } = await library(), walked = lessons.map(l => new Lesson(l));
  await check("every lesson keeps to the schema", async () => {
    for (const file of files) execFileSync("jsonschema", ["-i", new URL(file, folder).pathname, new URL("schema.json", folder).pathname], { stdio: "pipe" });
    assert.deepEqual(Object.keys(expected), lessons.map(l => l.name));
  });
  await course({ check }, walked);
  for (const lesson of walked) {
    await check(`lesson ${lesson.name}: no step is refused, and the engine without maps replies the same`, async () => {
      lesson.screens.forEach((_, k) => {
        const { record } = lesson.scene(k);
        assert.deepEqual(record.replies.filter(r => r.outcome >= REFUSED), [], `screen ${k + 1}`);
        assert.deepEqual([...play(record.list)], [...record.packedReplies], `screen ${k + 1}`);
      });
    });
    await check(`lesson ${lesson.name}: the library answers as the documents do, and each wrong answer has its own sentence`, async () => {
      lesson.screens.forEach((screen, k) => {
        const scene = lesson.scene(k), right = rightOf(screen, scene), sorted = a => (screen.kind === "order" ? a : [...a].sort());
        if (screen.kind === "goal") return assert.ok(reached(screen, scene.record.at(scene.count), scene.record.end), `screen ${k + 1}`);
        assert.deepEqual(sorted(right), sorted(screen.kind === "hour" ? expected[lesson.name][k].slice(0, 1) : expected[lesson.name][k]), `screen ${k + 1}`);
        const wrong = choicesOf(screen, scene, right).filter(c => !right.includes(c)).map(String), several = ["takes", "lives"].includes(screen.kind);
        const missing = several && !screen.one ? right.map(r => `-${r}`) : [], said = Object.values(screen.wrong);
        for (const choice of [...wrong, ...missing]) assert.ok(screen.wrong[choice], `screen ${k + 1} says nothing of ${choice}`);
        return assert.equal(new Set(said).size, said.length, `screen ${k + 1} says a sentence twice`);
      });
    });
    await check(`lesson ${lesson.name}: every take has a name, every text words`, async () => {
      lesson.screens.forEach((_, k) => {
        const heads = lesson.scene(k).record.lastHeads, names = lesson.namesOn(k);
        assert.ok(heads.every((_, t) => names.takes[t]), `screen ${k + 1}`);
        assert.deepEqual(heads.map(h => h.text).filter(n => n !== 0 && !names.texts[n]), [], `screen ${k + 1}`);
      });
    });
  }
}

// Kinds of question that are answered in the picture, and what is said of a take, a parcel or a withdrawal in codes or in other words.
const IN_THE_PICTURE = ["takes", "future", "sets", "next", "lives", "door", "order", "goal"], CODES = /\btext \d|\btake \d|\(\d|\bparcel|\btransactor|\bsession\b/i;

/** All words of a lesson that a student may read, its commands left out. */
function wordsOf({ title, short, screens, learnt, takes, texts }) {
  const said = screens.flatMap(s => [s.question, s.story, s.do, s.answer, Object.values(s.wrong ?? {}), s.hints ?? [], Object.values(s.asides ?? {}), (s.choices ?? []).flatMap(c => [c.words, c.why ?? ""]), s.note ?? [], s.titles ?? []]);
  return [title, short, said, learnt.map(l => l.words), takes, Object.values(texts)].flat(3);
}

/** The course as a whole. */
async function course({ check }, walked) {
  await check("lessons 1 to 3 are the three mistakes; W14, W8, the order of arrivals and the five sources' examples follow", async () => {
    assert.deepEqual(lessons.slice(0, 3).map(l => l.title), ["Frozen and signed", "What a withdrawal reaches", "The count restarts"]);
    const sources = lessons.slice(3).map(l => l.source).join("; "), orders = lessons.find(l => /W8/.test(l.source ?? ""));
    for (const source of ["W14", "W8", "000", "001", "002", "003", "004"]) assert.match(sources, new RegExp(`\\b${source}\\b`));
    assert.ok(orders?.screens.some(s => /open(s|ed)? (its|a) letter first|opens first/.test(s.question)), "no question about arrivals");
  });
  await check("the course begins with one page and one list of names, which the student breaks next", async () => {
    assert.deepEqual(walked[0].scene(0).record.lastHeads.map((_, t) => walked[0].names.take(t)), ["the names", "page 12"]);
    const [, second] = lessons[0].screens;
    assert.deepEqual([second.kind, second.wants], ["goal", { take: 1, state: "gone" }]);
  });
  await check("lessons 1 to 3 are answered in the picture, in words without codes, and end with a question about another hearing", async () => {
    for (const lesson of lessons.slice(0, 3)) {
      assert.deepEqual(lesson.screens.map(s => s.kind).filter(kind => !IN_THE_PICTURE.includes(kind)), [], lesson.title);
      assert.deepEqual(wordsOf(lesson).filter(words => CODES.test(words)), [], lesson.title);
      const last = lesson.screens.at(-1);
      assert.ok(/^Another hearing/.test(last.question) || /of another list/.test(last.story), lesson.title);
    }
  });
  await check("one word for each thing: a withdrawal is never called a failure, a note never a parcel", async () => {
    for (const lesson of lessons) assert.deepEqual(wordsOf(lesson).filter(words => /\bfail|\brevo(ke|ca)|\bparcel/i.test(words)), [], lesson.title);
  });
}

/** The words of an answer without the explanations in it. */
const plain = words => words.replaceAll("\u00a0", " ");

async function students(context) {
  const { browser, check, url } = context;
  const motion = value => browser.send("Emulation.setEmulatedMedia", { features: [{ name: "prefers-reduced-motion", value }] });
  await motion("reduce");
  await browser.go(url);
  await browser.forget();
  for (const lesson of lessons) {
    await check(`a student goes through ${lesson.name} with every wrong answer`, async () => {
      await browser.go(`${url}#lesson=${lesson.name}`);
      for (const [k, screen] of lesson.screens.entries()) await through(context, lesson, screen, k);
      await browser.until(`document.querySelector(".learnt")`);
      const asked = lesson.screens.filter(s => s.kind !== "goal").length;
      if (asked) assert.match(await browser.text(".wide"), new RegExp(`You foresaw \\d of ${asked} at the first try\\.`));
      assert.deepEqual((await browser.all(".learnt li > span:last-child")), lesson.learnt.map(l => l.words));
      assert.ok(await browser.eval(`document.querySelectorAll(".btn.go").length === 1`));
      assert.deepEqual(await browser.all(".missed .link"), lesson.screens.filter(s => s.kind !== "goal").map(s => s.question));
    });
  }
  await motion("no-preference");
}

/** One screen: each wrong answer once, then the right one. */
async function through({ browser, shots }, lesson, screen, k) {
  const hands = student(browser), right = expected[lesson.name][k];
  await browser.until(`document.querySelector(".screen")?.dataset.screen === "${k + 1}"`);
  if (screen.kind === "goal") await reach(browser, hands, screen);
  else if (screen.kind === "hour") await windows(hands, screen, right);
  else if (screen.kind === "order") await inOrder(hands, screen, right);
  else {
    for (const [choice, words] of Object.entries(screen.wrong)) {
      const missing = choice.startsWith("-") && choice !== "-", is = right.concat(screen.choices?.map(c => c.is) ?? []).find(x => String(x) === choice) ?? choice;
      const picked = choice === "none" ? [] : missing ? right.filter(r => `-${r}` !== choice) : ["takes", "lives"].includes(screen.kind) && !screen.one ? [...right, is] : [is];
      if (!picked.length && choice !== "none") continue;
      await hands.pick(screen, picked);
      const [how, said] = await hands.said();
      assert.ok(how.includes("no") && plain(said).includes(plain(words).slice(0, 40)), `screen ${k + 1}, ${choice}: ${how} ${said}`);
    }
    await hands.pick(screen, right);
  }
  const [how, said] = await hands.said();
  assert.ok(/yes|shown/.test(how), `screen ${k + 1}: ${how} ${said}`);
  assert.equal(await browser.eval(`document.activeElement.dataset.focus`), "next");
  assert.equal(await browser.eval(`[...document.querySelectorAll("#course .btn.go")].filter(b => b.checkVisibility()).length`), 1);
  await browser.until(`document.querySelector(".stage").dataset.late === "0"`);
  await browser.shot(`${shots}${lesson.name}-${k + 1}.png`);
  await hands.press(`[data-focus="next"]`);
}

/** A life with more signings first, then one with a greater number, then the right order. */
async function inOrder(hands, screen, right) {
  const seals = i => screen.marks[i][0].length, [first] = right, more = right.find(i => seals(i) > seals(first)), later = right.find(i => i !== first && seals(i) === seals(first));
  for (const [i, words] of [[more, screen.wrong.signings], [later, screen.wrong.number]]) {
    await hands.press(`[data-choice="${i}"]`);
    assert.ok(plain((await hands.said())[1]).includes(plain(words)), `${i}: ${(await hands.said())[1]}`);
  }
  for (const i of right) await hands.press(`[data-choice="${i}"]:not(:disabled)`);
}

/** A window with fewer falls, one with as many but later, and the worst one. */
async function windows(hands, screen, [right, later]) {
  for (const [place, words] of [[0, screen.wrong.fewer], [later, screen.wrong.later]]) {
    await hands.press(`[data-choice="${place}"]`);
    assert.ok(plain((await hands.said())[1]).includes(plain(words).slice(0, 30)), `at ${place}: ${(await hands.said())[1]}`);
  }
  await hands.press(`[data-choice="${right}"]`);
}

/** A goal: by the buttons beside the cards, in the order of the solution. */
async function reach(browser, hands, screen) {
  for (const line of screen.solution) {
    if (typeof line === "string") {
      const members = line.match(/\d+/g) ?? [], now = await browser.eval(`[...document.querySelectorAll('.acts [aria-pressed="true"]')].map(b => b.dataset.deed.split(" ")[1])`);
      for (const t of members.filter(m => !now.includes(m))) await hands.press(`[data-deed="volume ${t}"]`);
      assert.match(await browser.text(".sets-verdict"), /The two sets are equal: it can be signed\./);
      await hands.press(`[data-focus="sign"]`);
    } else await hands.press(`[data-deed="${line[0]} ${line[1]}"]`);
  }
}

async function manners(context) {
  const { browser, check, url } = context, hands = student(browser), two = "02-what-a-withdrawal-reaches";
  await check("two misses offer to show the answer, which can be tried again", async () => {
    await browser.forget();
    await browser.go(`${url}#lesson=${two}&screen=2`);
    for (let i = 0; i < 2; i++) {
      assert.equal(await hands.on(`[data-focus="show"]`), false);
      await hands.pick({ kind: "takes" }, [3]);
    }
    await hands.press(`[data-focus="show"]`);
    assert.match((await hands.said())[1], /So it is\..*Pages.12 and 40/);
    await browser.until(`document.querySelector(".stage").dataset.late === "0"`);
    assert.deepEqual(await browser.eval(`[...document.querySelectorAll(".card.lit")].map(c => c.dataset.take).sort()`), ["1", "2"]);
    await hands.press(`[data-focus="again"]`);
    assert.deepEqual(await hands.said(), ["answer ", ""]);
    await hands.pick({ kind: "takes" }, [1, 2]);
    assert.match((await hands.said())[1], /^Right\./);
  });
  await kept(context, hands);
  await keys(context);
  await pictures(context, hands);
  await explainedWords(context);
}

async function kept({ browser, check, url }, hands) {
  const two = "02-what-a-withdrawal-reaches";
  await check("where the reader was is kept, and what was foreseen at the first try", async () => {
    await browser.go(url);
    assert.match(await browser.text("#go-on"), /Go on: lesson 2, screen 2/);
    await hands.press("#go-on");
    await browser.until(`document.querySelector(".screen")?.dataset.screen === "2"`);
    assert.deepEqual(JSON.parse(await browser.eval(`localStorage.getItem("take-ledger.progress")`)).lessons[two].first, { 2: false });
    await browser.eval(`history.back()`);
    await browser.until(`document.querySelector(".picks")`);
  });
  await check("a goal that is missed by a wrong deed has its sentence, and starts over", async () => {
    await browser.go(`${url}#lesson=01-frozen-and-signed&screen=2`);
    await hands.press(`[data-deed="withdraw 1"]`);
    assert.match((await hands.said())[1], /You took page.12 itself away/);
    await hands.press(`[data-focus="over"]`);
    assert.equal(await browser.eval(`document.querySelector('[data-take="1"]').dataset.state`), "draft");
    await hands.press(`[data-focus="hint"]`);
    assert.match((await hands.said())[1], /What does page.12 stand on/);
  });
  await check("after the last hint the ledger's plan says what is left to do", async () => {
    await browser.go(`${url}#lesson=01-frozen-and-signed&screen=5`);
    for (let i = 0; i < 3; i++) await hands.press(`[data-focus="hint"]`);
    assert.match((await hands.said())[1], /The ledger.s own plan: Someone freezes the names; Someone signs the names and page.12 together\./);
  });
}

/** By keys alone: to a card, which keeps the cursor when it is picked, on to the check, and then to the next screen. */
async function keys({ browser, check, url }) {
  const at = () => browser.eval(`document.activeElement.dataset.focus ?? document.activeElement.tagName`);
  const tabTo = async wanted => {
    for (let i = 0; i < 40 && (await at()) !== wanted; i++) await browser.key("Tab");
    assert.equal(await at(), wanted);
  };
  await check("a screen by keys alone", async () => {
    await browser.go(`${url}#lesson=02-what-a-withdrawal-reaches&screen=2`);
    for (const card of ["card 2", "card 1"]) {
      await tabTo(card);
      await browser.key("Enter");
      assert.equal(await at(), card);
    }
    await tabTo("check");
    await browser.key("Enter");
    assert.equal(await at(), "next");
    await browser.key("Enter");
    await browser.until(`document.querySelector(".screen")?.dataset.screen === "3"`);
    assert.equal(await at(), "H1");
  });
}

/** Where words of the trade first stand on a screen, they can be asked about, by the mouse too. */
async function explainedWords({ browser, check, url }) {
  const terms = () => browser.eval(`[...document.querySelectorAll(".ask .term, .say .term")].map(t => t.firstChild.textContent.toLowerCase())`);
  await check("withdraw, fall, vanish, frozen and signed are explained where they first stand on a screen, once, on hover too", async () => {
    const first = { "01-frozen-and-signed&screen=2": /^withdraw$/, "01-frozen-and-signed&screen=3": /^frozen$/, "01-frozen-and-signed&screen=4": /^signed$/, "02-what-a-withdrawal-reaches&screen=3": /^vanished$/, "03-the-count-restarts&screen=1": /^fall$/ };
    for (const [screen, word] of Object.entries(first)) {
      await browser.go(`${url}#lesson=${screen}`);
      assert.equal((await terms()).filter(term => word.test(term)).length, 1, `${screen}: ${await terms()}`);
    }
    const { x, y } = await browser.place(".ask .term"), shown = () => browser.eval(`getComputedStyle(document.querySelector(".ask .term .tip")).display`);
    assert.equal(await shown(), "none");
    await browser.send("Input.dispatchMouseEvent", { type: "mouseMoved", x: x + 3, y: y + 5 });
    await browser.until(`getComputedStyle(document.querySelector(".ask .term .tip")).display === "block"`);
    await browser.send("Input.dispatchMouseEvent", { type: "mouseMoved", x: 1, y: 1 });
  });
}

async function pictures({ browser, check, url }, hands) {
  await check("play tells how it came about, deed by deed, in words", async () => {
    await browser.go(`${url}#lesson=01-frozen-and-signed&screen=1`);
    await hands.press(`[data-focus="play"]`);
    const heard = [];
    for (let i = 0; i < 3; i++) {
      await browser.until(`!${quoted(heard)}.includes(document.querySelector(".caption")?.textContent ?? "")`);
      heard.push(await browser.text(".caption"));
    }
    assert.deepEqual(heard, ["Someone opens the names", "Someone opens page 12", "Someone sets page 12 from the names: “MR. ABARA: I saw the crane move.”"]);
    await browser.until(`document.querySelector('[data-focus="play"]')?.textContent.startsWith("Play")`);
  });
  await check("words are explained on focus, and details show the steps in words and in the notation", async () => {
    const shown = () => browser.eval(`getComputedStyle(document.querySelector(".term .tip")).display`);
    assert.equal(await shown(), "none");
    await browser.eval(`document.querySelector(".term").focus()`);
    assert.equal(await shown(), "block");
    assert.equal(await hands.on(".told"), false);
    await hands.press(`[data-focus="details"]`);
    assert.match(await browser.text(".told"), /Someone sets page 12 from the names/);
    await hands.press(`[data-focus="codes"]`);
    assert.match(await browser.text(".told"), /write 1 text 2 done/);
  });
}
