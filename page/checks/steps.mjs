// The step view: replies and sentences of lists, faults at their places, keys and mouse, links, buttons, the story of a lesson.
import assert from "node:assert/strict";
import { readFileSync } from "node:fs";

const WORDS = { 0: "done", 1: "held", 2: "dropped", 3: "fallen back", 4: "vanished", 5: "not ready" };

// By hand, from the rules: what the page must say at a step of a lesson.
const SENTENCES = [
  ["00-a-first-session", 10, "Page 12 rests on the names: neither signed, nor in this volume, nor frozen."],
  ["00-a-first-session", 10, "What would help: freeze the names, then sign {0,1} (the names and page 12)."],
  ["10-frozen-is-not-signed", 18, "held. Frozen: page 12; no fall."],
  ["10-frozen-is-not-signed", 19, "Page 12 rests on the names: its life since the last signing is neither signed, nor in this volume, nor frozen."],
  ["10-frozen-is-not-signed", 25, "Page 12 rests on the names, withdrawn at step 21."],
  ["10-frozen-is-not-signed", 25, "Page 12 must fall before it can be signed, and loses its text since its last signing."],
  ["10-frozen-is-not-signed", 25, "What would help: receive parcel 5."],
  ["10-frozen-is-not-signed", 33, "{0,1}, the names and page 12, is the smallest volume with page 12 that can be signed now."],
  ["10-frozen-is-not-signed", 26, "The mark of the names decided: the parcel carries (0; 1), page 12 has (0; 0) in its state map."],
  ["20-what-a-withdrawal-reaches", 18, "Page 12 rests on it, and knows of it. Page 40 rests on it through others, without knowing of it."],
  ["20-what-a-withdrawal-reaches", 20, "Page 40 rests on page 12, which rests on the names, withdrawn at step 19."],
  ["20-what-a-withdrawal-reaches", 20, "Page 12 and page 40 can't be signed, and must stay frozen: a ground that vanished sends no parcel by which they would fall."],
  ["20-what-a-withdrawal-reaches", 20, "What would help: open another take for these pages."],
  ["20-what-a-withdrawal-reaches", 18, "If it falls, page 12 and page 40 can't be signed, and must stay frozen: a ground that vanished"],
  ["20-what-a-withdrawal-reaches", 21, "Page 12 rests on the names, withdrawn at step 19."],
  ["30-the-count-restarts", 27, "The mark of the names decided: the parcel carries (0; 1), page 12 has (0,2; 0) in its state map."],
  ["30-the-count-restarts", 27, "The parcel's life is the withdrawn one."],
  ["50-not-mended-by-a-signing", 19, "Page 12 rests on the names, withdrawn at step 14."],
  ["60-frozen-takes-fall-too", 18, "vanished. Page 12 vanished: parcel 4 shows that the ground was withdrawn"],
  ["80-grounds-that-are-only-frozen", 11, "{0,1}, the names and page 12, is the smallest volume with page 12 that can be signed now."],
  ["98-a-house", 22, "Appraisal, offer and mortgage rest on it, and know of it."],
  ["98-a-house", 24, "Offer rests on description, withdrawn at step 23."],
];

// A text, the place of its first fault, and a word of what was expected there.
/** @type {[text: string, line: number, column: number, words: string][]} */
const FAULTS = [
  ["root text 7\nsign 3\n", 2, 6, "volume"],
  ["root text 7\nread 16", 2, 6, "a take, 0 to 15"],
  ["\n# a\nopn 0", 3, 1, "a kind of step: root, letter, receive, new,"],
  ["root text", 1, 10, "a text"],
  ["root text 1\nread 0 1", 2, 8, "the end of the line"],
  ["send 0 1 text 3", 1, 8, "to"],
  ["raw 12", 1, 5, "hexadecimal"],
];
const LETTER = 7.83, LINE = 20, PAD = 6;

/** The address of a list of checks/lists. */
/**
 * The address of a list of checks/lists, at a step.
 * @param {string} name
 * @param {number | null} [step]
 */
export function listed(name, step = null) {
  const text = readFileSync(new URL(`lists/${name}.steps`, import.meta.url), "utf8");
  return `text=${encodeURIComponent(text)}${step === null ? "" : `&step=${step}`}`;
}

export async function stepsChecks(context) {
  await lists(context);
  await editing(context);
  await choosing(context);
  await links(context);
  await own(context);
  await origin(context);
  await honest(context);
}

async function lists({ browser, check, url, shots }) {
  const outcomes = JSON.parse(readFileSync(new URL("outcomes.json", import.meta.url), "utf8"));
  for (const [name, expected] of Object.entries(outcomes)) {
    await check(`list ${name}: replies`, async () => {
      await browser.go(`${url}#${listed(name)}`);
      assert.deepEqual(await browser.all("#course-rows .reply"), expected.map(n => WORDS[n]));
      await browser.shot(`${shots}${name}.png`);
    });
    for (const [, step, words] of SENTENCES.filter(s => s[0] === name)) {
      await check(`list ${name}, step ${step}: ${words}`, async () => {
        await browser.click(`#course-rows li[data-i='${step}']`);
        assert.ok((await browser.text("#course-moment")).includes(words), await browser.text("#course-moment"));
      });
    }
  }
  await check("every sentence has its list", async () => assert.ok(SENTENCES.every(s => s[0] in outcomes)));
}

async function editing({ browser, check, url, shots }) {
  await browser.go(`${url}#view=steps`);
  for (const [text, line, column, words] of FAULTS) {
    await check(`fault at line ${line}, column ${column}: ${words}`, async () => {
      await browser.fill("#text", text);
      const said = await browser.text("#fault");
      assert.ok(said.startsWith(`line ${line}, column ${column}: expected`) && said.includes(words), said);
      const mark = await browser.place(".wrong"), area = await browser.place("#text"), x = mark.x - area.x, y = mark.y - area.y;
      assert.ok(Math.abs(y - PAD - LINE * (line - 1)) < 2 && mark.height > 0, `${y} down`);
      assert.ok(Math.abs(x - PAD - LETTER * (column - 1)) < 3, `${x} across`);
    });
  }
  await browser.shot(`${shots}fault.png`);
  await check("buttons offer what the ledger accepts, and add lines", async () => {
    await browser.click("#course-add summary");
    await browser.fill("#text", "root text 7   # names\n");
    const offered = () => browser.all("#course-steps button:not(:disabled)");
    assert.deepEqual(await offered(), ["open a take", "start work", "fail", "letter"]);
    await browser.click(`#course-steps [data-kind=letter]`);
    await browser.click(`#course-steps [data-kind=receive]`);
    assert.equal(await browser.eval(`document.querySelector("#text").value`), "root text 7   # names\nletter to 0 text 1\nreceive 0\n");
    assert.deepEqual(await offered(), ["open a take", "write", "read", "freeze", "done", "new", "fall", "fail", "letter"]);
    await browser.click(`#course-steps [data-kind=freeze]`);
    await browser.eval(`document.querySelector("#course-steps [data-sign='0']").click()`);
    await browser.click(`#course-steps [data-kind=sign]`);
    assert.equal((await browser.all("#course-rows .reply")).at(-1), "done");
  });
  await check("limits are the session's", async () => {
    await browser.fill("#limit-takes", "1");
    await browser.fill("#text", "root text 7\nroot text 8\n");
    assert.equal((await browser.all("#course-rows .reply")).at(-1), "25 all opened");
    await browser.fill("#limit-takes", "17");
    assert.match(await browser.text("#fault"), /33, out of range/);
  });
}

async function choosing({ browser, check, url }) {
  const chosen = () => browser.eval(`Number(document.querySelector("#course-rows [aria-selected=true]")?.dataset.i ?? 0)`);
  await check("keys choose a step", async () => {
    await browser.go(`${url}#${listed("10-frozen-is-not-signed", 5)}`);
    await browser.eval(`document.querySelector("#course-rows .rows").focus()`);
    await browser.key("ArrowDown");
    assert.equal(await chosen(), 6);
    await browser.key("ArrowUp");
    await browser.key("ArrowUp");
    assert.equal(await chosen(), 4);
    await browser.key("End");
    assert.equal(await chosen(), 34);
    await browser.key("Home");
    assert.equal(await chosen(), 0);
    assert.match(await browser.text("#course-moment"), /Before the first step/);
  });
  await check("the mouse chooses a step, in the rows and in the picture", async () => {
    const row = await browser.place("#course-rows li[data-i='3']");
    await browser.mouse(row.x + 60, row.y + 10);
    assert.equal(await chosen(), 3);
    const lanes = await browser.place("#course-rows .lanes");
    await browser.mouse(lanes.x + 30, lanes.y + 26 * 7 + 10);
    assert.equal(await chosen(), 8);
  });
  await check("what the step changed is marked", async () => {
    await browser.click("#course-rows li[data-i='16']");
    assert.deepEqual(await browser.all("#course-moment .changed"), ["201 (changed)", "the names (0; 0) (changed)"]);
  });
}

async function links({ browser, check, url }) {
  const same = async button => {
    await browser.go(`${url}#${listed("30-the-count-restarts", 12)}`);
    await browser.click("#course-bar details summary");
    await browser.press("#course-bar", button);
    const link = await browser.eval(`document.querySelector("#link").value`), replies = await browser.all("#course-rows .reply");
    await browser.go(link);
    assert.deepEqual(await browser.all("#course-rows .reply"), replies);
    assert.match(await browser.text("#course-moment"), /After step 12/);
  };
  await check("a link holds the list as text", () => same("link with the text"));
  await check("a link holds the list as packed bytes", () => same("link with packed steps"));
  await check("a link that holds no list says so at its place, on a phone too", async () => {
    for (const room of [390, 1500]) {
      await browser.size(room, 950);
      await browser.go(`${url}#text=${encodeURIComponent("root text 1\nnonsense")}`);
      assert.match(await browser.text("#fault"), /line 2, column 1/);
      assert.ok((await browser.place("#fault")).height > 30);
    }
  });
}

// Addresses that ask for what there is not, and what is said.
/** @type {[asked: string, host: string, words: RegExp][]} */
const NO_SUCH = [
  ["lesson=nosuch&step=3", "#course-trouble", /There is no lesson called “nosuch”\./],
  ["list=AAAA", "#course-notice", /The address holds no whole list of steps\./],
  ["list=!", "#course-notice", /The address holds no whole list of steps\./],
  ["view=steps&step=abc", "#course-notice", /The address names no step\./],
  ["list=", "#course-notice", /The address holds no steps\./],
  ["view=nosuch", "#course-trouble", /There is no view called “nosuch”\./],
  ["limits=1,2&text=root%20text%201", "#course-notice", /The address's limits are none that a session can have\./],
  ["text=root%20text%201&step=999", "#course-notice", /There is no step 999\./],
  ["text=root%20text%201&limits=99,1,1", "#course-notice", /The address's limits are none that a session can have\./],
];

async function own({ browser, check, url }) {
  for (const [asked, host, words] of NO_SUCH) {
    await check(`an address that asks for nothing: ${asked}`, async () => {
      await browser.go(`${url}#${asked}`);
      assert.match(await browser.text(host), words);
    });
  }
  await check("a list of one's own is kept, and the one before it", async () => {
    const text = "root text 7 # mine\n", value = () => browser.eval(`document.querySelector("#text").value`);
    await browser.go(`${url}#${listed("20-what-a-withdrawal-reaches")}`);
    await browser.forget();
    await browser.fill("#text", text);
    await browser.go(`${url}#view=steps`);
    assert.equal(await value(), text);
    await browser.go(`${url}#${listed("00-a-first-session")}`);
    await browser.fill("#text", "root text 8\n");
    for (const list of [text, "root text 8\n"]) {
      await browser.go(`${url}#view=steps`);
      await browser.click("#earlier");
      assert.equal(await value(), list);
    }
  });
}

async function origin({ browser, check, url }) {
  await check("a lesson's list that is edited keeps its story, and comes back", async () => {
    await browser.go(`${url}#lesson=02-what-a-withdrawal-reaches&screen=2`);
    await browser.click(`[data-focus="details"]`);
    await browser.click(`[data-focus="steps"]`);
    await browser.until(`!document.querySelector("#steps").hidden`);
    const lesson = await browser.eval(`document.querySelector("#text").value`);
    assert.match(await browser.text("#story"), /The names have a mistake and are taken back/);
    assert.match(await browser.content("#course-moment"), /page 40/);
    await browser.fill("#text", lesson.replace("text 1", "text 9"));
    assert.match(await browser.text("#story"), /The names have a mistake and are taken back[^]*yours now; the lesson keeps its own/);
    await browser.click("#lesson-list");
    assert.equal(await browser.eval(`document.querySelector("#text").value`), lesson);
    await browser.click("#back-to-lesson");
    await browser.until(`document.querySelector(".screen")?.dataset.screen === "2"`);
    assert.match(await browser.text(".ask h1"), /Which pages does that reach/);
  });
  await check("a reply in a comment is no name, but what stands in brackets behind it is", async () => {
    const text = "\ufeffroot text 7 # done take 0\nroot text 8 # page 12\nroot text 9 # done take 0 (speaker names)\n";
    await browser.go(`${url}#text=${encodeURIComponent(text)}`);
    assert.deepEqual(await browser.all("#course-rows .lane-name"), ["take 0", "1 page 12", "2 speaker names"]);
  });
}

async function honest({ browser, check, url }) {
  await check("a link has its own limits", async () => {
    const takes = () => browser.eval(`document.querySelector("#limit-takes").value`);
    await browser.go(`${url}#text=${encodeURIComponent("root text 1\nroot text 2\n")}&limits=1,2,3`);
    assert.deepEqual(await browser.all("#course-rows .reply"), ["done", "25 all opened"]);
    await browser.eval(`location.hash = "#text=${encodeURIComponent("root text 1\nroot text 3\n")}"`);
    await browser.until(`document.querySelector("#text").value.includes("text 3")`);
    assert.equal(await takes(), "16");
  });
  await check("what a withdrawal reaches says who is frozen", async () => {
    await browser.go(`${url}#${listed("20-what-a-withdrawal-reaches", 18)}`);
    assert.match(await browser.text("#course-moment .cost"), /1 page 12\s+It is frozen, and does not fall of itself\. Page 40 rests on it, and knows of it\./);
  });
  await check("a window is so many whole replies wide", async () => {
    await browser.go(`${url}#${listed("94-a-bad-hour", 26)}`);
    await browser.fill("#course-falls input", "2.5");
    assert.match(await browser.text("#course-falls"), /Most falls within 2 replies: 2, in steps 18 to 19\./);
    await browser.fill("#course-falls input", "");
    assert.match(await browser.text("#course-falls"), /35, wrong width/);
  });
}
