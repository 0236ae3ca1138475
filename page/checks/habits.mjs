// The desk in use: what stays in view and in the fields, what is asked first, ways out of a dead end, undo.
import assert from "node:assert/strict";
import { hands } from "./desk.mjs";

async function fresh(browser, url) {
  await browser.go(`${url}#view=details`);
  await browser.forget();
  await browser.go(`${url}#view=details`);
  return hands(browser);
}

/** Clicks as somebody does, who first goes there. */
const press = (browser, selector) => browser.eval(`(b => { b.focus(); b.click(); })(document.querySelector(${JSON.stringify(selector)}))`);
const button = (kind, take) => `#desk-steps [data-kind=${kind}][data-take="${take}"]`;
const words = browser => browser.eval(`document.querySelector("#desk-words").value`);

export async function habitsChecks(context) {
  await growing(context);
  await fields(context);
  await deadEnd(context);
  await throughOthers(context);
  await undoing(context);
  await onPaper(context);
}

async function growing({ browser, check, url }) {
  await check("the record keeps its height as the board grows, and its newest row is in view", async () => {
    const desk = await fresh(browser, url);
    for (let t = 0; t < 9; t++) await desk.open(`pages ${t}`, "raw");
    for (let t = 0; t < 9; t++) await desk.take("work", t);
    const box = await browser.place("#desk-rows"), last = await browser.place("#desk-rows li:last-child");
    assert.ok(box.height > 300, `${box.height} high`);
    assert.ok(last.y >= box.y && last.y + last.height <= box.y + box.height, `row at ${last.y}, box from ${box.y}`);
  });
}

async function fields({ browser, check, url }) {
  await check("words stay until a step has used them, and the cursor stays on its button or goes to the words", async () => {
    const desk = await fresh(browser, url), at = () => browser.eval(`document.activeElement.id || document.activeElement.dataset.kind`);
    await desk.open("names", "as heard");
    assert.equal(await words(browser), "");
    await browser.fill("#desk-words", "corrected");
    await press(browser, button("work", 0));
    assert.equal(await words(browser), "corrected");
    assert.equal(await at(), "desk-words");
    await press(browser, button("write", 0));
    assert.equal(await words(browser), "");
    assert.equal(await at(), "write");
  });
}

async function deadEnd({ browser, check, url }) {
  const desk = await fresh(browser, url);
  for (const name of ["names", "page 12", "page 40"]) await desk.open(name, "raw");
  for (const t of [0, 1]) for (const kind of ["work", "freeze"]) await desk.take(kind, t);
  for (const volume of [1, 2]) for (const selector of [`#desk-board [data-volume="${volume}"]`, "#confirm-sign"]) await browser.click(selector);
  await check("a signed take with nothing new is not in the way, whatever came before", async () => {
    assert.doesNotMatch(await desk.board(), /What stands in the way[^]*0 names[^]*What is waiting/);
  });
  await check("the way out for a frozen take on a withdrawn ground can be followed", async () => {
    await desk.take("work", 0);
    await desk.take("write", 0, "corrected");
    await desk.take("send", 0, "new names", "1");
    await browser.click(`#desk-steps [data-kind=receive]`);
    await desk.take("write", 1, "set anew");
    await desk.take("freeze", 1);
    await desk.take("done", 1);
    await desk.take("fail", 0);
    await browser.click("#confirm-fall");
    assert.match(await desk.board(), /What would help: start work on names, send from names to page 12, receive the parcel\./);
    await desk.take("work", 0);
    await desk.take("send", 0, "withdrawn", "1");
  });
  await check("a receipt by which a take falls is asked about first", async () => {
    const before = (await desk.replies()).length;
    assert.match(await desk.board(), /receive The take falls by it: it shows that a ground was withdrawn\./);
    await browser.click(`#desk-steps [data-kind=receive]`);
    const asked = await browser.text("#desk-confirm");
    assert.match(asked, /shows that a ground of page 12 was withdrawn: it falls\. It goes back to its signed text, “raw”; “set anew” is lost\./);
    assert.equal((await desk.replies()).length, before);
    await browser.click("#confirm-receipt");
    assert.equal((await desk.replies()).at(-1), "fallen back");
  });
  await check("a take that vanished is no addressee and has no buttons", async () => {
    await desk.take("fail", 2);
    await browser.click("#confirm-fall");
    assert.equal((await desk.replies()).at(-1), "vanished");
    assert.deepEqual(await browser.all(`#desk-steps .to[data-from="0"] option`), ["1 page 12"]);
    assert.equal(await browser.eval(`document.querySelectorAll('#desk-steps [data-take="2"]').length`), 0);
  });
}

// The names and page 12 signed, page 12 set from the names anew, page 40 set from page 12, the names withdrawn; then as the lines say.
const THROUGH = ["root text 1", "root text 2", "root text 3", "letter to 0 text 0", "receive 0", "freeze 0", "sign {0}", "letter to 1 text 0", "receive 1", "freeze 1", "sign {1}"];
const SET = ["letter to 0 text 0", "receive P", "send 0 to 1 text 4", "receive Q", "write 1 text 5", "done 1"];
const ON = ["letter to 1 text 0", "receive P", "send 1 to 2 text 6", "receive Q", "write 2 text 7"];

/** Lines with parcels numbered from a first one. */
const from = (lines, first) => lines.map(line => line.replace("P", first).replace("Q", first + 1));
const setFrom = first => [...from(SET, first), ...from(ON, first + 2)];

async function throughOthers({ browser, check, url }) {
  const shown = async steps => {
    await browser.go(`${url}#view=details`);
    await browser.forget();
    const file = { format: "take ledger desk", version: 1, steps, takes: ["names", "page 12", "page 40"] };
    // What one process keeps another may read a moment later: until the page has these steps.
    for (let tries = 0, had = ""; tries < 9 && had !== String(steps); tries++) {
      await browser.eval(`localStorage.setItem("take-ledger.desk", ${JSON.stringify(JSON.stringify(file))})`);
      await browser.go(`${url}#view=details`);
      had = await browser.eval(`String(JSON.parse(localStorage.getItem("take-ledger.desk"))?.steps)`);
    }
    return browser.text("#desk-board");
  };
  const signed = ["letter to 2 text 0", "receive 2", "freeze 2", "sign {2}"];
  await check("what would help a page that was set from a page: another take, its own fall, or its ground's fall and then its own", async () => {
    const never = await shown([...THROUGH, ...setFrom(2), "fail 0"]);
    assert.match(never, /2 page 40\s+Page 40 rests on page 12, which rests on names, withdrawn at step 23\.[^\n]* What would help: open another take for these pages\./);
    const own = await shown([...THROUGH, ...signed, ...setFrom(3), "fail 0"]);
    assert.match(own, /2 page 40\s+Page 40 rests on page 12, which [^\n]* What would help: withdraw page 40\./);
    const after = await shown([...THROUGH, ...signed, ...setFrom(3), "freeze 2", "fail 0"]);
    const way = "withdraw page 12; then start work on page 12, send from page 12 to page 40, press done for page 40, receive the parcel\\.";
    assert.match(after, new RegExp(`2 page 40\\s+Page 40 rests on page 12, which [^\\n]* What would help: ${way}`));
    await browser.forget();
  });
}

async function undoing({ browser, check, url }) {
  await check("undo takes back the name and the words, and a start of work as a whole", async () => {
    const desk = await fresh(browser, url);
    await desk.open("names", "as heard");
    await desk.open("page 12", "raw");
    await desk.take("work", 0);
    assert.equal((await desk.replies()).length, 4);
    await browser.click("#desk-undo");
    assert.equal((await desk.replies()).length, 2);
    await browser.click("#desk-undo");
    const { takes, texts } = JSON.parse(await browser.eval(`localStorage.getItem("take-ledger.desk")`));
    assert.deepEqual([takes, texts], [["names"], { 1: "as heard" }]);
    await desk.open("", "raw");
    assert.match(await browser.content("#desk-rows"), /opened: take 1, with “raw”/);
  });
}

async function onPaper({ browser, check, url, shots }) {
  const long = "a long sentence that says what was heard, page by page, and who said it, and when, and what came of it in the end";
  await check("on paper the record has whole sentences, on the screen a cut one is whole for the mouse", async () => {
    const desk = await fresh(browser, url), line = "#desk-rows li:last-child .line";
    await desk.open("names", long);
    assert.ok((await browser.eval(`document.querySelector("${line}").title`)).includes(long));
    await browser.send("Emulation.setEmulatedMedia", { media: "print" });
    await browser.size(800, 1130);
    const [room, wide] = await browser.eval(`(({ clientWidth, scrollWidth }) => [clientWidth, scrollWidth])(document.querySelector("${line}"))`);
    assert.ok(wide <= room && (await browser.place(line)).height > 30, `${wide} in ${room}`);
    await browser.shot(`${shots}desk-print.png`);
    await browser.send("Emulation.setEmulatedMedia", { media: "" });
    await browser.size(1500, 950);
  });
  await check("sixteen takes: their numbers over the lanes, also when scrolled sideways", async () => {
    const text = Array.from({ length: 16 }, (_, t) => `root text ${t} # pages of volume ${t}\n`).join("");
    await browser.go(`${url}#text=${encodeURIComponent(text)}`);
    assert.deepEqual((await browser.all("#course-rows .lane-name")).slice(9), ["9", "10", "11", "12", "13", "14", "15"]);
    const cut = `[...document.querySelectorAll("#course-rows .lane-name")].filter(e => e.scrollWidth > e.clientWidth).length`;
    assert.equal(await browser.eval(cut), 0);
    await browser.eval(`document.querySelector("#course-rows").scrollLeft = 9999`);
    const [names, last] = [await browser.place("#course-rows .lane-names"), await browser.place("#course-rows .lanes")];
    assert.ok(names.x + names.width >= last.x + last.width - 1, `${names.x + names.width} against ${last.x + last.width}`);
    await browser.shot(`${shots}sixteen.png`);
  });
}
