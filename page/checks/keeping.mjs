// What the browser keeps: two windows, a store that is full or holds garbage, steps that were taken back.
import assert from "node:assert/strict";
import { hands } from "./desk.mjs";

const KEY = "take-ledger.desk", ASIDE = `${KEY}.aside`;
const stored = (browser, key = KEY) => browser.eval(`localStorage.getItem(${JSON.stringify(key)})`);
const store = async (browser, key, text) => {
  await browser.forget();
  await browser.eval(`localStorage.setItem(${JSON.stringify(key)}, ${JSON.stringify(text)})`);
};
// Fills what room the store has left.
const FILL = `for (let size = 100000, n = 0; size >= 1; size >>= 1) try { for (;;) localStorage.setItem("fill" + n++, "y".repeat(size)); } catch {}`;

async function fresh(browser, url) {
  await browser.go(`${url}#view=details`);
  await browser.forget();
  await browser.go(`${url}#view=details`);
  return hands(browser);
}

export async function keepingChecks(context) {
  await windows(context);
  await full(context);
  await garbage(context);
  await back(context);
  await context.browser.forget();
}

async function windows({ browser, check, url }) {
  const desk = await fresh(browser, url), takes = async () => JSON.parse(await stored(browser)).takes, notice = w => w.text("#desk-kept .elsewhere");
  await desk.open("names", "a");
  const other = await browser.another(), theirs = hands(other);
  await check("two windows: what one keeps, the other does not overwrite, and says so", async () => {
    await other.go(`${url}#view=details`);
    await theirs.open("page 12", "b");
    await browser.until(`document.querySelector("#desk-kept .elsewhere")`);
    await desk.open("page 40", "c");
    assert.deepEqual(await takes(), ["names", "page 12"]);
    assert.match(await notice(browser), /Another window of this page has kept a hearing since\. The one in this window is not kept now/);
  });
  await check("two windows: the one that is kept puts the other aside, to be opened, saved or removed", async () => {
    await browser.press("#desk-kept", "keep this one");
    assert.deepEqual(await takes(), ["names", "page 40"]);
    assert.match(await browser.text("#desk-kept .aside"), /A hearing of another window was put aside: 2 steps\./);
    await other.until(`document.querySelector("#desk-kept .elsewhere")`);
    await theirs.open("page 41", "d");
    await other.press("#desk-kept", "open the other one");
    assert.match(await other.text("#desk-steps"), /page 40/);
    assert.deepEqual(JSON.parse(await stored(other, ASIDE)).map(text => JSON.parse(text).takes.at(-1)), ["page 12", "page 41"]);
    await other.press("#desk-kept .aside", "open");
    await other.click("#confirm-open");
    assert.deepEqual(await takes(), ["names", "page 12"]);
  });
  await other.shut();
}

async function full({ browser, check, url }) {
  await check("a full store is said, at the desk and in the course", async () => {
    const desk = await fresh(browser, url);
    await desk.open("names", "a");
    await browser.eval(FILL);
    await desk.open("page 12", "b");
    assert.match(await browser.text("#desk-notice"), /The browser does not keep this, for its room is full: save it as a file\./);
    await browser.go(`${url}#view=steps`);
    await browser.fill("#text", `root text 7 # ${"x".repeat(99)}\n`);
    assert.match(await browser.text("#course-notice"), /The browser does not keep this, for its room is full: save it as a file\./);
  });
  await check("where what can't be restored fills the store, it stays in view; once removed, the hearing is kept", async () => {
    await store(browser, KEY, `garbage${"x".repeat(2400000)}`);
    await browser.eval(FILL);
    await browser.go(`${url}#view=details`);
    await hands(browser).open("names", "a");
    assert.match(await browser.text("#desk-kept"), /can't be restored: it is no whole file of this desk .* It fills the browser's room: the present hearing is not kept\./);
    assert.match(await stored(browser), /^garbage/);
    await browser.press("#desk-kept", "remove");
    assert.deepEqual(JSON.parse(await stored(browser)).takes, ["names"]);
    assert.equal(await browser.text("#desk-kept"), "");
  });
}

async function garbage({ browser, check, url }) {
  await check("garbage in the store is shown as it is, with the reason, and the desk goes on", async () => {
    for (const text of ["null", "[]", "", "{}", "\u0000\u0001", `{"format":"take ledger desk"`]) {
      await store(browser, KEY, text);
      await browser.go(`${url}#view=details`);
      assert.match(await browser.text(".unrestored"), /can't be restored: it is no (whole )?file of this desk/);
      assert.equal(JSON.parse(await stored(browser, ASIDE))[0], text);
    }
    await store(browser, ASIDE, `[{"a":1}]`);
    await browser.go(`${url}#view=details`);
    assert.equal(await browser.text(".unrestored pre"), `{"a":1}`);
    await hands(browser).open("names", "a");
    assert.equal(await browser.text(".unrestored pre"), `{"a":1}`);
  });
}

async function back({ browser, check, url }) {
  const desk = await fresh(browser, url), replies = async () => (await desk.replies()).length;
  await check("an undone step, and a thinned list, can be brought back with their words", async () => {
    await desk.open("names", "as heard");
    const whole = await stored(browser), { y } = await browser.place("#desk-undo");
    await browser.click("#desk-undo");
    assert.match(await browser.text("#desk-done"), /Taken back: opened: names, with “as heard”\./);
    assert.equal((await browser.place("#desk-undo")).y, y);
    await browser.press("#desk-done", "bring it back");
    assert.equal(await stored(browser), whole);
    for (const kind of ["work", "read", "done"]) await desk.take(kind, 0);
    assert.equal(await browser.text("#desk-thin"), "thin the list: leave out 1 step");
    await browser.click("#desk-thin");
    assert.equal(await replies(), 4);
    assert.equal(await browser.eval(`document.querySelector("#desk-thin").hidden`), true);
    await browser.press("#desk-done", "bring it back");
    assert.equal(await replies(), 5);
    await desk.take("work", 0);
    assert.equal(await browser.text("#desk-done"), "");
  });
  await check("a button pressed right after a title or a name was typed is pressed", async () => {
    for (const field of ["#desk-title", `[data-rename="0"]`]) {
      const before = await replies();
      await browser.eval(`document.querySelector("#desk-names").open = true, document.querySelector('${field}').focus()`);
      await browser.send("Input.insertText", { text: "inquiry" });
      const { x, y } = await browser.place("#desk-steps [data-kind=freeze]");
      await browser.mouse(x + 5, y + 5);
      await browser.until(`/inquiry/.test(document.querySelector('${field}').value) && localStorage.getItem("${KEY}").includes("inquiry")`);
      assert.equal(await replies(), before + 1);
    }
  });
  await check("the escape key leaves a question, and the cursor goes back", async () => {
    await browser.eval(`(b => { b.focus(); b.click(); })(document.querySelector("#desk-steps [data-kind=fail]"))`);
    assert.equal(await browser.eval(`document.activeElement.textContent`), "leave it");
    await browser.key("Escape");
    assert.equal(await browser.text("#desk-confirm"), "");
    assert.equal(await browser.eval(`document.activeElement.dataset.kind`), "fail");
  });
}
