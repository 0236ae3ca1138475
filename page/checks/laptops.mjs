// Going on elsewhere by a file: the desk's hearing goes to the store's program and comes back, with names, words, steps, who and when; the
// chain of sums is computed here by node's SHA-256, in the page by WebCrypto, and in the store by its own.
import assert from "node:assert/strict";
import { execFileSync, spawnSync } from "node:child_process";
import { createHash } from "node:crypto";
import { existsSync, readFileSync, rmSync, writeFileSync } from "node:fs";
import { freshDesk, states } from "./wishes.mjs";
import { rowsOf } from "../src/desk/sheet.mjs";

const notice = browser => browser.text("#desk-notice");
const listed = async browser => {
  await browser.click("#front-hearings");
  await browser.until(`document.querySelector("#desk-dialog[open] .hearings li")`);
};

/** What a button saves, once it is there. */
async function saved(browser, selector, name) {
  const file = `${browser.downloads}/${name}`;
  rmSync(file, { force: true });
  await browser.click(selector);
  for (const end = Date.now() + 60000; Date.now() < end; await new Promise(r => setTimeout(r, 30))) if (existsSync(file) && readFileSync(file).length) return readFileSync(file, "utf8");
  throw new Error(`${name} was not saved`);
}

/** The lines of a log; fails where a sum is not the SHA-256 of the one before, a blank, and the line. */
function followed(text) {
  let before = "";
  return text.split("\n").filter(l => l && !l.startsWith("#")).map(row => {
    const [sum, line] = [row.slice(0, 64), row.slice(65)], right = createHash("sha256").update(before ? `${before} ${line}` : line).digest("hex");
    assert.equal(sum, right, line);
    before = sum;
    return { sum, line };
  });
}

async function opened(browser, file) {
  await listed(browser);
  await browser.give("#hearings-open", file);
}

export async function laptopsChecks(context) {
  const { browser, root } = context, tool = (...words) => execFileSync(`${root}target/tool/take-ledger`, words, { cwd: browser.profile, encoding: "utf8" });
  const put = (name, text) => writeFileSync(`${browser.profile}/${name}`, text), bench = { ...context, tool, put, sum: "", before: [] };
  await toStore(bench);
  await fromStore(bench);
  await goingOn(bench);
  await changed(bench);
  await browser.forget();
}

async function toStore(bench) {
  const { browser, check, url, tool, put } = bench;
  await freshDesk(browser, url);
  await browser.click("#desk-example");
  await check("the desk's file is one that the store's program takes in, and holds: names, words, who, when and the last sum", async () => {
    await listed(browser);
    await browser.fill("#hearings-keeper", "R. Osei");
    const text = await saved(browser, `#desk-dialog [aria-label^="Save as a file"]`, "Harbour-inquiry-day-3.hearing"), lines = followed(text);
    await browser.click("#hearings-close");
    const { sum } = lines.at(-1);
    Object.assign(bench, { sum, before: await states(browser) });
    put("desk.hearing", text);
    for (const end of ["", "-wal", "-shm"]) rmSync(`${browser.profile}/office.db${end}`, { force: true });
    tool("import", "office.db", "log", "desk.hearing");
    const steps = lines.filter(l => l.line.startsWith("step ")).length;
    assert.equal(tool("check", "office.db"), `holds: ${steps} steps, sum ${sum}\n`);
    assert.deepEqual(rowsOf(tool("export", "office.db", "names")).slice(0, 5), [["take", "name", "owner"], ["0", "Mr. Abara", "R. Osei"], ["1", "Ms. Lindqvist", "R. Osei"], ["2", "Judge Okoro", "R. Osei"], ["3", "Page 1", "R. Osei"]]);
    assert.match(tool("export", "office.db", "words"), /4,,MR\. ABARA: Good morning\.\n/);
    assert.match(tool("log", "office.db"), /^1 root text 0 # done take 0 \(R\. Osei, \d{4}-\d\d-\d\dT\d\d:\d\d:\d\d\.\d{3}Z\)/);
    assert.equal(followed(tool("export", "office.db", "log")).at(-1).sum, sum);
  });
  await check("the printed record has the last sum of the file", async () => {
    await browser.eval(`window.print = () => (window.printed = (window.printed ?? 0) + 1)`);
    await browser.click("#front-print");
    await browser.until(`window.printed === 1`);
    await browser.eval(`window.dispatchEvent(new Event("beforeprint"))`);
    assert.equal((await browser.content("#desk-record .digits")).replaceAll(" ", ""), bench.sum);
    assert.match(await browser.content("#desk-record"), /Kept by R\. Osei\./);
  });
}

async function fromStore({ browser, check, url, shots, tool, put, ...bench }) {
  await check("what the store wrote since comes back to the desk: another's take, its words, who and when", async () => {
    tool("do", "office.db", "root text 50");
    put("names.csv", "take,name,owner\n9,Page 7,anna\n");
    put("words.csv", "text,speaker,words\n50,,Said at the office: \u201cyes\u201d.\n51,,As corrected by Anna.\n");
    tool("import", "office.db", "names", "names.csv");
    tool("import", "office.db", "words", "words.csv");
    const [, parcel] = tool("do", "office.db", "letter to Page 7").split(" parcel ");
    tool("do", "office.db", `receive ${parcel.trim()}`, "--as", "anna");
    tool("do", "office.db", "write Page 7 text 51", "--as", "anna");
    put("back.hearing", tool("export", "office.db", "log"));
    await freshDesk(browser, url);
    await opened(browser, `${browser.profile}/back.hearing`);
    await browser.until(`document.querySelectorAll("#desk-lanes [data-card]").length === 10`);
    assert.deepEqual((await states(browser)).slice(0, 9), bench.before);
    assert.match(await browser.eval(`document.querySelector('[data-card="9"]').getAttribute("aria-label")`), /^Page 7, As corrected by Anna\., draft/);
    assert.equal(await browser.eval(`document.querySelector("#front-title").value`), "Harbour inquiry, day 3");
    await browser.click("#front-sheet");
    const record = rowsOf(await saved(browser, "#out-record", "Harbour-inquiry-day-3-record.csv"));
    await browser.click("#sheet-close");
    assert.deepEqual(record.slice(-1)[0].slice(3, 5), ["anna", "page 7: written: \u201cAs corrected by Anna.\u201d"]);
    assert.equal(record[1][3], "R. Osei");
    await browser.shot(`${shots}desk-from-store.png`);
  });
}

async function goingOn({ browser, check, tool, put }) {
  await check("the desk goes on, and its file is the store's log with more lines: it holds there too", async () => {
    const card = `[data-card="9"]`;
    await browser.click(card);
    await browser.fill("#card-words", "As the desk wrote it.");
    await browser.click("#card-write");
    await listed(browser);
    const text = await saved(browser, `#desk-dialog [aria-label^="Save as a file"]`, "Harbour-inquiry-day-3.hearing"), lines = followed(text), old = followed(readFileSync(`${browser.profile}/back.hearing`, "utf8"));
    await browser.click("#hearings-close");
    assert.deepEqual(lines.slice(0, old.length), old);
    assert.ok(lines.length > old.length);
    put("again.hearing", text);
    for (const end of ["", "-wal", "-shm"]) rmSync(`${browser.profile}/again.db${end}`, { force: true });
    tool("import", "again.db", "log", "again.hearing");
    assert.match(tool("check", "again.db"), new RegExp(`^holds: \\d+ steps, sum ${lines.at(-1).sum}\n$`));
    assert.match(tool("status", "again.db"), /9 \(Page 7, R\. Osei\): idle, text \d+ "As the desk wrote it\."/);
  });
}

async function changed({ browser, check, root, put }) {
  await check("a log that was changed is not opened, by either; the store's own file is told from its log", async () => {
    const lines = readFileSync(`${browser.profile}/again.hearing`, "utf8").split("\n"), at = lines.findIndex(l => l.slice(65).startsWith("words 50 "));
    for (const odd of [lines.map((l, i) => (i === at ? l.replace("53616964", "53617964") : l)), lines.filter((_, i) => i !== at)]) {
      put("changed.hearing", odd.join("\n"));
      await opened(browser, `${browser.profile}/changed.hearing`);
      await browser.until(`document.querySelector("#desk-notice").textContent`);
      assert.match(await notice(browser), new RegExp(`changed\\.hearing can't be opened: the sums do not hold at line ${at + 1}: there, or before it, something was changed or left out`));
      await browser.press("#desk-notice", "close");
      rmSync(`${browser.profile}/changed.db`, { force: true });
      const run = spawnSync(`${root}target/tool/take-ledger`, ["import", "changed.db", "log", "changed.hearing"], { cwd: browser.profile, encoding: "utf8" });
      assert.deepEqual([run.status, existsSync(`${browser.profile}/changed.db`)], [1, false]);
    }
    await opened(browser, `${browser.profile}/again.db`);
    await browser.until(`document.querySelector("#desk-notice").textContent`);
    assert.match(await notice(browser), /again\.db can't be opened: it is the store's own file\./);
    await browser.press("#desk-notice", "close");
  });
}
