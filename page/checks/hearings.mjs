// Several hearings: the list, search, doubles, a file for another laptop; and that nothing is lost by two windows or a browser that dies.
import assert from "node:assert/strict";
import { existsSync, readFileSync, rmSync } from "node:fs";
import { Browser } from "./browser.mjs";
import { freshDesk, states } from "./wishes.mjs";

const rows = browser => browser.all("#desk-dialog .hearings b");
const listed = async browser => {
  await browser.click("#front-hearings");
  await browser.until(`document.querySelector("#desk-dialog[open] .hearings li")`);
};
const written = browser => browser.until(`Number(document.querySelector("#desk").dataset.kept ?? -1) > 0`);
const press = (browser, label) => browser.click(`#desk-dialog [aria-label="${label}"]`);
const title = browser => browser.eval(`document.querySelector("#front-title").value`);

/** Adds a name, and waits until it is on the disk. */
async function named(browser, name) {
  const before = await browser.eval(`document.querySelector("#desk").dataset.kept ?? "0"`);
  await browser.fill("#add-name", name);
  await browser.eval(`document.querySelector("#add-name").form.requestSubmit()`);
  await browser.until(`(document.querySelector("#desk").dataset.kept ?? "0") !== "${before}"`);
}

export async function hearingsChecks(context) {
  await list(context);
  await fresh(context);
  await twoWindows(context);
  await full(context);
  await dying(context);
  await context.browser.forget();
}

async function list({ browser, check, url, shots }) {
  await freshDesk(browser, url);
  await check("a list of hearings with dates, searched by title, names and words", async () => {
    await browser.click("#desk-example");
    await written(browser);
    await listed(browser);
    await browser.click("#hearings-new");
    await browser.fill("#front-title", "Day 4");
    await named(browser, "Ms. Tanaka");
    await listed(browser);
    assert.deepEqual((await rows(browser)).sort(), ["Day 4", "Harbour inquiry, day 3"]);
    assert.match(await browser.text("#desk-dialog .hearings"), /\d{4}-\d\d-\d\d, \d\d:\d\d to (\d{4}-\d\d-\d\d, )?\d\d:\d\d; 9 cards/);
    await browser.shot(`${shots}desk-hearings.png`);
    await browser.fill("#hearings-search", "tanaka");
    assert.deepEqual(await rows(browser), ["Day 4"]);
    await browser.fill("#hearings-search", "");
  });
  await file({ browser, check });
}

async function file({ browser, check }) {
  await check("a hearing is opened, doubled, saved as a file and removed; a file is another laptop's way in", async () => {
    await press(browser, "Open: Harbour inquiry, day 3");
    assert.equal(await title(browser), "Harbour inquiry, day 3");
    const before = await states(browser), file = `${browser.downloads}/Harbour-inquiry-day-3.hearing`;
    rmSync(file, { force: true });
    await listed(browser);
    await press(browser, "Save as a file: Harbour inquiry, day 3");
    for (const end = Date.now() + 30000; !existsSync(file) && Date.now() < end;) await new Promise(r => setTimeout(r, 30));
    assert.match(readFileSync(file, "utf8"), /^# desk .*\n[0-9a-f]{64} hearing 16 32 15 \d{4}-\d\d-\d\dT[\d:.]+Z 6465736b [0-9a-f]+\n/);
    await press(browser, "Duplicate: Harbour inquiry, day 3");
    assert.equal(await title(browser), "Harbour inquiry, day 3 (copy)");
    await listed(browser);
    await press(browser, "Remove: Day 4");
    await press(browser, "Remove: Day 4");
    await browser.until(`document.querySelectorAll("#desk-dialog .hearings b").length === 2`);
    await browser.give("#hearings-open", file);
    await browser.until(`document.querySelector("#confirm-open")`);
    await browser.click("#confirm-open");
    assert.deepEqual([await title(browser), await states(browser)], ["Harbour inquiry, day 3", before]);
    await listed(browser);
    assert.equal((await rows(browser)).length, 3);
    await browser.click("#hearings-close");
  });
}

async function fresh({ browser, check, url }) {
  await check("a fresh session goes on with signed names and texts, says what stays behind, and keeps the old one", async () => {
    await freshDesk(browser, url);
    await browser.click("#desk-example");
    for (const id of ["#sign-ready", "#ask-yes"]) await browser.click(id);
    for (let i = 0; i < 6; i++) await named(browser, `Speaker ${i}`);
    await browser.fill("#add-name", "the last");
    await browser.eval(`document.querySelector("#add-name").form.requestSubmit()`);
    await browser.click("#ask-yes");
    await browser.click("#desk-fresh");
    assert.match(await browser.text("#desk-dialog"), /1 card comes over with the signed text; room for 15 more\.[^]*What does not come over: drafts and frozen words, what rests on what, and the steps so far\. Without a signed text: Mr\. Abara/);
    await browser.click(`#desk-dialog [value="5"]`);
    await browser.click("#fresh-go");
    assert.deepEqual([await browser.all("#desk-lanes .ttl"), await states(browser)], [["Judge Okoro", "Page 3"], ["signed", "signed"]]);
    await listed(browser);
    assert.deepEqual((await rows(browser)).sort(), ["Harbour inquiry, day 3", "Harbour inquiry, day 3 (continued)"]);
    await browser.click("#hearings-close");
  });
}

async function twoWindows({ browser, check, url }) {
  await check("two windows on one hearing: the second to write goes on in a copy, and both are in the list", async () => {
    await freshDesk(browser, url);
    await named(browser, "Mr. Abara");
    const other = await browser.another();
    await other.go(`${url}#view=desk`);
    await named(other, "Ms. Lindqvist");
    await named(browser, "Judge Okoro");
    await browser.until(`/goes on in a copy/.test(document.querySelector("#desk-notice").innerText)`);
    await listed(browser);
    assert.equal((await rows(browser)).length, 2);
    await browser.click("#hearings-close");
    assert.deepEqual([await browser.all("#desk-lanes .ttl"), await other.all("#desk-lanes .ttl")], [["Mr. Abara", "Judge Okoro"], ["Mr. Abara", "Ms. Lindqvist"]]);
    await other.shut();
  });
}

/** Adds names one after the other without waiting for the disk, and has the browser die in the midst of it; how many the page has said to be kept. */
async function diesAmid(first, speakers) {
  await first.eval(`(async () => {
    for (const name of ${JSON.stringify(speakers)}) {
      const field = document.querySelector("#add-name");
      field.value = name;
      field.dispatchEvent(new Event("input", { bubbles: true }));
      field.form.requestSubmit();
      window.sure = (window.sure ?? []).concat([[name, document.querySelector("#desk").dataset.kept ?? "0"]]);
      await new Promise(r => setTimeout(r, 4));
    }
  })()`);
  const kept = Number(await first.eval(`document.querySelector("#desk").dataset.kept ?? 0`));
  await first.kill();
  return kept;
}

async function dying({ check, url }) {
  await check("a browser that is killed loses nothing that was written, opens the hearing again, and says so", async () => {
    const first = await Browser.open(1400, 900), speakers = [0, 1, 2, 3, 4].map(i => `Speaker ${i}`);
    await first.go(`${url}#view=desk`);
    for (const name of speakers) await named(first, name);
    const steps = await first.eval(`document.querySelector("#desk").dataset.kept`);
    await first.kill();
    const second = await Browser.open(1400, 900, first.profile);
    try {
      await second.go(url);
      assert.equal(await second.eval(`document.body.dataset.view`), "desk");
      assert.deepEqual(await second.all("#desk-lanes .ttl"), speakers);
      assert.match(await second.text("#desk-notice"), /The browser ended before this page was closed\. The hearing is here with all that was done, \d{4}-\d\d-\d\d at \d\d:\d\d:\d\d: the last was \u201cSpeaker 4 is added\u201d\./);
      await named(second, "Speaker 5");
      assert.ok(Number(await second.eval(`document.querySelector("#desk").dataset.kept`)) > Number(steps));
      await second.go(`${url}#view=desk`);
      assert.equal(await second.text("#desk-notice"), "");
    } finally {
      await second.close();
    }
  });
  await check("killed in the midst of writing: what the page said to be kept is there, and what is there is whole", async () => {
    const speakers = Array.from({ length: 12 }, (_, i) => `Speaker ${i}`), first = await Browser.open(1400, 900);
    await first.go(`${url}#view=desk`);
    await named(first, "Mr. Abara");
    const kept = await diesAmid(first, speakers), second = await Browser.open(1400, 900, first.profile);
    try {
      await second.go(`${url}#view=desk`);
      const titles = await second.all("#desk-lanes .ttl"), here = titles.length;
      assert.deepEqual(titles, ["Mr. Abara", ...speakers].slice(0, here));
      assert.ok(here * 9 >= kept, `${here} names, ${kept} steps were kept`);
      await named(second, "Judge Okoro");
      assert.equal((await second.all("#desk-lanes .ttl")).at(-1), "Judge Okoro");
    } finally {
      await second.close();
    }
  });
}

/** A browser remembers for half a minute how much room there was: the room is taken from a new one, before it writes anything. */
async function full({ check, url }) {
  const browser = await Browser.open(1400, 900), add = async name => {
    await browser.fill("#add-name", name);
    await browser.eval(`document.querySelector("#add-name").form.requestSubmit()`);
  };
  const quota = size => browser.send("Storage.overrideQuotaForOrigin", { origin: "file:///", ...size });
  try {
    await check("a full database is said, with a way to a file", async () => {
      await browser.go(`${url}#view=desk`);
      await quota({ quotaSize: 1 });
      await add("Mr. Abara");
      await add("Ms. Lindqvist");
      await browser.until(`/room is full: save it as a file\\. Nothing is lost while this window is open/.test(document.querySelector("#desk-notice").innerText)`);
      await browser.press("#desk-notice", "Save as a file");
      const file = `${browser.downloads}/hearing.hearing`;
      for (const end = Date.now() + 30000; !existsSync(file) && Date.now() < end;) await new Promise(r => setTimeout(r, 30));
      assert.match(readFileSync(file, "utf8"), /take 1 4d732e204c696e647176697374 /);
    });
    await check("nothing is lost by a reload while the database is full, and what was missing is kept when there is room", async () => {
      await browser.go(`${url}#view=desk`);
      assert.deepEqual(await browser.all("#desk-lanes .ttl"), ["Mr. Abara", "Ms. Lindqvist"]);
      await quota({});
      await named(browser, "Judge Okoro");
      const takes = await browser.eval(`new Promise(yes => { const ask = indexedDB.open("take-ledger"); ask.onsuccess = () => { const all = ask.result.transaction("journal").objectStore("journal").getAll(); all.onsuccess = () => (ask.result.close(), yes(all.result.at(-1).beside.takes)); }; })`);
      assert.deepEqual(takes, ["Mr. Abara", "Ms. Lindqvist", "Judge Okoro"]);
    });
  } finally {
    await browser.close();
  }
}
