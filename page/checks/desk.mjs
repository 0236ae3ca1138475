// The desk: a small hearing by buttons, costs before a fall, files in and out, restoring after a reload, what can't be restored.
import assert from "node:assert/strict";
import { readFileSync, writeFileSync, existsSync, rmSync } from "node:fs";

export async function deskChecks(context) {
  await hearing(context);
  await saving(context);
  await opening(context);
  await helping(context);
  await restoring(context);
}

/** Hands for the desk. */
export function hands(browser) {
  const act = async (kind, where = "", fields = {}) => {
    for (const [selector, value] of Object.entries(fields)) await browser.fill(selector, value);
    await browser.click(`#desk-steps [data-kind=${kind}]${where}`);
  };
  return {
    open: (name, words) => act("root", "", { "#desk-name": name, "#desk-words": words }),
    take: (kind, take, words = "", to = "") => {
      return act(kind, `[data-take="${take}"]`, { "#desk-words": words, ...(to ? { [`#desk-steps .to[data-from="${take}"]`]: to } : {}) });
    },
    receive: number => act("receive", `[data-parcel="${number}"]`),
    board: () => browser.text("#desk-board"),
    replies: () => browser.all("#desk-rows .reply"),
  };
}

async function small(browser, url) {
  const desk = hands(browser);
  await browser.go(`${url}#view=details`);
  await browser.forget();
  await browser.go(`${url}#view=details`);
  await desk.open("speaker list", "names as heard");
  await desk.open("pages 1 to 30", "raw");
  await desk.open("pages 31 to 60", "raw");
  await desk.take("letter", 0, "Meyer is Maier");
  await desk.receive(0);
  await desk.take("write", 0, "names corrected");
  await desk.take("send", 0, "use the new names", "1");
  await desk.receive(1);
  await desk.take("write", 1, "set with Maier");
  await desk.take("freeze", 1);
  await desk.take("send", 1, "numbering", "2");
  await desk.receive(2);
  await desk.take("write", 2, "numbered on");
  return desk;
}

async function hearing(context) {
  const desk = await small(context.browser, context.url);
  await board(context, desk);
  await withdrawing(context, desk);
  await signing(context, desk);
}

async function board({ browser, check, shots }, desk) {
  await check("a hearing by buttons, in the desk's own words", async () => {
    assert.deepEqual(await desk.replies(), Array(13).fill("done"));
    assert.match(await browser.content("#desk-rows"), /new text of pages 1 to 30: “set with Maier”/);
    await browser.shot(`${shots}desk.png`);
  });
  await check("what can be signed and what stands in the way", async () => {
    assert.match(await desk.board(), /No volume is ready/);
    assert.match(await desk.board(), /1 pages 1 to 30\s+Pages 1 to 30 rests on speaker list: neither signed nor frozen\./);
    assert.match(await desk.board(), /What would help: freeze speaker list, then sign \{0,1\} \(speaker list and pages 1 to 30\)\./);
    await desk.take("freeze", 0);
    assert.match(await desk.board(), /sign \{0\} speaker list\s+sign \{0,1\} speaker list and pages 1 to 30\s+2 volumes are ready in all/);
  });
  await check("what waits for whom", async () => {
    await desk.take("send", 0, "one more", "2");
    assert.match(await desk.board(), /2 pages 31 to 60\s+3\s+speaker list\s+“one more”/);
  });
  await check("a parcel is lost only after a question", async () => {
    await browser.click(`#desk-steps [data-kind=lose][data-parcel="3"]`);
    assert.match(await browser.text("#desk-confirm"), /Lose parcel 3\?/);
    await browser.press("#desk-confirm", "leave it");
    assert.match(await desk.board(), /“one more”/);
  });
}

async function withdrawing({ browser, check }, desk) {
  await check("what a withdrawal costs, before it is done", async () => {
    await desk.take("fail", 1);
    assert.match(await browser.text("#desk-confirm"), /Withdraw pages 1 to 30\? Nothing would happen: it is frozen\./);
    const before = (await desk.replies()).length;
    await browser.press("#desk-confirm", "leave it");
    assert.equal((await desk.replies()).length, before);
    await desk.take("fail", 1);
    await browser.click("#confirm-fall");
    assert.equal((await desk.replies()).at(-1), "held");
    await desk.take("fail", 2);
    assert.match(await browser.text("#desk-confirm"), /It was never signed: its text “numbered on” is lost for good\./);
    await browser.press("#desk-confirm", "leave it");
  });
  await check("a text without words and a name that exists are asked about first", async () => {
    const before = (await desk.replies()).length;
    await desk.take("write", 2);
    assert.match(await browser.text("#desk-confirm"), /No words are given\. Pages 31 to 60 would get text 0/);
    await desk.open("speaker list", "again");
    assert.match(await browser.text("#desk-confirm"), /Take 0 is called “speaker list” already\./);
    await browser.press("#desk-confirm", "leave it");
    assert.equal((await desk.replies()).length, before);
  });
  await check("an addressee stands beside its send, without the sender, and stays", async () => {
    assert.deepEqual(await browser.all(`#desk-steps .to[data-from="0"] option`), ["1 pages 1 to 30", "2 pages 31 to 60"]);
    assert.equal(await browser.eval(`document.querySelector('#desk-steps .to[data-from="0"]').value`), "2");
  });
}

async function signing({ browser, check, shots }, desk) {
  await check("sign by the board, undo, thin", async () => {
    await browser.click(`#desk-board [data-volume="3"]`);
    await browser.click("#confirm-sign");
    assert.equal((await desk.replies()).at(-1), "done");
    assert.doesNotMatch(await desk.board(), /What stands in the way[^]*\d speaker list[^]*What is waiting/);
    await browser.click("#desk-undo");
    assert.match(await browser.text("#desk-confirm"), /Take the signing of speaker list and pages 1 to 30 back\?/);
    await browser.click("#confirm-undo");
    assert.equal((await desk.replies()).at(-1), "held");
    const read = await desk.replies();
    await desk.take("read", 0);
    await desk.take("done", 0);
    await browser.click("#desk-thin");
    assert.match(await browser.text("#desk-done"), /1 step left out/);
    assert.equal((await desk.replies()).length, read.length + 1);
  });
  await losing({ browser, check }, desk);
  await check("the engine without maps gives the same replies", async () => {
    await browser.click("#desk-hold");
    assert.match(await browser.text("#desk-notice"), /gives the same replies/);
  });
  await check("falls and the worst window", async () => {
    await browser.eval(`document.querySelector("#desk-steps [data-kind=fail][data-take='2']").click()`);
    await browser.click("#confirm-fall");
    assert.equal((await desk.replies()).at(-1), "vanished");
    const n = (await desk.replies()).length;
    assert.match(await browser.text("#desk-falls"), new RegExp(`Most falls within 8 replies: 1, in steps ${n - 7} to ${n}\\.`));
    assert.match(await desk.board(), /2 pages 31 to 60\s+3\s+speaker list\s+“one more”\s+The take vanished: the parcel can only be lost\./);
    await browser.shot(`${shots}desk-later.png`);
  });
}

/** Presses a button that saves, and gives the file's bytes. */
async function saved(browser, button, name) {
  const file = `${browser.downloads}/${name}`;
  rmSync(file, { force: true });
  await browser.click(button);
  for (const end = Date.now() + 60000; Date.now() < end; await new Promise(r => setTimeout(r, 30))) {
    if (existsSync(file) && readFileSync(file).length) return readFileSync(file);
  }
  throw new Error(`${name} was not saved`);
}

const put = (browser, name, bytes) => {
  writeFileSync(`${browser.profile}/${name}`, bytes);
  return `${browser.profile}/${name}`;
};

async function saving({ browser, check, url }) {
  const files = {};
  await small(browser, url);
  await check("save: text with names, packed list, image, old image, the desk's file", async () => {
    files.text = await saved(browser, "#save-text", "hearing.steps");
    files.list = await saved(browser, "#save-list", "hearing.list");
    files.image = await saved(browser, "#save-image", "hearing.image");
    files.old = await saved(browser, "#save-old", "hearing.old-image");
    files.desk = await saved(browser, "#save-desk", "hearing.json");
    const words = (await saved(browser, "#save-words", "hearing.txt")).toString();
    assert.match(words, /^limits: takes 16, parcels 32, signings 15\nopened 3, next parcel 3\ntake 0: at work, text 4, saved 0\n/);
    assert.match(files.text.toString(), /^root text 1\s+# speaker list\nroot text 2\s+# pages 1 to 30\n/);
    assert.deepEqual([files.list.length, files.image.length, files.old.length], [13 * 8, 42616, 22132]);
    const file = JSON.parse(files.desk);
    assert.deepEqual([file.version, file.steps.length, file.limits], [1, 13, { takes: 16, parcels: 32, signings: 15 }]);
    assert.deepEqual(file.takes, ["speaker list", "pages 1 to 30", "pages 31 to 60"]);
    assert.ok(Object.values(file.texts).includes("names corrected"));
  });
  const named = { text: "speaker list", list: "take 0", image: "take 0", old: "take 0", desk: "speaker list" };
  for (const [name, words] of Object.entries(named)) {
    await check(`open again: ${name}`, async () => {
      await small(browser, url);
      await browser.give("#desk-open", put(browser, `again-${name}`, files[name]));
      await browser.until(`document.querySelector("#confirm-open")`);
      await browser.click("#confirm-open");
      const lacks = { text: /This file has no words\./, desk: /^$/ }[name] ?? /This file has no words or names\./;
      assert.match(await browser.text("#desk-notice"), lacks);
      assert.deepEqual(await saved(browser, "#save-image", "hearing.image"), files.image);
      assert.match(await browser.text("#desk-steps"), new RegExp(words));
    });
  }
}

const deskFile = rest => `{"format":"take ledger desk",${rest}}`;

// Files that can't be opened, and a word of the reason.
/** @type {[name: string, bytes: string | Uint8Array, words: RegExp][]} */
const NOTHING = [
  ["short", Buffer.from([0, 1, 2]), /no image, no text/],
  ["text", "root text 1\nrot 2\n", /line 2, column 1/],
  ["json", deskFile(`"version":9`), /its version is 9/],
  ["image", deskFile(`"version":1,"steps":[],"image":"AAAA"`), /16, wrong length/],
  ["base", deskFile(`"version":1,"steps":[],"image":"!"`), /no base64/],
  ["limits", deskFile(`"version":1,"steps":[],"limits":{"takes":99}`), /33, out of range/],
  ["old", Buffer.alloc(22132, 255), /19, ill-formed/],
  ["cut.image", Buffer.alloc(20000), /it is not a whole image\./],
  ["list", Buffer.from([1, 0, 0, 0, 0, 0, 0, 0]), /this does not look like a step list\./],
  ["words", "limits: takes 16, parcels 32, signings 15\n", /this is an image in words, to be read only\./],
];

async function opening({ browser, check, url }) {
  await browser.go(`${url}#view=details`);
  await check("a file that is nothing is named with its reason, and the hearing stays", async () => {
    const before = await browser.content("#desk-rows");
    for (const [name, bytes, words] of NOTHING) {
      await browser.give("#desk-open", put(browser, name, bytes));
      await browser.until(`/${name} can't be opened/.test(document.querySelector("#desk-notice").innerText)`);
      assert.match(await browser.text("#desk-notice"), words);
    }
    assert.equal(await browser.content("#desk-rows"), before);
  });
  await check("a new hearing with limits; limits out of range are refused", async () => {
    await browser.fill("#new-takes", "2");
    await browser.click("#desk-begin");
    assert.match(await browser.text("#desk-notice"), /Begin a new hearing\? The present one is removed from this page\./);
    await browser.click("#confirm-open");
    assert.match(await browser.text("#desk-bar"), /0 steps; room for 2 takes, 32 parcels, 15 signings/);
    await browser.fill("#new-takes", "40");
    await browser.click("#desk-begin");
    assert.match(await browser.text("#desk-notice"), /33, out of range/);
  });
}

async function helping({ browser, check }) {
  await check("what would help can be followed: an idle take is started first", async () => {
    const desk = hands(browser);
    await desk.open("speaker list", "names as heard");
    assert.match(await desk.board(), /What would help: start work on speaker list, freeze it, then sign \{0\} \(speaker list\)\./);
  });
}

async function restoring({ browser, check, url, shots }) {
  await check("restored after a reload by playing the list", async () => {
    const desk = await small(browser, url), before = await browser.content("#desk-rows");
    const image = await saved(browser, "#save-image", "hearing.image");
    await browser.go(`${url}#view=details`);
    assert.equal(await browser.content("#desk-rows"), before);
    assert.deepEqual(await saved(browser, "#save-image", "hearing.image"), image);
    assert.match(await desk.board(), /speaker list/);
  });
  await check("what can't be restored is shown, can be saved as it is, and is dropped only when told so", async () => {
    const broken = deskFile(`"version":1,"limits":{"takes":16,"parcels":32,"signings":15},"steps":["root text 1","rot 2"]`);
    await browser.eval(`localStorage.setItem("take-ledger.desk", ${JSON.stringify(broken)})`);
    await browser.go(`${url}#view=details`);
    assert.match(await browser.text(".unrestored"), /can't be restored/);
    assert.ok((await browser.text(".unrestored pre")).includes("rot 2"));
    await browser.shot(`${shots}unrestored.png`);
    assert.equal((await saved(browser, ".unrestored button", "kept-hearing.txt")).toString(), broken);
    await browser.go(`${url}#view=details`);
    assert.ok((await browser.text(".unrestored pre")).includes("rot 2"));
    await browser.press(".unrestored", "remove");
    await browser.go(`${url}#view=details`);
    assert.equal(await browser.text(".unrestored"), null);
  });
}

async function losing({ browser, check }, desk) {
  await check("the loss of a parcel is asked about", async () => {
    const before = (await desk.replies()).length;
    await desk.take("letter", 0, "to be lost");
    await browser.click("#desk-steps [data-kind=lose]");
    assert.match(await browser.text("#desk-confirm"), /Lose parcel \d+\? It is gone for good, and nobody receives it\./);
    await browser.press("#desk-confirm", "leave it");
    assert.equal((await desk.replies()).length, before + 1);
    await browser.click("#desk-steps [data-kind=lose]");
    await browser.click("#confirm-loss");
    assert.deepEqual([(await desk.replies()).length, (await desk.replies()).at(-1)], [before + 2, "done"]);
    for (let i = 0; i < 2; i++) await browser.click("#desk-undo");
  });
}
