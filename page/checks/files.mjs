// Files that are not what they say: empty, cut, random, with words for what is no text.
import assert from "node:assert/strict";
import { writeFileSync } from "node:fs";
import { hands } from "./desk.mjs";
import { listed } from "./steps.mjs";

const ENDINGS = ["json", "steps", "list", "image", "old-image", "txt", "bin"], LENGTHS = [1, 7, 8, 64, 4096, 22132, 42616];

const deskFile = rest => JSON.stringify({ format: "take ledger desk", version: 1, limits: { takes: 16, parcels: 32, signings: 15 }, ...rest });

/** Bytes that look random and are the same each time. */
function noise(length, seed) {
  let now = seed;
  return Buffer.from(Array.from({ length }, () => (now = (Math.imul(now, 1103515245) + 12345) >>> 0) >>> 24));
}

// Files, and what is said of them.
/** @type {[name: string, bytes: string | Uint8Array, words: RegExp][]} */
const REASONS = [
  ["empty.json", "", /can't be opened: it is empty\./],
  ["blank.steps", "  \n# nothing\n", /can't be opened: it has no steps\./],
  ["cut.json", deskFile({ steps: ["root text 1"] }).slice(0, -9), /can't be opened: it is no whole file of this desk \(/],
  ["odd.json", deskFile({ steps: [], texts: { abc: "hello" } }), /it has words for “abc”, which is no text/],
  ["large.json", deskFile({ steps: [], texts: { 4294967296: "hello" } }), /it has words for “4294967296”, which is no text/],
  ["names.json", deskFile({ steps: [], takes: [7] }), /its names are no words/],
];

export async function filesChecks({ browser, check, url }) {
  const desk = hands(browser), put = (name, bytes) => {
    writeFileSync(`${browser.profile}/${name}`, bytes);
    return `${browser.profile}/${name}`;
  };
  const said = async (host, field, name, bytes) => {
    await browser.eval(`document.querySelector("${host}").replaceChildren()`);
    await browser.give(field, put(name, bytes));
    await browser.until(`document.querySelector("${host}").textContent`);
    return browser.text(host);
  };
  await browser.go(`${url}#view=details`);
  await browser.forget();
  await browser.go(`${url}#view=details`);
  await desk.open("names", "a");
  const before = await browser.eval(`localStorage.getItem("take-ledger.desk")`);
  for (const [name, bytes, words] of REASONS) {
    await check(`a file that is not what it says: ${name}`, async () => assert.match(await said("#desk-notice", "#desk-open", name, bytes), words));
  }
  await check("random bytes as every kind of file: a reason, and the hearing stays", async () => {
    for (const ending of ENDINGS) for (const [i, length] of LENGTHS.entries()) {
      const name = `random-${length}.${ending}`, words = await said("#desk-notice", "#desk-open", name, noise(length, 7 * i + ending.length));
      assert.ok(words.startsWith(`${name} can't be opened: `), words);
    }
    assert.equal(await browser.eval(`localStorage.getItem("take-ledger.desk")`), before);
  });
  await check("random bytes in the course: a reason, and the picture stays", async () => {
    await browser.go(`${url}#${listed("94-a-bad-hour")}`);
    for (const ending of ENDINGS) assert.match(await said("#fault", "#course-open", `r.${ending}`, noise(4096, 5)), /^r\.\S+: /);
    assert.equal(await browser.eval(`document.querySelectorAll("#course-rows li").length`), 26);
  });
}
