// all [PART ..]: every check of the page, or those of some parts (sources, lessons, picture, steps, wishes, keyboard, sheets, spellings, hearings, laptops, desk, habits, keeping, files, compare, screen, contrast, manners), one after the other; ends with 'N passed, 0 failed'.
import { mkdirSync } from "node:fs";
import { fileURLToPath } from "node:url";
import { Browser } from "./browser.mjs";
import { stepsChecks } from "./steps.mjs";
import { lessonsChecks } from "./lessons.mjs";
import { wishesChecks } from "./wishes.mjs";
import { keyboardChecks } from "./keyboard.mjs";
import { sheetsChecks } from "./sheets.mjs";
import { spellingsChecks } from "./spellings.mjs";
import { hearingsChecks } from "./hearings.mjs";
import { laptopsChecks } from "./laptops.mjs";
import { deskChecks } from "./desk.mjs";
import { habitsChecks } from "./habits.mjs";
import { compareChecks } from "./compare.mjs";
import { keepingChecks } from "./keeping.mjs";
import { filesChecks } from "./files.mjs";
import { sourcesChecks } from "./sources.mjs";
import { mannersChecks } from "./manners.mjs";
import { screenChecks } from "./screen.mjs";
import { contrastChecks } from "./contrast.mjs";
import { pictureChecks } from "./picture.mjs";

const root = fileURLToPath(new URL("../../", import.meta.url)), shots = `${root}target/page/shots/`;
mkdirSync(shots, { recursive: true });
const browser = await Browser.open(), url = `file://${root}page/page.html`;
let passed = 0, failed = 0;

async function check(name, body) {
  try {
    await body();
    passed++;
    console.log(`ok ${name}`);
  } catch (e) {
    failed++;
    console.log(`not ok ${name}\n   ${String(e instanceof Error ? e.stack : e).replaceAll("\n", "\n   ")}`);
  }
}

try {
  await check("the page starts", () => browser.go(url));
  const used = { lessons: lessonsChecks, picture: pictureChecks, steps: stepsChecks, wishes: wishesChecks, keyboard: keyboardChecks, sheets: sheetsChecks, spellings: spellingsChecks, hearings: hearingsChecks, laptops: laptopsChecks, desk: deskChecks, habits: habitsChecks, keeping: keepingChecks, files: filesChecks };
  const parts = { sources: sourcesChecks, ...used, compare: compareChecks, screen: screenChecks, contrast: contrastChecks, manners: mannersChecks }, asked = process.argv.slice(2);
  const chosen = failed ? [] : asked.length ? asked.map(name => parts[name]) : Object.values(parts);
  for (const checks of chosen) await checks({ browser, check, url, root, shots });
  if (failed) console.log(browser.troubles().join("\n"));
} finally {
  await browser.close();
}
console.log(`${passed} passed, ${failed} failed`);
process.exitCode = failed ? 1 : 0;
