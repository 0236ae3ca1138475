// A spreadsheet of speakers retired: it comes in as its program wrote it, the hearing is worked, corrected, mended, signed, printed, and goes
// out as CSV, which LibreOffice opens. She meets no number that she did not write.
import assert from "node:assert/strict";
import { execFileSync } from "node:child_process";
import { existsSync, mkdirSync, readFileSync, rmSync, writeFileSync } from "node:fs";
import { freshDesk, person, states } from "./wishes.mjs";
import { rowsOf, sheetOf, csvOf, decoded, partingFor, separatorOf } from "../src/desk/sheet.mjs";

const NAMES = [
  ["Mr. Abara", "witness", "", "1"], ["Ms. Lindqvist", "counsel", "", "1"], ["Judge Okoro", "chair", "", "1"], ["Dr. Müller; Köln", "expert", "Dr. Müller", "4"], ["Ms. \"Kit\" Carson", "witness", "", "6"], ["van Dijk", "clerk", "", "2"],
  ["Señor Núñez", "interpreter", "", "3"], ["Ms. Tanaka", "witness", "", "7"], ["Mr. O'Neill", "counsel", "", "5"], ["=Mr. Plus", "witness", "", "8"], ["Frau Groß", "witness", "", "9"], ["Mme Élodie Durand", "observer", "", "10"],
];

// Numbers that the ledger gives, and its words for them.
const MACHINE = /\b(take|parcel|life|text|volume) \d|\{\d|\(\d|\(empty/;

/** Text as the old Windows code page writes it; all signs here have one byte of the same number. */
const windows = text => Buffer.from(text, "latin1");
const quoted = word => (/[";]/.test(word) ? `"${word.replaceAll('"', '""')}"` : word);
const sheet = rows => [["Name", "Role", "Spelling", "First page"], ...rows].map(r => r.map(quoted).join(";")).join("\r\n");

export async function sheetsChecks(context) {
  await forms(context);
  await retired(context);
  await context.browser.forget();
}

async function forms({ check }) {
  await check("rows as spreadsheets write them: separators, quotes, line ends, UTF-8, UTF-16 and the old code page", async () => {
    for (const s of [",", ";", "\t"]) assert.deepEqual(rowsOf(`a${s}"b ${s} ""c"""${s}\r\n"d\ne"${s}f${s}g\n\n`), [["a", `b ${s} "c"`, ""], ["d\ne", "f", "g"]]);
    assert.equal(separatorOf(`"a;b;c",d,e`), ",");
    assert.equal(decoded(windows("Müller")), "Müller");
    assert.equal(decoded(Buffer.from("Müller")), "Müller");
    assert.equal(decoded(Buffer.from("\ufeffM\u00fcller", "utf16le")), "Müller");
    assert.deepEqual(sheetOf("Mr. Abara\twitness\t\t12").rows, [{ name: "Mr. Abara", role: "witness", spelling: "", first: "12" }]);
    assert.deepEqual(rowsOf(csvOf([["=1+1", "a,b", ` x "y" `, "-3"]])), [["=1+1", "a,b", `x "y"`, "-3"]]);
  });
  await check("CSV is parted by semicolons where numbers have a comma, by commas else, and comes in again either way", async () => {
    assert.deepEqual(["de", "fr", "pt-BR", "en", "ja"].map(l => partingFor(l)), [";", ";", ";", ",", ","]);
    assert.equal(csvOf([["a", "b;c", "d,e"]], ";"), '\ufeffa;"b;c";"d,e"\r\n');
    for (const parting of [";", ","]) assert.deepEqual(rowsOf(csvOf([["a", "b;c", "d,e"]], parting), parting), [["a", "b;c", "d,e"]]);
  });
}

async function saved(browser, id, name) {
  const file = `${browser.downloads}/${name}`;
  rmSync(file, { force: true });
  await browser.click(id);
  for (const end = Date.now() + 60000; Date.now() < end; await new Promise(r => setTimeout(r, 30))) if (existsSync(file) && readFileSync(file).length) return file;
  throw new Error(`${name} was not saved`);
}

async function retired(context) {
  const { browser, check, url, shots } = context, me = person(browser);
  await freshDesk(browser, url);
  await check("a CSV file of twelve speakers in the old code page comes in, each row with how it is read", async () => {
    writeFileSync(`${browser.profile}/speakers.csv`, windows(sheet(NAMES)));
    await me.click("#front-sheet");
    await browser.give("#sheet-file", `${browser.profile}/speakers.csv`);
    await browser.until(`document.querySelectorAll("#desk-dialog tbody tr").length === 12`);
    await browser.shot(`${shots}desk-sheet.png`);
    await browser.click("#desk-dialog tbody tr:nth-child(7) input");
    assert.equal(await browser.text("#sheet-add"), "Add 11 cards");
    await browser.click("#desk-dialog tbody tr:nth-child(7) input");
    assert.equal(await browser.text("#sheet-add"), "Add 12 cards");
    await me.click("#sheet-add");
    const titles = await browser.all("#desk-lanes .ttl");
    assert.deepEqual(titles, NAMES.map(([name, , spelling]) => spelling || name));
  });
  await check("the same rows pasted again are known, and nothing comes in twice", async () => {
    await me.click("#front-sheet");
    await browser.fill("#sheet-rows", NAMES.map(r => r.join("\t")).join("\n"));
    assert.equal(await browser.eval(`document.querySelector("#sheet-add").disabled`), true);
    assert.match(await browser.text("#desk-dialog"), /is here already/);
    await me.click("#sheet-close");
  });
  await worked(context, me);
  await out(context);
}

async function worked({ browser, check, shots }, me) {
  await check("pages are set, found by the speaker, marked by a corrected spelling, mended and signed", async () => {
    await me.click("#add-words");
    for (const words of ["MR. ABARA: Good morning.", "Q. by MS. LINDQVIST, A. by MR. ABARA", "JUDGE OKORO: Sustained."]) {
      await me.type(words);
      await me.key("Enter");
    }
    await me.click(`[data-card="0"]`);
    assert.match(await browser.text("#desk-side"), /Set from it: 2 cards\s+Page 1\s*Page 2/);
    await browser.fill("#card-words", "Mr. Abarra");
    await me.click("#card-write");
    assert.match(await browser.text("#desk-toast"), /2 cards set from the old spelling are marked/);
    await browser.shot(`${shots}desk-corrected.png`);
    await me.click(".backward");
    await me.click("#mend-all");
    await me.click("#sign-all");
    assert.match(await browser.text("#desk-side"), /Page 1 still says Mr\. Abara\.\s+Page 2 still says Mr\. Abara\./);
    await me.click("#ask-yes");
    assert.deepEqual(new Set(await states(browser)), new Set(["signed"]));
  });
  await check("she meets no number that she did not write, and no word of the machine", async () => {
    await me.click(`[data-card="12"]`);
    for (const selector of ["#desk-top", "#desk-lanes", "#desk-side", "#desk-add"]) assert.doesNotMatch(await browser.text(selector), MACHINE, selector);
    await browser.key("Escape");
  });
  await check("the record on paper: date, a summary first, page numbers, lines for signatures", async () => {
    await browser.eval(`window.dispatchEvent(new Event("beforeprint"))`);
    const words = await browser.content("#desk-record");
    assert.doesNotMatch(words, MACHINE);
    assert.match(words, /Record of names and pages, \d{4}-\d\d-\d\d, \d\d:\d\d\..*Summary15 of 15 cards are signed.*NamesName.*Mr\. Abarra.*Mr\. Abara.*Pages.*Stenographer/);
    const { data } = await browser.send("Page.printToPDF", { paperWidth: 8.27, paperHeight: 11.69, preferCSSPageSize: true });
    writeFileSync(`${shots}desk-record.pdf`, Buffer.from(data, "base64"));
    assert.ok((Buffer.from(data, "base64").toString("latin1").match(/\/Type ?\/Page\b/g) ?? []).length <= 3);
  });
}

/** What LibreOffice reads in CSV files, saved as its own sheets and written again as CSV from there. */
function reread(browser, files) {
  const folder = `${browser.profile}/office`, run = (to, from, ...more) => execFileSync("libreoffice", [`-env:UserInstallation=file://${browser.profile}/lo`, "--headless", ...more, "--convert-to", to, "--outdir", folder, ...from], { stdio: "pipe" });
  rmSync(folder, { recursive: true, force: true });
  mkdirSync(folder, { recursive: true });
  run("ods", files, "--infilter=Text - txt - csv (StarCalc):44,34,76,1,,0,false,false");
  const sheets = files.map(f => `${folder}/${f.split("/").at(-1).replace(/csv$/, "ods")}`);
  run("csv:Text - txt - csv (StarCalc):44,34,76", sheets);
  return sheets.map(f => rowsOf(readFileSync(f.replace(/ods$/, "csv"), "utf8"), ","));
}

const HEADS = {
  names: ["name", "role", "spelling", "earlier spellings", "first page", "state", "pages set from it"], pages: ["page", "words", "state", "set from", "set from an older text", "left to do"],
  rests: ["card", "state", "rests on", "how", "text"], record: ["step", "date", "time", "who", "what was done", "reply"],
};

async function out({ browser, check }) {
  const kinds = Object.keys(HEADS), files = {};
  await check("names, pages, what rests on what and the record go out as CSV", async () => {
    await browser.click("#front-sheet");
    for (const name of kinds) files[name] = await saved(browser, `#out-${name}`, `hearing-${name}.csv`);
    await browser.click("#sheet-close");
    const rows = Object.fromEntries(kinds.map(name => [name, rowsOf(readFileSync(files[name], "utf8"))]));
    for (const name of kinds) assert.deepEqual(rows[name][0], HEADS[name]);
    for (const name of kinds) assert.doesNotMatch(rows[name].flat().join("\n"), MACHINE, name);
    assert.deepEqual(rows.names[1], ["Mr. Abara", "witness", "Mr. Abarra", "Mr. Abara", "1", "signed", "Page 1; Page 2"]);
    assert.equal(rows.names.length, 13);
    assert.deepEqual(rows.pages[1], ["Page 1", "MR. ABARA: Good morning.", "signed", "Mr. Abarra", "still says Mr. Abara", ""]);
    assert.deepEqual(rows.rests[1].slice(0, 4), ["Page 1", "signed", "Mr. Abarra", "set from it"]);
    assert.match(rows.record[1].slice(1, 4).join(" "), /^\d{4}-\d\d-\d\d \d\d:\d\d:\d\d desk$/);
  });
  await check("LibreOffice opens all four, and every cell is the one that was written", async () => {
    const read = reread(browser, kinds.map(name => files[name]));
    kinds.forEach((name, i) => {
      const mine = rowsOf(readFileSync(files[name], "utf8"));
      assert.ok(mine.length > 3, name);
      assert.deepEqual(read[i], mine, name);
    });
  });
}
