// A stenographer's first days at the desk: old spellings in the words, marks that stay until the words are right, and what is asked before.
import assert from "node:assert/strict";
import { freshDesk, person, states } from "./wishes.mjs";
import { respelled, stillSays } from "../src/desk/spellings.mjs";

const label = (browser, take) => browser.eval(`document.querySelector('[data-card="${take}"]').getAttribute("aria-label")`);
const SPEAKERS = ["Abara", "Okonkwo-Lindqvist", "Tanaka", "Szymborska", "O'Neill", "van Dijk", "N\u00fa\u00f1ez", "Carson", "Gro\u00df", "Durand", "M\u00fcller", "Featherstonehaugh"];

/** Twelve speakers from a sheet, and three pages. */
async function twelve(browser, url, width, height) {
  const me = person(browser);
  await freshDesk(browser, url, width, height);
  await me.click("#front-sheet");
  await browser.fill("#sheet-rows", ["name,role,spelling,first page", ...SPEAKERS.map((s, i) => `Mr. ${s},witness,${s},${i + 1}`)].join("\n"));
  await me.click("#sheet-add");
  for (const words of ["ABARA: Good morning.", "Q. by OKONKWO-LINDQVIST, A. by ABARA", "FEATHERSTONEHAUGH: Sustained."]) {
    await browser.fill("#add-words", words);
    await browser.eval(`document.querySelector("#add-words").form.requestSubmit()`);
  }
  return me;
}

export async function spellingsChecks(context) {
  await context.check("an old spelling is found as a whole word, outside of the present one, and keeps its capitals", async () => {
    assert.deepEqual(["ABARA: yes", "Mr. Abara's", "Abarax", "Abara-Smith", ""].map(w => stillSays(w, "Abara", "Abara-Smith")), [true, true, false, false, false]);
    assert.equal(stillSays("Mcdonald and MCDONALD", "Mcdonald", "McDonald"), true);
    assert.equal(respelled("ABARA: I, Abara. Abarra (ABARA's), Abarax", "Abara", "Abarra"), "ABARRA: I, Abarra. Abarra (ABARRA's), Abarax");
    assert.equal(respelled("Dr. M\u00fcller+Co (x)", "M\u00fcller+Co (x)", "M\u00fcller"), "Dr. M\u00fcller");
  });
  await older(context);
  await signedOnes(context);
  await withdrawn(context);
  await narrow(context);
  await ticks(context);
  await context.browser.size(1500, 950);
  await context.browser.forget();
}

async function signedOnes({ browser, check, shots }) {
  await check("before a signed page is set again it is asked", async () => {
    await browser.click(`[data-card="0"]`);
    await browser.fill("#card-words", "Abarrah");
    await browser.click("#card-write");
    await browser.click(".backward");
    await browser.click("#mend-all");
    assert.match(await browser.text("#desk-side"), /^Page 1 is signed\. Set it again\?\s+It must then be signed anew\./);
    await browser.shot(`${shots}desk-signed-again.png`);
    await browser.click("#ask-keep");
    assert.equal((await states(browser))[12], "signed");
    await browser.click("#mend-all");
    await browser.click("#ask-yes");
    assert.equal((await states(browser))[12], "draft");
  });
}

/** The words of titles that stand on two lines, or outside of their card. */
const BROKEN = `[...document.querySelectorAll("#desk-lanes .ttl")].flatMap(e => {
  const card = e.closest(".card").getBoundingClientRect(), text = document.createTreeWalker(e, NodeFilter.SHOW_TEXT).nextNode();
  return [...text.data.matchAll(/[^\\s-]+/g)].filter(m => {
    const range = document.createRange();
    range.setStart(text, m.index);
    range.setEnd(text, m.index + m[0].length);
    const rects = [...range.getClientRects()], clip = getComputedStyle(e).overflow !== "visible" && e.scrollWidth > e.clientWidth;
    return clip || new Set(rects.map(r => Math.round(r.top))).size > 1 || rects.some(r => r.right > card.right || r.left < card.left);
  }).map(m => m[0]);
})`;

async function narrow({ browser, check, url, shots }) {
  for (const [width, height] of [[1024, 768], [1400, 900]]) {
    await check(`no name and no page number is broken inside a word or cut, ${width} by ${height}`, async () => {
      const me = await twelve(browser, url, width, height);
      assert.deepEqual(await browser.eval(BROKEN), []);
      await me.click(`[data-card="0"]`);
      await browser.shot(`${shots}desk-twelve-${width}.png`);
      assert.deepEqual(await browser.eval(BROKEN), []);
    });
  }
}

async function ticks({ browser, check, shots }) {
  await check("what is ticked by the words is said to be found there; writing a page's words keeps what is ticked", async () => {
    await browser.fill("#add-words", "TANAKA: Yes.");
    assert.equal(await browser.text("#add-found"), "found in the words");
    await browser.shot(`${shots}desk-found.png`);
    await browser.click(`#desk-add [data-ground="3"]`);
    assert.equal(await browser.eval(`document.querySelector("#add-found").hidden`), true);
    await browser.click(`[data-card="12"]`);
    await browser.click(`#desk-side [data-from="2"]`);
    await browser.fill("#card-words", "ABARA: Good evening.");
    await browser.click("#card-write");
    assert.equal(await browser.eval(`document.querySelector('#desk-side [data-from="2"]').getAttribute("aria-pressed")`), "true");
    assert.equal(await browser.text("#card-set"), "Set from Abara and Tanaka");
  });
}

async function withdrawn({ browser, check, shots }) {
  await check("a withdrawn card that is chosen can be read, and no count in the bar is cut", async () => {
    await browser.click(`[data-card="13"]`);
    await browser.click("#card-withdraw");
    await browser.click("#ask-yes");
    assert.equal(await browser.eval(`getComputedStyle(document.querySelector('[data-card="13"].picked.s-vanished')).filter`), "none");
    await browser.shot(`${shots}desk-withdrawn.png`);
    const cut = `(s => [...s.children].filter(e => e.getBoundingClientRect().right > s.nextElementSibling.nextElementSibling.getBoundingClientRect().left || s.scrollWidth > s.clientWidth).map(e => e.textContent))(document.querySelector(".deskbar .sum"))`;
    assert.deepEqual(await browser.eval(cut), []);
  });
}

async function older({ browser, check, url, shots }) {
  const me = await twelve(browser, url, 1400, 900);
  await check("set again, a page keeps its mark while its words have the old spelling, and its signing is asked about", async () => {
    await me.click(`[data-card="0"]`);
    await browser.fill("#card-words", "Abarra");
    await me.click("#card-write");
    await me.click(`[data-card="12"]`);
    await me.click("#card-mend");
    assert.match(await label(browser, 12), /draft, still says Abara, Abarra$/);
    assert.equal(await browser.text(`[data-card="12"] .chip.old`), "says \u201cAbara\u201d");
    await browser.shot(`${shots}desk-still-says.png`);
    await me.click("#card-sign");
    assert.equal(await browser.text("#ask-title"), "Page 1 still says Abara. Sign it?");
    await me.click("#ask-keep");
  });
  await check("one button puts the present spelling into the words and sets the page again; so does writing them by hand", async () => {
    await me.click(`[data-card="13"]`);
    await browser.press("#desk-side", "Replace Abara by Abarra");
    assert.match(await label(browser, 13), /^Page 2, Q\. by OKONKWO-LINDQVIST, A\. by ABARRA, draft, Abarra, Okonkwo-Lindqvist$/);
    await me.click(`[data-card="12"]`);
    await browser.fill("#card-words", "ABARRA: Good morning.");
    await me.click("#card-write");
    assert.match(await label(browser, 12), /^Page 1, ABARRA: Good morning\., draft, Abarra$/);
    await me.click("#card-sign");
    assert.equal(await browser.text("#ask-title"), "Sign Abarra and page 1?");
    await me.click("#ask-yes");
    assert.deepEqual((await states(browser)).map((s, t) => (s === "signed" ? t : -1)).filter(t => t >= 0), [0, 12]);
  });
}
