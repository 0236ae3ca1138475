// A whole hearing by keys alone: tabulator, arrows, enter, space, escape and Ctrl+Z. After each key the cursor is somewhere, in view, and to be
// seen; and in every state of the desk each card, button and field has a name for whoever listens.
import assert from "node:assert/strict";
import { existsSync, readFileSync, rmSync } from "node:fs";
import { freshDesk, states } from "./wishes.mjs";

const focused = browser => browser.eval(`(e => e.id || (e.dataset.card && "card " + e.dataset.card) || (e.dataset.from && "from " + e.dataset.from) || (e.dataset.go && "go " + e.dataset.go) || e.tagName)(document.activeElement)`);

// Where the cursor is, whether it is in view there, and whether it has a line around it, its own or its label's; null where all is well.
const TROUBLE = `(() => {
  const e = document.activeElement, shown = e.matches(".unseen") ? e.closest("label") : e, r = shown?.getBoundingClientRect(), s = shown && getComputedStyle(shown);
  if (!e || e === document.body) return "the cursor is lost";
  if (r.width < 4 || r.height < 4 || r.bottom < 0 || r.right < 0 || r.top > innerHeight || r.left > innerWidth) return "out of view: " + e.outerHTML.slice(0, 200);
  const at = document.elementFromPoint(Math.min(Math.max(r.left + r.width / 2, 1), innerWidth - 1), Math.min(Math.max(r.top + Math.min(r.height / 2, 20), 1), innerHeight - 1));
  if (!(shown.contains(at) || at?.contains(shown))) return "covered: " + e.outerHTML.slice(0, 200) + " by " + at?.outerHTML.slice(0, 100);
  return s.outlineStyle !== "none" && parseFloat(s.outlineWidth) >= 2 ? null : "no line around: " + e.outerHTML.slice(0, 200);
})()`;

/** Hands at a keyboard: after each key the cursor is held to what is said above. */
function keyboard(browser) {
  // Past the last button the tabulator leaves the page for the browser's own bar, and comes in again at the top.
  const left = key => key === "Tab" && browser.eval(`document.activeElement === document.body`), seen = async key => {
    for (const end = Date.now() + 2000; Date.now() < end && !(await left(key)) && await browser.eval(TROUBLE); await new Promise(r => setTimeout(r, 25)));
    assert.equal(await left(key) ? null : await browser.eval(TROUBLE), null, `after ${key}`);
  };
  const press = async (key, modifiers = 0, times = 1) => {
    for (let i = 0; i < times; i++) await browser.key(key, modifiers);
    await seen(`${modifiers ? `${modifiers}+` : ""}${key}`);
  };
  /** By the tabulator to a button, field or card; backwards where that is nearer. */
  const to = async (wanted, back = false, most = 80) => {
    for (let i = 0; i < most && await focused(browser) !== wanted; i++) await press("Tab", back ? 8 : 0);
    assert.equal(await focused(browser), wanted);
  };
  /** By the tabulator to the cards, and by arrows to one. */
  const card = async take => {
    for (let i = 0; i < 80 && !(await focused(browser)).startsWith("card "); i++) await press("Tab");
    for (let i = 0; i < 40 && await focused(browser) !== `card ${take}`; i++) await press("ArrowRight");
    for (let i = 0; i < 40 && await focused(browser) !== `card ${take}`; i++) await press("ArrowLeft");
    assert.equal(await focused(browser), `card ${take}`);
    await press("Enter");
  };
  return { press, to, card, type: text => browser.send("Input.insertText", { text }), seen };
}

const label = (browser, take) => browser.eval(`document.querySelector('[data-card="${take}"]').getAttribute("aria-label")`);

async function saved(browser, name) {
  const file = `${browser.downloads}/${name}`;
  for (const end = Date.now() + 60000; Date.now() < end; await new Promise(r => setTimeout(r, 30))) if (existsSync(file) && readFileSync(file).length) return readFileSync(file, "utf8");
  throw new Error(`${name} was not saved`);
}

/** What has no name in the tree for whoever listens, and how many cards and buttons it has. */
async function nameless(browser) {
  const { nodes } = await browser.send("Accessibility.getFullAXTree"), kinds = ["button", "textbox", "searchbox", "tab", "dialog", "alertdialog", "link", "checkbox", "group", "region", "complementary", "DisclosureTriangle", "image"];
  const wanted = nodes.filter(n => !n.ignored && kinds.includes(n.role?.value)), cards = await browser.eval(`document.querySelectorAll("#desk-lanes [data-card]").length`);
  return { without: wanted.filter(n => !n.name?.value?.trim() && !["group", "region"].includes(n.role.value)).map(n => n.role.value), all: wanted.length, cards, names: wanted.map(n => n.name?.value ?? "") };
}

export async function keyboardChecks(context) {
  await hearing(context);
  await named(context);
  await context.browser.forget();
}

async function hearing({ browser, check, url }) {
  const hands = keyboard(browser), { press, to, card, type } = hands;
  await freshDesk(browser, url);
  await browser.eval(`window.print = () => (window.printed = (window.printed ?? 0) + 1)`);
  await check("by keys alone: the example, and a page set from other names", async () => {
    await to("desk-example");
    await press("Enter");
    await card(6);
    await to("from 1");
    await press("Space");
    await to("card-set");
    await press("Enter");
    assert.match(await label(browser, 6), /^Page 4, .*, draft, Mr\. Abara$/);
    await press("z", 2);
    assert.match(await label(browser, 6), /draft, Mr\. Abara, Ms\. Lindqvist$/);
    await press("y", 2);
  });
  await check("by keys alone: a spelling corrected, what is old in the pages mended", async () => {
    await press("Escape");
    await card(0);
    await to("card-words");
    await press("End");
    await press("Backspace", 0, 2);
    await type("ra");
    await press("Backspace");
    await type("rra");
    await press("Enter");
    assert.match(await label(browser, 0), /^Mr\. Abarrra, draft/);
    await press("Escape");
    await to("mend-all");
    await press("Space");
    for (const take of [3, 6, 7]) assert.doesNotMatch(await label(browser, take), /older/);
  });
  await signed({ browser, check }, hands);
  await sheets({ browser, check }, hands);
  await others({ browser, check }, hands);
}

async function signed({ browser, check }, { press, to, card }) {
  await check("by keys alone: signed, a page withdrawn after a look and a change of mind, and all of it taken back", async () => {
    await to("sign-ready");
    await press("Enter");
    await to("ask-yes");
    await press("Enter");
    assert.deepEqual([(await states(browser))[2], (await states(browser))[5]], ["signed", "signed"]);
    await card(3);
    await to("card-withdraw");
    await press("Enter");
    assert.equal(await focused(browser), "ask-keep");
    await press("Escape");
    assert.equal(await focused(browser), "card-withdraw");
    await press("Enter");
    await to("ask-yes");
    await press("Enter");
    assert.equal((await states(browser))[3], "vanished");
    await press("z", 2);
    assert.equal((await states(browser))[3], "draft");
    await press("z", 2);
    assert.equal(await focused(browser), "ask-keep");
    await press("Escape");
    assert.equal((await states(browser))[5], "signed");
  });
}

async function sheets({ browser, check }, { press, to, type }) {
  await check("by keys alone: rows from a spreadsheet in, tables out, the record printed", async () => {
    await to("front-sheet");
    await press("Enter");
    assert.equal(await focused(browser), "sheet-rows");
    await type("Ms. Tanaka\twitness\t\t7\nMr. O'Neill\tcounsel\t\t5");
    await to("sheet-add");
    await press("Enter");
    assert.equal((await states(browser)).length, 11);
    assert.match(await label(browser, 9), /^Ms\. Tanaka, draft/);
    await to("front-sheet");
    await press("Enter");
    const name = "Harbour-inquiry-day-3-names.csv";
    rmSync(`${browser.downloads}/${name}`, { force: true });
    await to("out-names");
    await press("Enter");
    assert.match(await saved(browser, name), /Mr\. Abarrra/);
    await press("Escape");
    assert.equal(await focused(browser), "front-sheet");
    await to("front-print");
    await press("Enter");
    await browser.until(`window.printed === 1`);
  });
}

async function others({ browser, check }, { press, to, type }) {
  await check("by keys alone: another hearing, and back by the list", async () => {
    await to("front-hearings", true);
    await press("Enter");
    await browser.until(`document.activeElement.id === "hearings-search"`);
    await to("hearings-new");
    await press("Enter");
    assert.equal((await states(browser)).length, 0);
    await browser.until(`!document.querySelector("dialog[open]")`);
    await to("front-hearings");
    await press("Enter");
    await browser.until(`document.activeElement.id === "hearings-search"`);
    await type("abar");
    for (let i = 0; i < 9 && !(await browser.eval(`document.activeElement.getAttribute("aria-label") ?? ""`)).startsWith("Open: Harbour"); i++) await press("Tab");
    await press("Enter");
    assert.equal((await states(browser)).length, 11);
  });
}

/** The tree for whoever listens in every state of the desk. */
async function named({ browser, check, url }) {
  await freshDesk(browser, url);
  const states = {
    "an empty desk": () => {}, "the example": () => browser.click("#desk-example"), "a chosen name": () => browser.click(`[data-card="0"]`), "a chosen page": () => browser.click(`[data-card="7"]`),
    "a question": () => browser.click("#card-withdraw"), "spreadsheets": async () => (await browser.key("Escape"), await browser.click("#front-sheet")),
    "the list of hearings": async () => (await browser.click("#sheet-close"), await browser.click("#front-hearings"), await browser.until(`document.querySelector("#desk-dialog[open] .hearings b")`)),
    "a fresh session": async () => (await browser.click("#hearings-close"), await browser.eval(`document.querySelector("#sign-ready")?.click()`), await browser.eval(`document.querySelector("#ask-yes")?.click()`)),
    "all steps": async () => (await browser.click("#front-details"), await browser.until(`!document.querySelector("#details").hidden`)),
  };
  for (const [name, open] of Object.entries(states)) {
    await check(`each card, button and field has a name for whoever listens: ${name}`, async () => {
      await open();
      const { without, all, cards, names } = await nameless(browser), labels = await browser.eval(`[...document.querySelectorAll("#desk-lanes [data-card]")].map(c => c.getAttribute("aria-label"))`);
      assert.deepEqual(without, []);
      assert.ok(all > 9, String(all));
      if (!(await browser.eval(`Boolean(document.querySelector("dialog[open]")) || document.querySelector("#desk").hidden`))) for (const l of labels) assert.ok(names.includes(l), l);
      assert.equal(labels.length, cards);
    });
  }
}
