// The screen: what is on the first screen, themes, forced colours, reduced motion; and faults that were once found.
import assert from "node:assert/strict";
import { readFileSync, readdirSync } from "node:fs";

const SIZES = [[1400, 900], [1180, 760], [1024, 768], [700, 450], [512, 384]];
const LESSONS = ["lesson=01-frozen-and-signed&screen=4", "lesson=02-what-a-withdrawal-reaches&screen=2", "lesson=02-what-a-withdrawal-reaches&screen=5", "lesson=03-the-count-restarts&screen=4", "lesson=06-two-laptops&screen=1"];
const folder = new URL("../lessons/", import.meta.url), files = readdirSync(folder).filter(f => /^\d.*\.json$/.test(f)).sort();
const EVERY = files.flatMap(f => {
  const { title, screens } = JSON.parse(readFileSync(new URL(f, folder), "utf8"));
  return screens.map((_, k) => ({ lesson: f.slice(0, -5), title, k: k + 1 }));
});
const NAMED = Array.from({ length: 15 }, (_, t) => `root text ${t + 1}`), steps = [...NAMED, ...NAMED.flatMap((_, t) => [`letter to ${t} text 1`, `receive ${t}`, `write ${t} text 9`])];
const deskFile = (takes, more = {}) => JSON.stringify({ format: "take ledger desk", version: 1, title: "a hearing", steps, takes, ...more });

export async function screenChecks(context) {
  await firstScreen(context);
  await everyScreen(context);
  await themes(context);
  await faults(context);
  await deskFaults(context);
  await missing(context);
}

async function firstScreen({ browser, check, url, shots }) {
  const inView = selector => browser.eval(`(r => r.top >= 0 && r.left >= 0 && r.bottom <= innerHeight + 1 && r.right <= innerWidth + 1)(document.querySelector(${JSON.stringify(selector)}).getBoundingClientRect())`);
  for (const [wide, high] of SIZES) {
    await check(`question and picture are both on a screen of ${wide} by ${high}${wide < 1024 ? ", as at 200 % zoom" : ""}`, async () => {
      await browser.size(wide, high);
      for (const lesson of LESSONS) {
        await browser.go(`${url}#${lesson}`);
        for (const part of [".ask h1", ".stage"]) assert.ok(await inView(part), `${lesson}: ${part}`);
        const cut = await browser.eval(`[...document.querySelectorAll(".stage .card, .stage .life")].filter(c => c.checkVisibility() && (r => (s => r.top < s.top - 1 || r.bottom > s.bottom + 1 || r.right > s.right + 1)(document.querySelector(".stage").getBoundingClientRect()))(c.getBoundingClientRect())).length`);
        assert.equal(cut, 0, `${lesson}: ${cut} cards are cut`);
        if (wide < 1024) await browser.shot(`${shots}zoom-${wide}-${LESSONS.indexOf(lesson)}.png`);
      }
    });
  }
  await browser.size(1500, 950);
  await check("hashes, maps and the notation are behind Details", async () => {
    await browser.go(url);
    assert.doesNotMatch(await browser.text("body"), /[0-9a-f]{12}|SHA|root text|map:/);
    await browser.go(`${url}#${LESSONS[1]}`);
    assert.doesNotMatch(await browser.text("body"), /\(empty; 0\)|text 1\b|write 1/);
  });
  await check("the lines that a take rests on light up when it is chosen, through others too", async () => {
    const lit = () => browser.eval(`document.querySelectorAll(".stage .lit-line").length`);
    await browser.go(`${url}#lesson=02-what-a-withdrawal-reaches&screen=3`);
    assert.equal(await lit(), 0);
    await browser.eval(`document.querySelector('.stage [data-take="2"]').dispatchEvent(new PointerEvent("pointerover", { bubbles: true }))`);
    assert.equal(await lit(), 2);
    assert.deepEqual(await browser.eval(`[...document.querySelectorAll(".stage .line")].map(l => l.className.baseVal.split(" ")[1]).sort()`), ["plain", "withdrawn"]);
  });
}

/** Works in the page: what is out of view, cut, broken or covered on this screen. */
function flaws() {
  const box = e => e.getBoundingClientRect(), all = selector => [...document.querySelectorAll(selector)].filter(e => e.checkVisibility()), named = e => `${e.className} \u201c${e.textContent.slice(0, 20)}\u201d`;
  const within = (r, s) => r.top >= s.top - 1 && r.left >= s.left - 1 && r.bottom <= s.bottom + 1 && r.right <= s.right + 1, screen = { top: 0, left: 0, right: innerWidth, bottom: innerHeight };
  const out = all(".ask h1, .stage, .foot, .foot .btn").filter(e => !within(box(e), screen)).map(e => `out of view: ${named(e)}`);
  const cut = all(".stage .card, .stage .life, .stage .spot, .stage .note").filter(e => !within(box(e), box(all(".stage")[0]))).map(e => `cut: ${named(e)}`);
  const low = all(".tray .chip, .tray .btn, .stage .choices .btn").filter(e => !within(box(e), screen)).map(e => `out of view: ${named(e)}`);
  const broken = all(".stage .ttl").filter(e => [...(e.firstChild?.textContent ?? "").matchAll(/\S+/g)].some(word => {
    const range = document.createRange();
    range.setStart(e.firstChild, word.index);
    range.setEnd(e.firstChild, word.index + word[0].length);
    return new Set([...range.getClientRects()].map(r => Math.round(r.top))).size > 1;
  })).map(e => `a broken word: ${named(e)}`);
  const over = (a, b) => a.left < b.right - 1 && b.left < a.right - 1 && a.top < b.bottom - 1 && b.top < a.bottom - 1;
  const covered = all(".stage .card, .stage .life, .stage .note, .stage .spot").filter(e => all(".tools .btn").some(b => over(box(b), box(e)))).map(e => `under a button: ${named(e)}`);
  const wide = document.documentElement.scrollWidth > innerWidth ? [`${document.documentElement.scrollWidth} wide`] : [];
  return [...out, ...cut, ...low, ...broken, ...covered, ...wide];
}

async function everyScreen({ browser, check, url }) {
  for (const [wide, high] of [[1400, 900], [1024, 768], [700, 450]]) {
    await check(`every screen of every lesson fits ${wide} by ${high}${wide < 1024 ? ", as at 200 % zoom" : ""}: question, picture and buttons in view, no card cut or covered, no name broken`, async () => {
      const found = [];
      await browser.size(wide, high);
      await browser.go(url);
      for (const { lesson, title, k } of EVERY) {
        await browser.eval(`location.hash = "lesson=${lesson}&screen=${k}"`);
        await browser.until(`document.title.startsWith(${JSON.stringify(`${title}, ${k}:`)}) && document.querySelector(".screen")`);
        found.push(...(await browser.eval(`new Promise(r => requestAnimationFrame(() => requestAnimationFrame(r))).then(${flaws})`)).map(words => `${lesson}, ${k}: ${words}`));
      }
      assert.deepEqual(found, []);
    });
  }
  await browser.size(1500, 950);
}

async function themes({ browser, check, url, shots }) {
  const media = features => browser.send("Emulation.setEmulatedMedia", { features: Object.entries(features).map(([name, value]) => ({ name, value })) });
  const paper = () => browser.eval(`getComputedStyle(document.body).backgroundColor`);
  await check("dark as the system has it, until the button is pressed, which is kept", async () => {
    await browser.forget();
    await media({ "prefers-color-scheme": "dark" });
    await browser.go(url);
    assert.equal(await paper(), "rgb(21, 23, 28)");
    await browser.shot(`${shots}dark.png`);
    await browser.click("#theme");
    assert.equal(await paper(), "rgb(250, 248, 243)");
    await browser.go(url);
    assert.equal(await paper(), "rgb(250, 248, 243)");
    await browser.forget();
  });
  await check("forced colours: the chosen tab, picks and states stay apart by line and shape", async () => {
    await media({ "forced-colors": "active" });
    await browser.go(`${url}#lesson=02-what-a-withdrawal-reaches&screen=2`);
    const border = id => browser.eval(`getComputedStyle(document.querySelector("#tab-${id}")).borderTopColor`);
    assert.notEqual(await border("course"), await border("desk"));
    await browser.click(`.stage [data-take="1"]`);
    assert.match(await browser.eval(`getComputedStyle(document.querySelector('.stage [data-take="1"]')).outlineStyle`), /solid/);
    assert.match(await browser.eval(`getComputedStyle(document.querySelector(".lesson-tab[aria-current]")).outlineStyle`), /solid/);
    await browser.shot(`${shots}forced.png`);
    await browser.go(`${url}#text=${encodeURIComponent(steps.join("\n"))}`);
    assert.match(await browser.eval(`getComputedStyle(document.querySelector("#course-rows [aria-selected=true]")).outlineStyle`), /solid/);
  });
  await check("reduced motion: nothing moves", async () => {
    await media({ "prefers-reduced-motion": "reduce" });
    await browser.go(`${url}#lesson=01-frozen-and-signed&screen=1`);
    await browser.click(`.stage [data-take="1"]`);
    await browser.until(`document.querySelector(".lit-line")`);
    assert.equal(await browser.eval(`document.getAnimations().filter(a => a.playState === "running").length`), 0);
    await media({});
  });
}

/** The desk with a kept hearing. */
async function desk(browser, url, file) {
  await browser.go(`${url}#view=details`);
  await browser.eval(`localStorage.setItem("take-ledger.desk", ${JSON.stringify(file)})`);
  await browser.go(`${url}#view=details`);
}

async function faults({ browser, check, url }) {
  await check("fifteen takes: the page never scrolls off its window", async () => {
    await browser.size(1400, 900);
    await desk(browser, url, deskFile(NAMED.map((_, t) => `page ${t}`)));
    const tall = () => browser.eval(`document.documentElement.scrollHeight`);
    assert.equal(await tall(), 900);
    await browser.go(`${url}#text=${encodeURIComponent(steps.join("\n"))}`);
    assert.equal(await tall(), 900);
    await browser.eval(`document.querySelector("#course-moment").scrollTop = 99999`);
    assert.equal(await browser.eval(`scrollY`), 0);
    await browser.size(1500, 950);
  });
  await check("a name keeps its small letter at a sentence's start", async () => {
    await browser.go(`${url}#text=${encodeURIComponent("root text 1 # van Dijk\nroot text 2 # page 12\nletter to 0 text 1\nreceive 0\nsign {0}\nfail 0\n")}&step=5`);
    const said = await browser.text("#course-moment");
    assert.match(said, /\u2068van Dijk\u2069: not frozen/);
    assert.doesNotMatch(said, /Van Dijk/);
    await browser.click("#course-rows li[data-i='6']");
    assert.match(await browser.text("#course-moment"), /\u2068?van Dijk\u2069? vanished/);
  });
  await check("back from Compare comes back to the course", async () => {
    await browser.go(`${url}#lesson=02-what-a-withdrawal-reaches&screen=2`);
    await browser.click("#tab-compare");
    await browser.until(`!document.querySelector("#compare").hidden`);
    await browser.eval(`history.back()`);
    await browser.until(`!document.querySelector("#course").hidden && document.querySelector(".screen")?.dataset.screen === "2"`);
  });
}

async function deskFaults({ browser, check, url }) {
  await check("a name of 100,000 letters makes no endless page", async () => {
    await desk(browser, url, deskFile(["W".repeat(100000), "page 12"]));
    assert.ok(await browser.eval(`Math.max(...[...document.querySelectorAll("#details section")].map(s => s.scrollHeight))`) < 30000);
    await browser.forget();
  });
  await check("after a rename the cursor stays in its field", async () => {
    await desk(browser, url, deskFile(["names", "page 12"]));
    await browser.eval(`document.querySelector("#desk-names").open = true`);
    await browser.eval(`document.querySelector("[data-rename='1']").focus()`);
    await browser.fill("[data-rename='1']", "page 13");
    assert.equal(await browser.eval(`document.activeElement.dataset.rename ?? document.activeElement.tagName`), "1");
    await browser.forget();
  });
  await check("on paper no take is split from its maps", async () => {
    await browser.go(`${url}#text=${encodeURIComponent(steps.join("\n"))}`);
    await browser.send("Emulation.setEmulatedMedia", { media: "print" });
    assert.deepEqual(await browser.eval(`[...new Set([...document.querySelectorAll("#course-moment .takes tbody")].map(t => getComputedStyle(t).breakInside))]`), ["avoid"]);
    await browser.send("Emulation.setEmulatedMedia", { media: "" });
  });
}

async function missing({ browser, check, url }) {
  const shown = async () => {
    await browser.send("Page.navigate", { url: "about:blank" });
    await browser.send("Page.navigate", { url });
    await browser.until(`document.querySelector("#without") && getComputedStyle(document.querySelector("#without")).visibility === "visible"`);
    return browser.text("#without");
  };
  await check("where WebAssembly is missing, the page says so", async () => {
    const { identifier } = await browser.send("Page.addScriptToEvaluateOnNewDocument", { source: `Object.defineProperty(window, "WebAssembly", { value: undefined });` });
    assert.match(await shown(), /It needs scripts and WebAssembly/);
    await browser.send("Page.removeScriptToEvaluateOnNewDocument", { identifier });
  });
  await check("where scripts are switched off, the page says so", async () => {
    await browser.send("Emulation.setScriptExecutionDisabled", { value: true });
    assert.match(await shown(), /It needs scripts and WebAssembly/);
    await browser.send("Emulation.setScriptExecutionDisabled", { value: false });
  });
}
