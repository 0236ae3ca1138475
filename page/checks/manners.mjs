// Hostile names, a list of 1,024 steps with times, a phone's width, reading by roles, print, no request and no error in the console.
import assert from "node:assert/strict";
import { readFileSync, writeFileSync } from "node:fs";
import { listed } from "./steps.mjs";

const HOSTILE = `<img src=x onerror="window.hacked=1"><script>window.hacked=1</script>`;

export async function mannersChecks(context) {
  await hostile(context);
  await long(context);
  await reading(context);
  await widths(context);
  await onPaper(context);
  await context.check("the policy allows nothing outside, and no script or style but the page's own", async () => {
    const policy = await context.browser.eval(`document.querySelector("meta[http-equiv]").content`);
    const own = "script-src 'sha256-X' 'wasm-unsafe-eval'; style-src 'sha256-X'";
    assert.equal(policy.replace(/sha256-[^']+/g, "sha256-X"), `default-src 'none'; ${own}; base-uri 'none'; form-action 'none'`);
  });
  await context.check("console free of errors, and no request left the page", async () => assert.deepEqual(context.browser.troubles(), []));
}

async function hostile({ browser, check, url, shots }) {
  await check("hostile names are shown as text", async () => {
    await browser.go(`${url}#text=${encodeURIComponent(`root text 1 # ${HOSTILE}\nletter to 0 text 1\nreceive 0\nfail 0\n`)}&step=3`);
    assert.ok((await browser.text("#course-moment")).includes(HOSTILE));
    await browser.go(`${url}#view=details`);
    await browser.fill("#desk-name", HOSTILE);
    await browser.fill("#desk-words", HOSTILE);
    await browser.click("#desk-steps [data-kind=root]");
    assert.ok((await browser.text("#desk-moment")).includes(HOSTILE));
    await browser.go(`${url}#view=details`);
    await browser.shot(`${shots}hostile.png`);
    assert.equal(await browser.eval(`window.hacked ?? 0`), 0);
    assert.equal(await browser.eval(`document.querySelectorAll("img, main script").length`), 0);
  });
  await check("words that turn the direction keep it to themselves, and words without an end break", async () => {
    const wide = "W".repeat(3000), texts = { 1: "\u202eturned", 2: wide }, steps = ["root text 1", "root text 2", "letter to 0 text 2", "letter to 1 text 2", "receive 0", "send 0 to 1 text 2"];
    await browser.eval(`localStorage.setItem("take-ledger.desk", ${JSON.stringify(JSON.stringify({ format: "take ledger desk", version: 1, title: wide, steps, takes: ["a", wide], texts }))})`);
    for (const room of [320, 1500]) for (const view of ["desk", "details", "compare"]) {
      await browser.size(room, 950);
      await browser.go(`${url}#view=${view}`);
      if (view === "compare") await browser.eval(`document.querySelectorAll(".side button")[0].click()`);
      const wider = `[...document.querySelectorAll("main:not([hidden]) > section")].filter(s => s.scrollWidth > s.clientWidth + 1).map(s => s.className)`;
      assert.deepEqual(await browser.eval(wider), [], `${view} in ${room}`);
    }
    writeFileSync(`${browser.profile}/none.steps`, "root text 9\n");
    await browser.give("#compare-1", `${browser.profile}/none.steps`);
    await browser.until(`document.querySelector(".verdict-line")`);
    assert.match(await browser.content("#difference"), /Opened: a, with “\u2068\u202eturned\u2069”/);
    await browser.forget();
  });
}

async function long({ browser, check, url, root, shots }) {
  const input = readFileSync(`${root}crates/test_engine/stdin`), list = input.subarray(8, 8200);
  await check("1,024 steps are played and drawn in under 200 ms, a step chosen in under 50", async () => {
    await browser.go(`${url}#list=${list.toString("base64url")}`);
    assert.equal(await browser.eval(`document.querySelectorAll("#course-rows li").length`), 1024);
    const drawn = await patiently(200, () => busy(browser, 7, () => `document.querySelector("#text").dispatchEvent(new Event("input"))`));
    const chosen = await patiently(50, () => busy(browser, 20, i => `document.querySelector("#course-rows .rows").children[${(i * 613) % 1024}].click()`));
    console.log(`   played and drawn in ${drawn.toFixed(0)} ms, a step chosen in ${chosen.toFixed(1)} ms`);
    await browser.shot(`${shots}long.png`);
    assert.ok(drawn < 200, `${drawn} ms`);
    assert.ok(chosen < 50, `${chosen} ms`);
  });
}

/** A time, taken again after a pause where it is over a limit: a machine that others use is slower at times, and never faster than it is. */
async function patiently(limit, taken) {
  let least = await taken();
  for (let round = 0; round < 5 && least >= limit; round++) {
    await new Promise(r => setTimeout(r, 2000));
    least = Math.min(least, await taken());
  }
  return least;
}

/**
 * The median of the milliseconds for which the page's own thread computes, whatever else the machine does: scripts, styles and layout.
 */
async function busy(browser, times, act) {
  const metrics = async () => (await browser.send("Performance.getMetrics")).metrics, found = [];
  const parts = ["ScriptDuration", "RecalcStyleDuration", "LayoutDuration"];
  const spent = async () => (await metrics()).filter(m => parts.includes(m.name)).reduce((sum, m) => sum + 1000 * m.value, 0);
  await browser.send("Performance.enable", { timeDomain: "threadTicks" });
  for (let i = 0; i < times; i++) {
    const before = await spent();
    await browser.eval(`${act(i)}, document.body.getBoundingClientRect(), new Promise(r => requestAnimationFrame(() => setTimeout(r, 0)))`);
    found.push((await spent()) - before);
  }
  return found.sort((a, b) => a - b)[times >> 1];
}

async function reading({ browser, check, url, shots }) {
  await check("roles and names for a screen reader", async () => {
    await browser.go(`${url}#${listed("10-frozen-is-not-signed", 19)}`);
    const fields = `[...document.querySelectorAll("button, input, select, textarea")]`;
    const said = `e.textContent.trim() || e.getAttribute("aria-label") || e.labels?.length`;
    assert.deepEqual(await browser.eval(`${fields}.filter(e => !(${said})).map(e => e.outerHTML)`), []);
    const active = await browser.eval(`document.querySelector("#course-rows [role=listbox]").getAttribute("aria-activedescendant")`);
    assert.equal(await browser.eval(`document.querySelector("#course-rows [aria-selected=true]").id`), active);
    assert.match(await browser.eval(`document.querySelector("#announcement").textContent`), /step 19, sign \{1\}: not ready/);
    const ids = await browser.eval(`[...document.querySelectorAll("[id]")].map(e => e.id)`);
    assert.deepEqual(ids.filter((id, i) => ids.indexOf(id) !== i), []);
    for (const id of ["course-notice", "desk-notice", "announcement"]) assert.equal(await browser.eval(`document.querySelector("#${id}").ariaLive`), "polite");
  });
  await check("views by keys", async () => {
    await browser.eval(`document.querySelector("#tab-course").focus()`);
    await browser.key("ArrowRight");
    assert.equal(await browser.eval(`document.activeElement.id`), "tab-desk");
    await browser.until(`!document.querySelector("#desk").hidden`);
    await browser.go(await browser.eval(`location.href`));
    assert.equal(await browser.eval(`document.querySelector("#desk").hidden`), false);
  });
}

const SIXTEEN = Array.from({ length: 16 }, (_, t) => `root text ${t} # pages ${30 * t + 1} to ${30 * t + 30}\nletter to ${t} text 1\nreceive ${t}\nfreeze ${t}\n`).join("");
const VIEWS = { course: "", lesson: "lesson=02-what-a-withdrawal-reaches&screen=2", lives: "lesson=03-the-count-restarts&screen=4", steps: listed("10-frozen-is-not-signed", 26), desk: "view=desk", details: "view=details", compare: "view=compare", words: "view=words", sixteen: `text=${encodeURIComponent(SIXTEEN)}` };

async function widths({ browser, check, url, shots }) {
  for (const [name, view] of Object.entries(VIEWS)) {
    await check(`a phone's width, a tablet's: ${name}`, async () => {
      for (const room of [320, 390, 800, 1151]) {
        await browser.size(room, 844);
        await browser.go(`${url}#${view}`);
        const wide = await browser.eval(`document.documentElement.scrollWidth`);
        assert.ok(wide <= room, `${wide} wide in ${room}`);
        if (room === 390) await browser.shot(`${shots}phone-${name}.png`);
      }
    });
  }
  await check("on a phone the next step is beside the moment, and the cursor stays there", async () => {
    await browser.size(390, 844);
    await browser.go(`${url}#${listed("10-frozen-is-not-signed", 25)}`);
    await browser.eval(`(b => { b.focus(); b.click(); })(document.querySelector("#course-moment [data-by='1']"))`);
    assert.equal(await browser.text("#course-moment h2"), "After step 26");
    assert.equal(await browser.eval(`document.activeElement.dataset.by`), "1");
    assert.ok((await browser.place("#course-moment .pager")).height > 0);
  });
  await check("on a phone the words stay in view beside the buttons of the last take", async () => {
    await browser.eval(`localStorage.setItem("take-ledger.desk", ${JSON.stringify(JSON.stringify({ format: "take ledger desk", version: 1, steps: SIXTEEN.split("\n") }))})`);
    await browser.go(`${url}#view=details`);
    await browser.eval(`document.querySelector("#desk-steps [data-take='15']").scrollIntoView()`);
    const { y, height } = await browser.place("#desk-words");
    assert.ok(y >= 0 && y + height < 844, `${y}`);
    await browser.size(1500, 950);
    await browser.forget();
  });
  await check("five takes fit a window of 1,400 without scrolling sideways", async () => {
    await browser.size(1400, 900);
    await browser.go(`${url}#${listed("98-a-house", 24)}`);
    const [room, wide] = await browser.eval(`(({ clientWidth, scrollWidth }) => [clientWidth, scrollWidth])(document.querySelector("#course-rows"))`);
    assert.equal(await browser.eval(`document.querySelectorAll("#course-rows .lane-name").length`), 5);
    assert.ok(wide <= room, `${wide} in ${room}`);
    await browser.size(1500, 950);
  });
}

async function onPaper({ browser, check, url, shots }) {
  await check("print: the picture and the tables, without the buttons", async () => {
    await browser.go(`${url}#${listed("10-frozen-is-not-signed", 26)}`);
    await browser.send("Emulation.setEmulatedMedia", { media: "print" });
    const seen = async selector => (await browser.place(selector)).height > 0;
    for (const selector of ["#editor", "#course-steps", "nav", ".bar", ".falls-words input"]) assert.equal(await seen(selector), false, selector);
    for (const selector of [".legend-entry", "#course-rows", "#course-moment"]) assert.equal(await seen(selector), true, selector);
    await browser.size(800, 1130);
    await browser.shot(`${shots}print.png`);
    await browser.send("Emulation.setEmulatedMedia", { media: "" });
    await browser.size(1500, 950);
  });
  await check("on paper a long picture is cut between rows, with the takes over each page, and sixteen lanes fit", async () => {
    await browser.size(2400, 950);
    await browser.go(`${url}#${VIEWS.sixteen}`);
    const pdf = Buffer.from((await browser.send("Page.printToPDF", { paperWidth: 8.27, paperHeight: 11.69 })).data, "base64").toString("latin1");
    assert.ok((pdf.match(/\/Type ?\/Page\b/g) ?? []).length <= 4);
    assert.equal(await browser.eval(`document.querySelectorAll(".paper").length`), 0);
    await browser.eval(`window.dispatchEvent(new Event("beforeprint"))`);
    await browser.send("Emulation.setEmulatedMedia", { media: "print" });
    const bands = await browser.eval(`[...document.querySelectorAll(".paper tbody tr")].map(r => [...r.querySelectorAll("ol, svg")].map(e => e.getBoundingClientRect()).map(b => [b.top, b.height, b.right]))`);
    assert.equal(bands.length, 8);
    for (const [rows, lanes] of bands) assert.deepEqual([rows[0], rows[1], lanes[2] < 1000], [lanes[0], lanes[1], true]);
    assert.equal((await browser.all(".paper thead .lane-name")).length, 16);
    await browser.shot(`${shots}paper.png`);
    await browser.send("Emulation.setEmulatedMedia", { media: "" });
    await browser.eval(`window.dispatchEvent(new Event("afterprint"))`);
    await browser.size(1500, 950);
  });
}
