// Two files side by side: runs that are the same, the same up to order, or different; what ends otherwise; files that are nothing.
import assert from "node:assert/strict";
import { writeFileSync } from "node:fs";

const A = "root text 1\nroot text 2\nletter to 0 text 3\nreceive 0\n";
const START = "root text 1 # the names\nroot text 2 # page 12\nroot text 3 # page 40\nletter to 0 text 5\nreceive 0\nletter to 1 text 5\nreceive 1\nletter to 2 text 5\nreceive 2\n";
const EDITS = ["write 1 text 8", "freeze 2", "write 0 text 9", "freeze 1"], lines = order => order.map(i => `${EDITS[i]}\n`).join("");

export async function compareChecks(context) {
  const { browser, url } = context, put = (name, bytes) => {
    writeFileSync(`${browser.profile}/${name}`, bytes);
    return `${browser.profile}/${name}`;
  };
  const held = async (a, b) => {
    await browser.go(`${url}#view=compare`);
    await browser.give("#compare-0", a);
    await browser.until(`document.querySelectorAll(".side strong").length === 1`);
    await browser.give("#compare-1", b);
    await browser.until(`document.querySelectorAll(".side strong").length === 2`);
    return browser.content("#difference");
  };
  await lists(context, put, held);
  await orders(context, put, held);
  await images(context, put, held);
  await beside(context, put, held);
}

async function lists({ browser, check }, put, held) {
  const a = put("a.steps", A);
  await check("compare: the same", async () => {
    assert.match(await held(a, put("b.steps", `  ${A}# more\n`)), /The steps are the same; both end in the same image, byte for byte\./);
  });
  await check("compare: every difference, in both columns, and who is affected", async () => {
    const words = await held(a, put("b.steps", A.replace("root text 2", "root text 7").replace("text 3", "text 4")));
    assert.match(words, /They differ in 3 steps; take 1 ends otherwise\./);
    assert.deepEqual(await browser.eval(`[...document.querySelectorAll(".run.other")].map(r => [...r.querySelectorAll(".column")].map(c => c.querySelectorAll(".step-line").length))`), [[3, 3]]);
    assert.match(words, /Opened: take 1, with text 2 affects take 1/);
    assert.match(await browser.text(".end-row"), /Take 1\s*draft\s*text text 2[^]*Take 1\s*draft\s*text text 7/);
    assert.match(await held(a, put("b.steps", `${A}freeze 0\n`)), /They differ in 1 step; take 0 ends otherwise\.[^]*only on the right/);
  });
  await check("compare: a parcel that got another number is still the same one", async () => {
    const more = "root text 1\nroot text 2\nletter to 1 text 9\nletter to 0 text 3\nreceive 1\n";
    assert.match(await held(a, put("b.steps", more)), /They differ in 1 step; what waits at the end differs\./);
  });
  await check("compare: a file that is nothing is named", async () => {
    await held(a, put("b", Buffer.from([1, 2, 3])));
    assert.match(await browser.text("#compare-part"), /b can't be opened: it is no image/);
    await held(a, put("cut.image", Buffer.alloc(20000)));
    assert.match(await browser.text("#compare-part"), /cut\.image can't be opened: it is not a whole image\./);
  });
}

async function orders({ browser, check, shots }, put, held) {
  const left = put("osei.steps", `${START}${lines([0, 1, 2, 3])}send 0 to 1 text 4\ndone 0\n`);
  await check("compare: independent steps that changed places are the same up to order, with a thread from each to its twin", async () => {
    const words = await held(left, put("brandt.steps", `${START}${lines([2, 0, 3, 1])}send 0 to 2 text 4\ndone 0\n`));
    assert.match(words, /They differ in 1 step; what waits at the end differs\.1 run is the same up to order: whose edit came first made no difference there\./);
    assert.deepEqual(await browser.eval(`[...document.querySelectorAll(".run")].map(r => r.className)`), ["run same", "run order", "run other", "run same"]);
    const drawn = await browser.eval(`[...document.querySelectorAll(".threads path")].map(p => p.getAttribute("d").match(/[\\d.]+$/)[0] / 38 - 0.5)`);
    assert.deepEqual(drawn, [1, 3, 0, 2]);
    assert.match(words, /The names sent parcel 3, text 4, to page 12 affects the names and page 12/);
    await browser.shot(`${shots}compare.png`);
    await browser.press("#compare-part", "Go to the difference");
    assert.match(await browser.eval(`document.activeElement.className`), /run other/);
  });
  await check("compare: steps of one take that changed places are different", async () => {
    const one = put("one.steps", `${START}write 1 text 8\nfreeze 1\n`), other = put("other.steps", `${START}freeze 1\nwrite 1 text 8\n`);
    assert.match(await held(one, other), /They differ in \d steps?; page 12 ends otherwise\./);
    assert.equal(await browser.eval(`document.querySelectorAll(".run.order").length`), 0);
  });
}

async function images({ browser, check }, put, held) {
  await check("compare: two images, take by take", async () => {
    const image = Buffer.alloc(42616);
    image.set([1, 0, 0, 0, 16, 32, 15, 0, 0x40, 0, 0, 0, 7]);
    image[17] = 0x80;
    const other = Buffer.from(image);
    other[12] = 8;
    assert.match(await held(put("a.image", image), put("b.image", other)), /They differ: take 0 ends otherwise\.[^]*text text 7[^]*text text 8/);
    other[12] = 7;
    other[17] = 0xc0;
    await held(put("a.image", image), put("b.image", other));
    assert.deepEqual(await browser.all(".end-row .differs"), ["life (empty; 0)", "life (empty; 0), frozen"]);
  });
  await check("compare: a damaged image is compared all the same, byte by byte where words would be the same", async () => {
    const image = Buffer.alloc(42616), damaged = Buffer.alloc(42616);
    for (const whole of [image, damaged]) whole.set([0, 0, 0, 0, 16, 32, 15, 0]);
    damaged[200] = 3;
    const words = await held(put("a.image", image), put("b.image", damaged));
    assert.match(await browser.text("#compare-part"), /b\.image can't be opened: refused with 19, .*; its bytes are compared as an image's/);
    assert.match(words, /they hold other bytes[^]*byte 200 is 0 on the left, 3 on the right/);
    assert.doesNotMatch(words, /no mark against no mark/);
    const nothing = put("n", Buffer.from([1, 2, 3]));
    assert.match(await held(nothing, nothing), /The files are the same, byte for byte\./);
    assert.match(await held(nothing, put("m", Buffer.from([1, 2, 4]))), /The files are not the same, byte for byte\./);
    assert.match(await held(put("a.image", image), nothing), /Only the left file can be opened: there is nothing to compare\./);
  });
}

async function beside({ check }, put, held) {
  await check("compare: names and words", async () => {
    const file = (title, name, words) => JSON.stringify({
      format: "take ledger desk", version: 1, title, limits: { takes: 16, parcels: 32, signings: 15 },
      steps: ["root text 1", "root text 2"], takes: ["speakers", name], texts: { 1: "Meyer", 2: words },
    });
    const left = put("l.json", file("a", "pages 1 to 30", "Kehr; a"));
    const words = await held(left, put("r.json", file("b", "pages 1 to 29", "Karr; a")));
    assert.match(words, /The steps are the same; both end in the same image/);
    assert.match(words, /The names and words differ: The hearing is called “a” on the left, “b” on the right\./);
    assert.match(words, /Take 1 is called “pages 1 to 30” on the left, “pages 1 to 29” on the right\. Text 2 is “Kehr; a” on the left, “Karr; a” on the right\./);
    assert.match(await held(left, left), /The names and words are the same\./);
    assert.match(await held(left, put("n.steps", "root text 1\nroot text 3\n")), /Names and words are not compared: the right file has none\./);
  });
}
