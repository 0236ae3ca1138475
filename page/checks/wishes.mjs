// The desk as a stenographer uses it: the hearing of three speakers and twelve pages, counted in clicks; by keys alone; what is lit, asked and
// offered; undo and redo; the board in one window; names for whoever listens.
import assert from "node:assert/strict";

const PAGES = [
  ["MR. ABARA: Good morning.", []], ["MR. ABARA: I was on the quay.", []], ["MS. LINDQVIST: Exhibit 4, please.", []], ["JUDGE OKORO: We are on the record.", []],
  ["Q. by Ms. Lindqvist, A. by Mr. Abara", []], ["The crane, continued", [3]], ["The quay, continued", [4]], ["Redirect", [7]], ["Recross", [8]],
  ["JUDGE OKORO: Sustained.", []], ["MS. LINDQVIST: No further questions.", []], ["JUDGE OKORO: Certificate", []],
];
const SPEAKERS = ["Mr. Abara", "Ms. Lindqvist", "Judge Okoro"];

/** A person at the desk: what she clicks and which keys she presses beside typing words is counted. */
export function person(browser) {
  const me = { count: 0 };
  me.click = async selector => {
    me.count++;
    const { x, y, width, height } = await browser.place(selector);
    assert.ok(width > 0, `${selector} is not in view`);
    await browser.mouse(x + width / 2, y + height / 2);
  };
  me.type = text => browser.send("Input.insertText", { text });
  me.key = async key => {
    me.count++;
    await browser.key(key);
  };
  return me;
}

export async function freshDesk(browser, url, width = 1400, height = 900) {
  await browser.size(width, height);
  await browser.go(`${url}#view=desk`);
  await browser.forget();
  await browser.go(`${url}#view=desk`);
}

export const states = browser => browser.eval(`[...document.querySelectorAll("#desk-lanes [data-card]")].map(c => [Number(c.dataset.card), c.className.match(/s-(\\w+)/)[1]]).sort((a, b) => a[0] - b[0]).map(c => c[1])`);
const focused = browser => browser.eval(`document.activeElement.id || document.activeElement.dataset.card || document.activeElement.tagName`);
const label = (browser, take) => browser.eval(`document.querySelector('[data-card="${take}"]').getAttribute("aria-label")`);
const toast = browser => browser.text("#desk-toast");
const signedCount = list => list.filter(s => s === "signed").length;

export async function wishesChecks(context) {
  await hearing(context);
  await wishes(context);
  await drawn(context);
  await slips(context);
  await board(context);
  await byKeys(context);
  await context.browser.size(1500, 950);
  await context.browser.forget();
}

/** Three speakers and their pages, by clicks. */
async function opened(browser, me) {
  await me.click("#add-name");
  for (const name of SPEAKERS) {
    await me.type(name);
    await me.key("Enter");
  }
  await me.click("#add-words");
  for (const [words, grounds] of PAGES) {
    await me.type(words);
    for (const g of grounds) await me.click(`#desk-add [data-ground="${g}"]`);
    if (grounds.length) await me.click("#add-go");
    else await me.key("Enter");
  }
}

async function hearing({ browser, check, url, shots }) {
  const me = person(browser);
  await freshDesk(browser, url);
  await check("three speakers and twelve pages, set from what their words name", async () => {
    await opened(browser, me);
    assert.equal((await states(browser)).length, 15);
    assert.match(await label(browser, 7), /^Page 5, Q\. by Ms\. Lindqvist, A\. by Mr\. Abara, draft, Mr\. Abara, Ms\. Lindqvist$/);
    assert.match(await label(browser, 8), /^Page 6, The crane, continued, draft, p\. 1$/);
    await browser.shot(`${shots}desk-cards.png`);
  });
  await check("a page is withdrawn after its reach was shown, and all else is signed", async () => {
    await me.click(`[data-card="7"]`);
    await me.click("#card-withdraw");
    assert.match(await browser.text("#desk-side"), /Withdraw page 5\?\s+It goes back to a blank card, and can be put back\. 1 card loses its ground/s);
    assert.deepEqual((await states(browser)).flatMap((s, t) => (s === "gone" ? [t] : [])), [10]);
    await browser.shot(`${shots}desk-withdraw.png`);
    await me.click("#ask-yes");
    await me.click(`[data-card="10"]`);
    await me.click(`#desk-side [data-from="2"]`);
    await me.click(`#desk-side [data-from="7"]`);
    await me.click("#card-set");
    await me.click(".backward");
    await me.click("#sign-all");
    await me.click("#ask-yes");
    const now = await states(browser);
    assert.deepEqual([signedCount(now), now[7]], [14, "vanished"]);
    await browser.shot(`${shots}desk-signed.png`);
  });
  await check(`the hearing took ${me.count} clicks and keys beside typing words: at most 40`, async () => assert.ok(me.count <= 40, String(me.count)));
}

/** The example, with one page signed. */
async function wishes({ browser, check, url, shots }) {
  const me = person(browser);
  await freshDesk(browser, url);
  await check("an example hearing: three clicks to a signed page", async () => {
    for (const selector of ["#desk-example", "#sign-ready", "#ask-yes"]) await me.click(selector);
    assert.match(await toast(browser), /Signed: Judge Okoro and page 3\./);
    assert.deepEqual([me.count, signedCount(await states(browser))], [3, 2]);
  });
  await check("pages by speaker: directly, through others, and signed ones too", async () => {
    await me.click(`[data-card="2"]`);
    const lit = await browser.eval(`[...document.querySelectorAll("#desk-lanes .lit")].map(c => [c.dataset.card, c.querySelector(".chip").textContent])`);
    assert.deepEqual(lit, [["5", "set from it"], ["8", "through page 3"]]);
    await me.click(`[data-card="0"]`);
    assert.match(await browser.text("#desk-side"), /Set from it: 3 cards\s+Page 1\s*Page 4\s+through others:\s*Page 5/);
  });
  await check("a corrected spelling marks what was set from the old one, and what is frozen or signed with it", async () => {
    await browser.eval(`document.querySelector("#card-words").select()`);
    await browser.fill("#card-words", "Mr. Abarra");
    await me.click("#card-write");
    assert.match(await toast(browser), /Now “Mr\. Abarra”\. 3 cards set from the old spelling are marked\./);
    for (const take of [3, 6, 7]) assert.match(await label(browser, take), /set from an older text/);
    await me.click(`[data-card="7"]`);
    assert.match(await browser.text("#desk-side"), /Page 5 was set when Mr\. Abarra read “Mr\. Abara”\./);
    await browser.shot(`${shots}desk-older.png`);
    await me.click("#card-sign");
    assert.match(await browser.text("#desk-side"), /Page 1 was set when Mr\. Abarra read “Mr\. Abara”\. It would be signed so\./);
    await browser.key("Escape");
    await me.click(".backward");
    await me.click("#mend-all");
    for (const take of [3, 6, 7]) assert.doesNotMatch(await label(browser, take), /older/);
  });
  await mended({ browser, check }, me);
}

/** The lines that are drawn, each with its kind. */
const lines = browser => browser.eval(`[...document.querySelectorAll("#desk-lanes .wire")].map(w => w.dataset.wire + (w.matches(".direct") ? " direct" : "") + (w.closest(".broken") ? " broken" : "")).sort()`);

/** How far the two ends of each line are from the cards that it joins. */
const ENDS = `(() => {
  const host = document.querySelector("#desk-lanes").getBoundingClientRect(), off = (p, r) => Math.max(r.left - p.x, p.x - r.right, r.top - p.y, p.y - r.bottom, 0);
  return [...document.querySelectorAll("#desk-lanes .wire")].flatMap(w => {
    const body = w.querySelector(".body"), to = w.dataset.wire.split(" ").map(t => document.querySelector('[data-card="' + t + '"]').getBoundingClientRect());
    const at = d => (({ x, y }) => ({ x: x + host.left, y: y + host.top }))(body.getPointAtLength(d));
    return [off(at(0), to[0]), off(at(body.getTotalLength()), to[1])];
  });
})()`;

/** Lines between the cards, and cards that are hidden or put in another order. */
async function drawn({ browser, check, url, shots }) {
  const me = person(browser);
  await freshDesk(browser, url);
  await me.click("#desk-example");
  await check("lines show what a chosen card rests on, directly and through others, what was set from a name, and what a withdrawal reaches", async () => {
    assert.deepEqual(await lines(browser), []);
    await me.click(`[data-card="8"]`);
    assert.deepEqual(await lines(browser), ["5 2", "8 5 direct"]);
    assert.ok((await browser.eval(ENDS)).every(d => d < 8), String(await browser.eval(ENDS)));
    await browser.shot(`${shots}desk-lines.png`);
    await me.click(`[data-card="0"]`);
    assert.deepEqual(await lines(browser), ["3 0 direct", "6 0 direct", "7 3"]);
    assert.ok((await browser.eval(ENDS)).every(d => d < 8), String(await browser.eval(ENDS)));
    await me.click("#card-withdraw");
    assert.deepEqual(await lines(browser), ["3 0 direct broken", "6 0 direct broken", "7 3 broken"]);
    await browser.shot(`${shots}desk-lines-broken.png`);
    await me.click("#ask-keep");
    await browser.key("Escape");
    assert.deepEqual(await lines(browser), []);
  });
  await orders({ browser, check }, me);
}

async function orders({ browser, check }, me) {
  await check("buttons keep their places, whatever card is chosen and whatever was done", async () => {
    const places = async ids => Promise.all(ids.map(async id => (({ x, y }) => `${id} ${x} ${y}`)(await browser.place(id)))), of = ["#card-sign", "#card-freeze", "#front-undo", "#front-details"], found = [];
    for (const take of [0, 2, 3, 5, 8]) {
      await me.click(`[data-card="${take}"]`);
      found.push(await places(of));
    }
    await me.click("#card-freeze");
    found.push(await places(of));
    for (const other of found) assert.deepEqual(other, found[0]);
    await browser.key("z", 2);
  });
  await check("withdrawn cards can be hidden and shown again; cards by speaker and by page", async () => {
    const { height: bar } = await browser.place("#desk-top");
    await me.click(`[data-card="7"]`);
    await me.click("#card-withdraw");
    await me.click("#ask-yes");
    assert.equal((await states(browser)).length, 9);
    await me.click("#front-hide");
    assert.equal((await states(browser)).length, 8);
    assert.equal(await browser.text("#front-hide"), "Show withdrawn");
    assert.equal((await browser.place("#desk-top")).height, bar, "the bar keeps its height");
    await me.click("#front-hide");
    assert.equal((await states(browser)).length, 9);
    await me.click(`[data-order="page"]`);
    assert.deepEqual(await browser.eval(`[...document.querySelectorAll("#desk-lanes [data-card]")].map(c => Number(c.dataset.card))`), [0, 1, 2, 3, 4, 5, 6, 7, 8]);
    await me.click(`[data-order="speaker"]`);
  });
}

async function mended({ browser, check }, me) {
  await check("a frozen page with an older text is signed as it is and set again, after a question", async () => {
    await me.click(`[data-card="4"]`);
    await me.click("#card-freeze");
    await me.click(`[data-card="1"]`);
    await browser.fill("#card-words", "Ms. Lindquist");
    await me.click("#card-write");
    await me.click(`[data-card="4"]`);
    assert.equal(await browser.eval(`document.querySelector("#card-write").disabled`), true);
    await me.click("#card-mend");
    assert.match(await browser.text("#desk-side"), /Sign page 2 as it is\?/);
    await me.click("#ask-yes");
    assert.match(await label(browser, 4), /^Page 2, MS\. LINDQVIST: Exhibit 4, please\., draft, still says Ms\. Lindqvist, Ms\. Lindquist$/);
  });
  await check("the steps of a deed stand behind Details, and every step behind the bar's", async () => {
    assert.match(await browser.content("#desk-side .desk-behind"), /send 1 to 4[^]*receive [^]*write 4/);
    assert.match(await browser.content("#desk-side .desk-behind"), /One signing was used to open it blank/);
    await me.click("#front-details");
    await browser.until(`!document.querySelector("#details").hidden`);
    assert.match(await browser.text("#desk-bar"), /room for 16 takes, 32 parcels, 15 signings/);
    await browser.go((await browser.eval("location.href")).replace("details", "desk"));
    assert.match(await label(browser, 4), /^Page 2/);
  });
  await check("what the ledger would refuse or hold is not offered", async () => {
    await me.click(`[data-card="4"]`);
    await me.click("#card-freeze");
    for (const id of ["card-withdraw", "card-freeze", "card-write", "card-set"]) assert.equal(await browser.eval(`document.querySelector("#${id}").disabled`), true, id);
    assert.equal(await browser.eval(`document.querySelector("#card-withdraw").title`), "It is frozen: it is held.");
  });
}

async function slips({ browser, check, url }) {
  const me = person(browser), title = () => browser.eval(`document.querySelector("#front-title").value`);
  await freshDesk(browser, url);
  await me.click("#desk-example");
  await check("a frozen page that lost its ground is not stranded: it is set again from the name that was put back", async () => {
    await me.click(`[data-card="3"]`);
    await me.click("#card-freeze");
    await me.click(`[data-card="0"]`);
    await me.click("#card-withdraw");
    await me.click("#ask-yes");
    assert.deepEqual((await states(browser)).map((s, t) => (s === "gone" ? t : -1)).filter(t => t >= 0), [3, 6, 7]);
    await me.click("#card-back");
    await me.click(`[data-card="3"]`);
    await me.click("#card-set");
    assert.equal((await states(browser))[3], "draft");
    assert.match(await label(browser, 3), /^Page 1, MR\. ABARA: Good morning\., draft, Mr\. Abara$/);
  });
  await taking({ browser, check }, me, title);
}

async function taking({ browser, check }, me, title) {
  await check("undo and redo of everything, titles too, by keys; a signing is asked about", async () => {
    await browser.fill("#front-title", "Quay inquiry");
    assert.equal(await title(), "Quay inquiry");
    await browser.eval(`document.querySelector('[data-card="0"]').focus()`);
    await browser.key("z", 2);
    assert.equal(await title(), "Harbour inquiry, day 3");
    await browser.key("z", 2);
    assert.equal((await states(browser))[3], "gone");
    await browser.key("z", 10);
    await browser.key("y", 2);
    assert.deepEqual([(await states(browser))[3], await title()], ["draft", "Quay inquiry"]);
    await browser.key("Escape");
    await me.click("#sign-ready");
    await me.click("#ask-yes");
    await browser.eval(`document.querySelector('[data-card="0"]').focus()`);
    await browser.key("z", 2);
    assert.match(await browser.text("#desk-side"), /Take the signing back\?/);
    assert.equal(await focused(browser), "ask-keep");
    await me.click("#ask-yes");
    assert.equal((await states(browser))[5], "frozen");
  });
  await check("a double click does one thing", async () => {
    const { x, y, width, height } = await browser.place("#sign-all"), at = { x: x + width / 2, y: y + height / 2, button: "left" };
    for (const clickCount of [1, 2]) for (const type of ["mousePressed", "mouseReleased"]) await browser.send("Input.dispatchMouseEvent", { type, ...at, clickCount });
    assert.match(await browser.text("#desk-side"), /Sign 7 cards\?/);
    assert.equal(signedCount(await states(browser)), 0);
    await browser.key("Escape");
  });
}

async function board({ browser, check, url, shots }) {
  for (const [width, height] of [[1400, 900], [1024, 768]]) {
    await check(`sixteen cards in one window of ${width} by ${height}`, async () => {
      await freshDesk(browser, url, width, height);
      await opened(browser, person(browser));
      await browser.fill("#add-words", "JUDGE OKORO: Adjourned.");
      await browser.click("#add-go");
      assert.match(await browser.text("#desk-side"), /Use the last card\?/);
      await browser.click("#ask-yes");
      const [tall, room] = await browser.eval(`(e => [e.scrollHeight, e.clientHeight])(document.querySelector("#desk-lanes"))`);
      assert.equal((await states(browser)).length, 16);
      assert.ok(tall <= room, `${tall} in ${room}`);
      assert.equal(await browser.eval(`document.documentElement.scrollHeight`), height);
      assert.match(await browser.text("#desk-add"), /All 16 cards of this session are used\./);
      await browser.shot(`${shots}desk-sixteen-${width}.png`);
    });
  }
  await check("each card and button has a name for whoever listens", async () => {
    const { nodes } = await browser.send("Accessibility.getFullAXTree");
    const wanted = nodes.filter(n => !n.ignored && ["button", "textbox", "tab", "dialog", "link"].includes(n.role?.value)), nameless = wanted.filter(n => !n.name?.value);
    assert.ok(wanted.length > 25, String(wanted.length));
    assert.deepEqual(nameless.map(n => n.role.value), []);
    const cards = nodes.filter(n => n.role?.value === "button" && /^Page \d+, /.test(n.name?.value ?? ""));
    assert.equal(cards.length, 13);
  });
}

/** By the tabulator, enter, arrows and letters alone. */
async function byKeys({ browser, check, url }) {
  const me = person(browser), tab = async (wanted, most = 60) => {
    for (let i = 0; i < most && await focused(browser) !== wanted; i++) await browser.key("Tab");
    assert.equal(await focused(browser), wanted);
  };
  await freshDesk(browser, url);
  await check("a name, a page, a withdrawal and a signing by keys alone", async () => {
    await tab("add-name");
    await me.type("Mr. Abara");
    await browser.key("Enter");
    await tab("add-words");
    await me.type("MR. ABARA: Good morning.");
    await browser.key("Enter");
    assert.match(await label(browser, 1), /draft, Mr\. Abara$/);
    await browser.eval(`document.activeElement.blur()`);
    await tab("0");
    await browser.key("ArrowRight");
    assert.equal(await focused(browser), "1");
    await browser.key("Enter");
    await browser.key("f");
    assert.equal((await states(browser))[1], "frozen");
    await browser.key("z", 2);
    assert.equal((await states(browser))[1], "draft");
    await tab("card-withdraw");
    await browser.key("Enter");
    assert.equal(await focused(browser), "ask-keep");
    await browser.key("Enter");
    await tab("card-sign");
    await browser.key("Enter");
    await tab("ask-yes");
    await browser.key("Enter");
    assert.deepEqual(await states(browser), ["signed", "signed"]);
  });
}
