// A headless Chromium by its debugging pipe, with no package: messages are JSON with a zero byte after each, on descriptors 3 and 4.
import { spawn } from "node:child_process";
import { mkdtempSync, rmSync, writeFileSync, mkdirSync } from "node:fs";
import { tmpdir } from "node:os";
import { join } from "node:path";

const FLAGS = [
  "--headless=new", "--no-sandbox", "--disable-gpu", "--hide-scrollbars", "--no-first-run", "--disable-dev-shm-usage",
  "--disable-background-networking", "--disable-component-update", "--remote-debugging-pipe",
];
const CODES = { ArrowDown: 40, ArrowUp: 38, Home: 36, End: 35, ArrowRight: 39, Escape: 27, ArrowLeft: 37, Enter: 13, Tab: 9, Space: 32, Backspace: 8 };
const quoted = JSON.stringify;

/** Works in the page: the element of a selector, which must be there. */
const found = selector => `(document.querySelector(${quoted(selector)}) ?? (() => { throw new Error(${quoted(`no ${selector}`)}); })())`;

/**
 * Messages to and from the browser.
 * @param {import("node:child_process").Child} child
 */
function pipe(child) {
  let next = 1, rest = "";
  const waiting = new Map(), events = /** @type {any[]} */ ([]);
  const arrived = message => {
    if (!message.id) return events.push(message);
    const { yes, no } = waiting.get(message.id);
    waiting.delete(message.id);
    return message.error ? no(new Error(message.error.message)) : yes(message.result);
  };
  child.stdio[4].setEncoding("utf8").on("data", data => {
    rest += data;
    for (let end; (end = rest.indexOf("\0")) >= 0; rest = rest.slice(end + 1)) arrived(JSON.parse(rest.slice(0, end)));
  });
  /** @type {(method: string, params?: object, sessionId?: string) => Promise<any>} */
  const call = (method, params = {}, sessionId = undefined) => new Promise((yes, no) => {
    const id = next++;
    waiting.set(id, { yes, no });
    child.stdio[3].write(`${JSON.stringify({ id, method, params, sessionId })}\0`);
  });
  return { call, events };
}

export class Browser {
  targetId = "";
  /** @type {string | undefined} */ sessionId = undefined;

  /**
   * A window of a browser that runs.
   * @param {{profile: string, child: import("node:child_process").Child, call: ReturnType<typeof pipe>["call"], events: any[]}} running
   */
  constructor({ profile, child, call, events }) {
    this.profile = profile;
    this.downloads = join(profile, "downloads");
    this.child = child;
    this.call = call;
    this.events = events;
  }

  /** A new browser, or one with what another one has left in its profile. */
  static async open(width = 1500, height = 950, profile = mkdtempSync(join(tmpdir(), "page-"))) {
    const flags = [...FLAGS, `--user-data-dir=${profile}`, "about:blank"], stdio = ["ignore", "ignore", "ignore", "pipe", "pipe"];
    const child = spawn(process.env.CHROMIUM || "chromium", flags, { stdio }), browser = new Browser({ profile, child, ...pipe(child) });
    mkdirSync(browser.downloads, { recursive: true });
    await browser.attach(width, height);
    return browser;
  }

  /**
   * A message to this window, and its answer.
   * @param {string} method
   * @param {object} [params]
   */
  send(method, params) {
    return this.call(method, params, this.sessionId);
  }

  async attach(width, height) {
    const { targetId } = await this.call("Target.createTarget", { url: "about:blank" });
    const { sessionId } = await this.call("Target.attachToTarget", { targetId, flatten: true });
    Object.assign(this, { targetId, sessionId });
    for (const domain of ["Page", "Runtime", "Log", "DOM", "Network"]) await this.send(`${domain}.enable`);
    await this.call("Browser.setDownloadBehavior", { behavior: "allow", downloadPath: this.downloads, eventsEnabled: true });
    await this.size(width, height);
  }

  /** Another window of the same browser, which shares what is kept. */
  async another(width = 1500, height = 950) {
    const other = new Browser(this);
    await other.attach(width, height);
    return other;
  }

  /** Shuts a window that is another. */
  shut() {
    return this.call("Target.closeTarget", { targetId: this.targetId });
  }

  size(width, height) {
    return this.send("Emulation.setDeviceMetricsOverride", { width, height, deviceScaleFactor: 1, mobile: false });
  }

  /** Loads an address anew, and waits until the page says that it is ready. */
  async go(url) {
    await this.send("Page.navigate", { url: "about:blank" });
    await this.send("Page.navigate", { url });
    await this.until(`document.body?.dataset.ready === "true"`);
  }

  async eval(expression) {
    const given = { expression, awaitPromise: true, returnByValue: true };
    const { result, exceptionDetails: wrong } = await this.send("Runtime.evaluate", given);
    if (wrong) throw new Error(wrong.exception?.description ?? wrong.text);
    return result.value;
  }

  async until(expression, ms = 60000) {
    for (const end = Date.now() + ms; Date.now() < end; await new Promise(r => setTimeout(r, 25))) if (await this.eval(expression)) return;
    throw new Error(`never true: ${expression}`);
  }

  /** Has the browser forget all that the page keeps. */
  async forget() {
    await this.eval(`(async () => {
      localStorage.clear();
      if (!(await indexedDB.databases()).length) return;
      const db = await new Promise(yes => { const ask = indexedDB.open("take-ledger"); ask.onsuccess = () => yes(ask.result); });
      const all = db.transaction([...db.objectStoreNames], "readwrite");
      for (const name of db.objectStoreNames) all.objectStore(name).clear();
      await new Promise(yes => { all.oncomplete = yes; });
      db.close();
    })()`);
  }

  /** The words that somebody sees there. */
  text(selector) {
    return this.eval(`document.querySelector(${quoted(selector)})?.innerText ?? null`);
  }

  /** All words there, also of rows that are not in view. */
  content(selector) {
    return this.eval(`document.querySelector(${quoted(selector)})?.textContent ?? null`);
  }

  click(selector) {
    return this.eval(`${found(selector)}.click()`);
  }

  /** Presses the button with these words. */
  press(within, words) {
    return this.eval(`[...${found(within)}.querySelectorAll("button")].find(b => b.textContent === ${quoted(words)}).click()`);
  }

  /** The words of every element of a selector. */
  all(selector) {
    return this.eval(`[...document.querySelectorAll(${quoted(selector)})].map(e => e.textContent)`);
  }

  /** Where an element stands in the window. */
  place(selector) {
    return this.eval(`(({ x, y, width, height }) => ({ x, y, width, height }))(${found(selector)}.getBoundingClientRect())`);
  }

  /** Puts a value into a field, as typing would. */
  fill(selector, value) {
    const told = `for (const name of ["input", "change"]) e.dispatchEvent(new Event(name, { bubbles: true }));`;
    return this.eval(`(e => { e.value = ${quoted(value)}; ${told} })(${found(selector)})`);
  }

  /** Presses a key; modifiers: 2 control, 8 shift. */
  async key(key, modifiers = 0) {
    const text = key === "Enter" ? "\r" : key === "Space" ? " " : key.length === 1 && !modifiers ? key : undefined;
    const pressed = { key: key === "Space" ? " " : key, code: key, modifiers, windowsVirtualKeyCode: CODES[key] ?? key.toUpperCase().charCodeAt(0), ...(text ? { text } : {}) };
    for (const type of ["keyDown", "keyUp"]) await this.send("Input.dispatchKeyEvent", { type, ...pressed });
  }

  async mouse(x, y) {
    for (const type of ["mousePressed", "mouseReleased"]) {
      await this.send("Input.dispatchMouseEvent", { type, x, y, button: "left", clickCount: 1 });
    }
  }

  /** Gives files to a file field. */
  async give(selector, ...files) {
    const { root } = await this.send("DOM.getDocument");
    const { nodeId } = await this.send("DOM.querySelector", { nodeId: root.nodeId, selector });
    await this.send("DOM.setFileInputFiles", { nodeId, files });
  }

  async shot(file) {
    writeFileSync(file, Buffer.from((await this.send("Page.captureScreenshot", { format: "png" })).data, "base64"));
  }

  /** Errors that the console or the page has seen, and requests that left it. */
  troubles() {
    const bad = {
      "Runtime.exceptionThrown": () => true,
      "Log.entryAdded": ({ entry }) => entry.level === "error",
      "Runtime.consoleAPICalled": ({ type }) => type === "error" || type === "assert",
      "Network.requestWillBeSent": ({ request }) => !/^(file|about|blob|data):/.test(request.url),
    };
    return this.events.filter(e => bad[e.method]?.(e.params)).map(e => (e.params.exceptionDetails?.exception?.description ?? JSON.stringify(e.params)).slice(0, 500));
  }

  /** Has it die at once, as by a power cut. */
  async kill() {
    this.child.kill("SIGKILL");
    await this.ended();
  }

  /** Waits until it runs no more. */
  ended() {
    const { child } = this;
    return new Promise(r => (child.exitCode === null && child.signalCode === null ? child.once("exit", r) : r(undefined)));
  }

  async close() {
    await this.call("Browser.close").catch(() => {});
    await this.ended();
    rmSync(this.profile, { recursive: true, force: true });
  }
}
