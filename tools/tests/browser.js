// A browser without a window, Debian's chromium, which opens a page of a file and does in it what a reader would.
"use strict";
const { spawn } = require("node:child_process");
const fs = require("node:fs");
const os = require("node:os");
const path = require("node:path");
const { setTimeout: sleep } = require("node:timers/promises");
const { pathToFileURL } = require("node:url");

const BROWSER = process.env.CHROMIUM ?? "chromium";
const WORDS = ["--headless=new", "--no-sandbox", "--disable-gpu", "--hide-scrollbars", "--window-size=1440,900", "--remote-debugging-pipe"];

/** A page in a browser of its own. `open` makes one, and `close` has to end it. */
class Page {
  /** Opens a file, and waits until it is loaded and drawn. */
  static async open(file) {
    const page = new Page();
    try {
      await page.attach();
      const loaded = page.event("Page.loadEventFired");
      await page.ask("Page.navigate", { url: pathToFileURL(path.resolve(file)).href });
      await loaded;
      await page.drawn();
      return page;
    } catch (error) {
      await page.close();
      throw error;
    }
  }

  /** Waits for the browser's first page, and listens to it. */
  async attach() {
    let target;
    while (target === undefined) {
      const { targetInfos } = await this.ask("Target.getTargets");
      target = targetInfos.find((it) => it.type === "page");
      if (target === undefined) await sleep(100);
    }
    this.session = (await this.ask("Target.attachToTarget", { targetId: target.targetId, flatten: true })).sessionId;
    this.events.set("Runtime.exceptionThrown", ({ exceptionDetails: it }) => this.faults.push(it.exception?.description ?? it.text));
    await this.ask("Page.enable");
    await this.ask("Runtime.enable");
    // Of the processor's time, and not of the clock's, which other programs share.
    await this.ask("Performance.enable", { timeDomain: "threadTicks" });
  }

  constructor() {
    this.folder = fs.mkdtempSync(path.join(os.tmpdir(), "browser-"));
    const words = [...WORDS, `--user-data-dir=${this.folder}`, "about:blank"];
    this.process = spawn(BROWSER, words, { stdio: ["ignore", "ignore", "ignore", "pipe", "pipe"] });
    this.waiting = new Map();
    this.events = new Map();
    this.asked = 0;
    /** What the page's program has thrown. */
    this.faults = [];
    let text = "";
    this.process.stdio[4].setEncoding("utf8").on("data", (more) => {
      const parts = (text + more).split("\0");
      text = parts.pop();
      parts.forEach((it) => this.hear(JSON.parse(it)));
    });
  }

  hear({ id, method, result, error, params }) {
    if (id === undefined) return this.events.get(method)?.(params);
    const { resolve, reject } = this.waiting.get(id);
    this.waiting.delete(id);
    return error === undefined ? resolve(result) : reject(new Error(error.message));
  }

  ask(method, params = {}) {
    const id = ++this.asked;
    const said = { id, method, params, ...(this.session !== undefined && { sessionId: this.session }) };
    this.process.stdio[3].write(`${JSON.stringify(said)}\0`);
    return new Promise((resolve, reject) => this.waiting.set(id, { resolve, reject }));
  }

  event(method) {
    return new Promise((resolve) => this.events.set(method, resolve));
  }

  /** The value of an expression in the page, which may be a promise. Faults: it throws. */
  async value(expression) {
    const { result, exceptionDetails } = await this.ask("Runtime.evaluate", { expression, awaitPromise: true, returnByValue: true });
    if (exceptionDetails !== undefined) throw new Error(exceptionDetails.exception?.description ?? exceptionDetails.text);
    return result.value;
  }

  /** Waits until what was asked for is to be seen. */
  drawn() {
    return this.value("new Promise((done) => requestAnimationFrame(() => requestAnimationFrame(() => done(true))))");
  }

  /** The milliseconds of the processor that the page's own thread has taken so far. */
  async worked() {
    const { metrics } = await this.ask("Performance.getMetrics");
    return metrics.find((it) => it.name === "TaskDuration").value * 1000;
  }

  /** When the page was first painted, in milliseconds from its beginning; nothing where the browser doesn't tell it within two seconds. */
  firstPaint() {
    return this.value(`new Promise((done) => {
      setTimeout(() => done(undefined), 2000);
      new PerformanceObserver((list) => done(list.getEntries()[0].startTime)).observe({ type: "paint", buffered: true });
    })`);
  }

  /** Clicks at a point of the window, and answers the milliseconds until the answer is to be seen. */
  async click(x, y) {
    const start = process.hrtime.bigint();
    for (const type of ["mousePressed", "mouseReleased"]) await this.ask("Input.dispatchMouseEvent", { type, x, y, button: "left", clickCount: 1 });
    await this.drawn();
    return Number(process.hrtime.bigint() - start) / 1e6;
  }

  /** Writes the words into the search, as a reader would, and answers the milliseconds until the answer is to be seen. */
  async search(words) {
    const start = process.hrtime.bigint();
    await this.value(`byId("search").value = ${JSON.stringify(words)}; search();`);
    await this.drawn();
    return Number(process.hrtime.bigint() - start) / 1e6;
  }

  /** The point of the window at which the thing with this name stands, as `[x, y]`: the head of a box, the middle of a module. */
  place(name) {
    return this.value(`(() => {
      const it = shown.things.find((one) => nameOf(one) === ${JSON.stringify(name)});
      const { x, y } = shown.rects.get(it);
      const { left, top } = canvas.getBoundingClientRect();
      return [left + view.x + (x + 20) * view.scale, top + view.y + (y + 10) * view.scale];
    })()`);
  }

  async picture(file) {
    const { data } = await this.ask("Page.captureScreenshot", { format: "png" });
    fs.writeFileSync(file, Buffer.from(data, "base64"));
  }

  async close() {
    const ended = new Promise((resolve) => this.process.on("exit", resolve));
    this.process.kill();
    await ended;
    fs.rmSync(this.folder, { recursive: true, force: true, maxRetries: 5 });
  }
}

module.exports = { Page };
