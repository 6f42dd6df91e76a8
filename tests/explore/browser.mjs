// A headless Chromium, driven by its remote debugging protocol over a pipe: real presses, keys and drags, and what the page then shows.
import { spawn } from "node:child_process";
import { mkdtempSync, rmSync } from "node:fs";
import { tmpdir } from "node:os";
import { join } from "node:path";

const KEYS = { Tab: 9, Enter: 13, " ": 32, ArrowLeft: 37, ArrowUp: 38, ArrowRight: 39, ArrowDown: 40 };

// the browser's two pipes: one JSON text for each message, ended by a byte 0
class Pipe {
  constructor(input, output, onEvent) {
    Object.assign(this, { input, onEvent, last: 0, waiting: new Map(), rest: "" });
    output.setEncoding("utf8");
    output.on("data", (text) => this.read(text));
  }

  read(text) {
    const messages = (this.rest + text).split("\0");
    this.rest = messages.pop();
    for (const message of messages) this.take(JSON.parse(message));
  }

  take({ id, method, params, result, error }) {
    if (id === undefined) return this.onEvent(method, params);
    const { resolve, reject, asked } = this.waiting.get(id);
    this.waiting.delete(id);
    error ? reject(new Error(`${asked}: ${error.message}`)) : resolve(result);
  }

  // the browser is gone: nothing more will be answered
  end() {
    for (const { reject, asked } of this.waiting.values()) reject(new Error(`${asked}: the browser has ended`));
  }

  send(method, params, sessionId) {
    const id = ++this.last;
    this.input.write(JSON.stringify({ id, method, params, sessionId }) + "\0");
    return new Promise((resolve, reject) => this.waiting.set(id, { resolve, reject, asked: method }));
  }
}

// what a page must not do: errors and warnings on the console, exceptions, requests for anything but itself
function complaint(method, params) {
  if (method === "Runtime.exceptionThrown") return params.exceptionDetails.exception?.description ?? params.exceptionDetails.text;
  if (method === "Runtime.consoleAPICalled" && params.type !== "log") return `console ${params.type}: ${params.args.map((arg) => arg.value).join(" ")}`;
  if (method === "Log.entryAdded" && params.entry.level !== "verbose") return `${params.entry.level}: ${params.entry.text}`;
  if (method === "Network.requestWillBeSent" && !/^(file|data):/.test(params.request.url)) return `asked for ${params.request.url}`;
}

export class Page {
  static async open(program, url) {
    const page = new Page();
    page.folder = mkdtempSync(join(tmpdir(), "explore-"));
    page.complaints = [];
    const options = ["--headless", "--no-sandbox", "--disable-gpu", "--disable-dev-shm-usage", "--no-first-run", "--remote-debugging-pipe", `--user-data-dir=${page.folder}`, "about:blank"];
    page.browser = spawn(program, options, { stdio: ["ignore", "ignore", "ignore", "pipe", "pipe"] });
    page.ended = new Promise((resolve) => page.browser.on("close", resolve));
    page.ended.then(() => page.pipe.end());
    page.pipe = new Pipe(page.browser.stdio[3], page.browser.stdio[4], (method, params) => page.happened(method, params));
    await page.attach();
    await page.visit(url);
    return page;
  }

  happened(method, params) {
    const words = complaint(method, params);
    if (words) this.complaints.push(words);
    if (method === "Page.loadEventFired") this.loaded?.();
  }

  send(method, params = {}) {
    return this.pipe.send(method, params, this.session);
  }

  async attach() {
    const { targetInfos } = await this.send("Target.getTargets");
    const target = targetInfos.find(({ type }) => type === "page");
    const { sessionId } = await this.send("Target.attachToTarget", { targetId: target.targetId, flatten: true });
    this.session = sessionId;
    for (const domain of ["Page", "Runtime", "Log", "Network", "Accessibility"]) await this.send(`${domain}.enable`);
  }

  async visit(url) {
    const loaded = new Promise((resolve) => (this.loaded = resolve));
    await this.send("Page.navigate", { url });
    await loaded;
  }

  async close() {
    this.pipe.send("Browser.close").catch(() => {});
    await this.ended;
    rmSync(this.folder, { recursive: true, force: true, maxRetries: 5 });
  }

  // ---------- how it looks

  size(width, height) {
    return this.send("Emulation.setDeviceMetricsOverride", { width, height, deviceScaleFactor: 1, mobile: false });
  }

  media(media, scheme) {
    return this.send("Emulation.setEmulatedMedia", { media, features: [{ name: "prefers-color-scheme", value: scheme }] });
  }

  async picture(whole = true) {
    const { data } = await this.send("Page.captureScreenshot", { format: "png", captureBeyondViewport: whole });
    return Buffer.from(data, "base64");
  }

  // ---------- what it says

  async evaluate(expression) {
    const { result, exceptionDetails } = await this.send("Runtime.evaluate", { expression, returnByValue: true, awaitPromise: true });
    if (exceptionDetails) throw new Error(exceptionDetails.exception?.description ?? exceptionDetails.text);
    return result.value;
  }

  text(selector) {
    return this.evaluate(`document.querySelector(${JSON.stringify(selector)}).innerText.replace(/\\s+/g, " ").trim()`);
  }

  texts(selector) {
    return this.evaluate(`[...document.querySelectorAll(${JSON.stringify(selector)})].map((element) => element.innerText.replace(/\\s+/g, " ").trim())`);
  }

  // ---------- what one does to it

  // the middle of an element, after it has been brought into view
  async middle(selector) {
    const place = await this.evaluate(`(() => {
      const element = document.querySelector(${JSON.stringify(selector)});
      if (!element) return null;
      element.scrollIntoView({ block: "center", inline: "center", behavior: "instant" });
      const { left, top, width, height } = element.getBoundingClientRect();
      return { x: left + width / 2, y: top + height / 2 };
    })()`);
    if (!place) throw new Error(`there is no ${selector}`);
    return place;
  }

  mouse(type, { x, y }) {
    return this.send("Input.dispatchMouseEvent", { type, x, y, button: "left", buttons: 1, clickCount: 1 });
  }

  async press(selector) {
    const place = await this.middle(selector);
    await this.mouse("mousePressed", place);
    await this.mouse("mouseReleased", place);
  }

  // the button with these words
  async pressNamed(selector, words) {
    await this.evaluate(`(() => {
      for (const element of document.querySelectorAll(${JSON.stringify(selector)})) element.toggleAttribute("data-named", element.innerText.includes(${JSON.stringify(words)}));
    })()`);
    await this.press(`${selector}[data-named]`);
  }

  async drag(selector, dx) {
    const { x, y } = await this.middle(selector);
    await this.mouse("mousePressed", { x, y });
    for (const part of [0.25, 0.5, 0.75, 1]) await this.mouse("mouseMoved", { x: x + part * dx, y });
    await this.mouse("mouseReleased", { x: x + dx, y });
  }

  async key(key) {
    const code = { key, windowsVirtualKeyCode: KEYS[key], text: key === "Enter" ? "\r" : key === " " ? " " : undefined };
    await this.send("Input.dispatchKeyEvent", { type: "keyDown", ...code });
    await this.send("Input.dispatchKeyEvent", { type: "keyUp", ...code, text: undefined });
  }

  // other words in a field, as typed by hand
  async type(selector, words) {
    await this.press(selector);
    await this.evaluate(`document.querySelector(${JSON.stringify(selector)}).select()`);
    await this.send("Input.insertText", { text: words });
  }

  // the choice of a list, whose drop-down a headless browser does not draw
  async choose(selector, value) {
    await this.evaluate(`(() => {
      const list = document.querySelector(${JSON.stringify(selector)});
      list.focus();
      list.value = ${JSON.stringify(value)};
      list.dispatchEvent(new Event("change", { bubbles: true }));
    })()`);
  }
}
