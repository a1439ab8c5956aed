"use strict";
// A headless Chromium, steered by the DevTools protocol: real events of mouse and keys, and pictures of what is seen. Node 20 and its own
// WebSocket are enough (node --experimental-websocket).

const {spawn} = require("node:child_process");
const {mkdtempSync, rmSync, writeFileSync} = require("node:fs");
const {tmpdir} = require("node:os");
const {join} = require("node:path");

const NAMES = process.env.CHROMIUM || "chromium";
const KEY_CODES = {PageDown: 34, PageUp: 33, End: 35, Home: 36, ArrowUp: 38, ArrowDown: 40, Enter: 13, Escape: 27, Tab: 9};

class Browser {
  static async start() {
    const made = new Browser();
    made.folder = mkdtempSync(join(tmpdir(), "show-"));
    made.process = spawn(NAMES, ["--headless=new", "--no-sandbox", "--disable-gpu", "--hide-scrollbars=false", "--remote-debugging-port=0",
      "--user-data-dir=" + made.folder, "about:blank"], {stdio: ["ignore", "ignore", "pipe"]});
    const address = await new Promise((resolve, reject) => {
      let said = "";
      made.process.stderr.on("data", part => {
        said += part;
        const found = /DevTools listening on (\S+)/.exec(said);
        if (found) resolve(found[1]);
      });
      made.process.on("exit", () => reject(new Error("chromium has ended: " + said)));
      made.process.on("error", reject);
    });
    await made.connect(address);
    return made;
  }

  async connect(address) {
    this.calls = new Map();
    this.number = 0;
    this.errors = [];
    this.socket = new WebSocket(address);
    this.socket.onmessage = event => this.heard(JSON.parse(event.data));
    await new Promise((resolve, reject) => { this.socket.onopen = resolve; this.socket.onerror = reject; });
    const {targetId} = await this.call("Target.createTarget", {url: "about:blank"});
    this.session = (await this.call("Target.attachToTarget", {targetId, flatten: true})).sessionId;
    for (const domain of ["Page", "Runtime", "Log"]) await this.call(domain + ".enable");
  }

  heard(message) {
    if (message.id) {
      const {resolve, reject} = this.calls.get(message.id);
      this.calls.delete(message.id);
      if (message.error) reject(new Error(JSON.stringify(message.error))); else resolve(message.result);
    } else if (message.method === "Runtime.exceptionThrown") {
      this.errors.push(message.params.exceptionDetails.exception?.description || message.params.exceptionDetails.text);
    } else if (message.method === "Log.entryAdded" && message.params.entry.level === "error") this.errors.push(message.params.entry.text);
  }

  call(method, params = {}) {
    const id = ++this.number;
    this.socket.send(JSON.stringify({id, method, params, ...(this.session ? {sessionId: this.session} : {})}));
    return new Promise((resolve, reject) => this.calls.set(id, {resolve, reject}));
  }

  async size(width, height, more = {}) {
    await this.call("Emulation.setDeviceMetricsOverride", {width, height, deviceScaleFactor: 1, mobile: false, ...more});
  }

  async dark(on) {
    await this.call("Emulation.setEmulatedMedia", {features: [{name: "prefers-color-scheme", value: on ? "dark" : "light"}]});
  }

  // Opens a file, and waits until its scripts say that they are ready.
  async open(path, hash = "") {
    await this.call("Page.navigate", {url: "about:blank"});
    await this.call("Page.navigate", {url: "file://" + path + hash});
    await this.until("document.body && document.body.dataset.ready === 'yes'");
  }

  async value(expression) {
    const {result, exceptionDetails} = await this.call("Runtime.evaluate", {expression, returnByValue: true, awaitPromise: true});
    if (exceptionDetails) throw new Error(exceptionDetails.exception?.description || exceptionDetails.text);
    return result.value;
  }

  async until(expression, most = 60000) {
    const end = Date.now() + most;
    while (!await this.value(expression).catch(() => false)) {
      if (Date.now() > end) throw new Error("it never came: " + expression + "; " + this.errors.join("; "));
      await new Promise(resolve => setTimeout(resolve, 20));
    }
  }

  async mouse(type, x, y, more = {}) {
    await this.call("Input.dispatchMouseEvent", {type, x, y, button: type === "mouseMoved" && !more.buttons ? "none" : "left", clickCount: type === "mouseMoved" ? 0 : 1, ...more});
  }

  // A press and a let go, between which the mouse may move.
  async click(x, y, byX = 0, byY = 0) {
    await this.mouse("mouseMoved", x, y);
    await this.mouse("mousePressed", x, y, {buttons: 1});
    if (byX || byY) await this.mouse("mouseMoved", x + byX, y + byY, {buttons: 1});
    await this.mouse("mouseReleased", x + byX, y + byY);
  }

  async key(key, more = {}) {
    const text = key.length === 1 ? {text: key} : {};
    const code = KEY_CODES[key] || key.toUpperCase().charCodeAt(0);
    await this.call("Input.dispatchKeyEvent", {type: "keyDown", key, windowsVirtualKeyCode: code, ...text, ...more});
    await this.call("Input.dispatchKeyEvent", {type: "keyUp", key, windowsVirtualKeyCode: code, ...more});
  }

  async type(text) {
    for (const character of text) await this.key(character);
  }

  async picture(path) {
    const {data} = await this.call("Page.captureScreenshot", {format: "png"});
    writeFileSync(path, Buffer.from(data, "base64"));
  }

  stop() {
    this.socket.close();
    this.process.removeAllListeners("exit");
    this.process.on("exit", () => setTimeout(() => {
      try { rmSync(this.folder, {recursive: true, force: true, maxRetries: 5}); } catch { /* a child of it still writes */ }
    }, 300));
    this.process.kill();
  }
}

module.exports = {Browser};
