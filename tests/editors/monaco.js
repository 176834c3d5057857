"use strict";
// Runs the extension of editors/vscode over the server, with Monaco, which is the editor part of Visual Studio Code, in Chromium without a screen. An
// API that stands in takes to Monaco what the extension says, and to the extension what is asked in Monaco. A line is changed, and what is shown of
// it is looked at; it is accepted with keys and the mouse. Pictures are written to a folder, if one is given.
//
//     node tests/lsp/monaco.js PROGRAM MONACO [PICTURES]        MONACO is the folder that has vs/

const assert = require("assert");
const { spawn } = require("child_process");
const fs = require("fs");
const os = require("os");
const path = require("path");
const standin = require("./standin.js");

const [program, monaco, pictures] = process.argv.slice(2);
const top = path.join(__dirname, "../..");
const script = fs.readFileSync(path.join(top, "examples/tour/01-election.txt"), "utf8");
const configuration = JSON.parse(fs.readFileSync(path.join(top, "editors/vscode/language-configuration.json"), "utf8"));
const { api, shown, providers, warnings, documents, tell } = standin.editor({ program, "lsp.trace": "off" });
const extension = standin.extension(api);
const text = { uri: "file:///script.txt", languageId: "plaintext", version: 1, getText: () => text.held, held: script };

// ---- Chromium

// A browser that is asked over two pipes, by its DevTools protocol: behind each message stands a zero byte.
class Browser {
  constructor(folder, hear) {
    const words = ["--headless=new", "--no-sandbox", "--remote-debugging-pipe", "--allow-file-access-from-files", "--window-size=1100,760", `--user-data-dir=${folder}`];
    this.process = spawn("chromium", words, { stdio: ["ignore", "ignore", "ignore", "pipe", "pipe"] });
    this.hear = hear;
    this.left = Buffer.alloc(0);
    this.waiting = [];
    this.process.stdio[4].on("data", (chunk) => this.take(chunk));
  }

  take(chunk) {
    this.left = Buffer.concat([this.left, chunk]);
    for (let end; (end = this.left.indexOf(0)) >= 0; this.left = this.left.subarray(end + 1)) {
      const { id, result, error, method, params } = JSON.parse(this.left.toString("utf8", 0, end));
      if (method === "Runtime.bindingCalled") this.hear(JSON.parse(params.payload));
      if (error) this.waiting[id].reject(new Error(error.message));
      else if (id !== undefined) this.waiting[id].resolve(result);
    }
  }

  send(method, params = {}) {
    this.process.stdio[3].write(JSON.stringify({ id: this.waiting.length, method, params, sessionId: this.session }) + "\0");
    return new Promise((resolve, reject) => this.waiting.push({ resolve, reject }));
  }

  async open(file) {
    const { targetId } = await this.send("Target.createTarget", { url: `file://${file}` });
    this.session = (await this.send("Target.attachToTarget", { targetId, flatten: true })).sessionId;
    await this.send("Emulation.setFocusEmulationEnabled", { enabled: true });
    await this.send("Runtime.enable");
    await this.send("Runtime.addBinding", { name: "toExtension" });
    await standin.until(() => this.value`"begin" in window`, () => "the page");
  }

  async close() {
    const gone = new Promise((go) => this.process.on("exit", go));
    this.send("Browser.close");
    await gone;
  }

  // What an expression is in the page; values stand in it as JSON.
  async value(strings, ...values) {
    const expression = String.raw({ raw: strings }, ...values.map((it) => JSON.stringify(it)));
    const { result, exceptionDetails } = await this.send("Runtime.evaluate", { expression, awaitPromise: true, returnByValue: true });
    if (exceptionDetails) throw new Error(exceptionDetails.exception?.description ?? exceptionDetails.text);
    return result.value;
  }

  async press(key, code, modifiers = 0) {
    const it = { key, code: key, windowsVirtualKeyCode: code, modifiers };
    await this.send("Input.dispatchKeyEvent", { type: "rawKeyDown", ...it });
    await this.send("Input.dispatchKeyEvent", { type: "keyUp", ...it });
  }

  async type(letters) {
    for (const text of letters) await this.send("Input.dispatchKeyEvent", { type: "char", text });
  }

  async point(line, character) {
    await this.send("Input.dispatchMouseEvent", { type: "mouseMoved", ...(await this.value`pixelsOf(${line}, ${character})`) });
  }

  // Waits until an element shows a text. Monaco writes blanks that don't break.
  async sees(selector, wanted) {
    let last;
    const texts = async () => (last = await this.value`[...document.querySelectorAll(${selector})].map((it) => it.innerText)`);
    await standin.until(async () => (await texts()).some((it) => it.replaceAll("\u00a0", " ").includes(wanted)), () => `${wanted} in ${selector}, which has ${last}`);
  }

  async picture(name) {
    if (!pictures) return;
    // What comes up comes slowly.
    await new Promise((go) => setTimeout(go, 500));
    const { data } = await this.send("Page.captureScreenshot");
    fs.writeFileSync(path.join(pictures, `${name}.png`), Buffer.from(data, "base64"));
  }
}

// ---- what Monaco asks of the extension

const plain = ({ range, newText }) => ({ range: range.numbers, newText });
// The editor's names of the kinds of words that the server tells of, which have other numbers in Monaco.
const KINDS = { 2: "Function", 9: "Property", 11: "Value" };
const asked = {
  change(held, changes) {
    text.held = held;
    text.version += 1;
    tell("change", { document: text, contentChanges: changes.map(([range, newText]) => ({ range: new api.Range(...range), text: newText })) });
  },
  async hover(...place) {
    const hover = await providers.provideHover(text, new api.Position(...place));
    return hover && { text: hover.contents.text, range: hover.range.numbers };
  },
  async actions(...range) {
    const actions = await providers.provideCodeActions(text, new api.Range(...range));
    return actions.map(({ title, kind, edit }) => ({ title, kind: kind.value, edits: edit.edits.map(([, it]) => plain(it)) }));
  },
  async words(...place) {
    const words = await providers.provideCompletionItems(text, new api.Position(...place));
    return words.map((it) => ({ ...it, kind: KINDS[it.kind], range: it.range.numbers }));
  },
  async symbols() {
    const symbols = await providers.provideDocumentSymbols(text);
    return symbols.map((it) => ({ ...it, range: it.range.numbers, selectionRange: it.selectionRange.numbers }));
  },
  folds: () => providers.provideFoldingRanges(text),
  async formatted() {
    return (await providers.provideDocumentFormattingEdits(text, { tabSize: 4, insertSpaces: true })).map(plain);
  },
};

// ---- what a user does

const HEAD = script.split("\n").findIndex((line) => line.startsWith("tick-election 1"));
const CONTROL = 2;

async function isMarked(browser, count) {
  await standin.until(async () => (await browser.value`monaco.editor.getModelMarkers({}).length`) === count, () => `${count} marks`);
  await standin.until(async () => (await browser.value`document.querySelectorAll(".squiggly-error").length`) === count, () => `${count} lines below words`);
}

async function mismatchIsMarked(browser) {
  await isMarked(browser, 0);
  await browser.value`shown.setPosition({ lineNumber: ${HEAD + 3}, column: 1000 })`;
  await browser.type("2");
  await isMarked(browser, 1);
  await browser.value`shown.setPosition({ lineNumber: ${HEAD + 1}, column: 1 })`;
  await browser.picture("marked");
}

async function hoverShowsWhatCame(browser) {
  await browser.point(HEAD, 5);
  await browser.sees(".monaco-hover", "- INFO 1 became candidate at term 12");
  await browser.sees(".monaco-hover", "1 candidate term=1");
  await browser.picture("hover");
  await browser.point(0, 0);
}

async function lightBulbAccepts(browser) {
  await standin.until(() => browser.value`!!document.querySelector(".codicon-light-bulb, .codicon-lightbulb-autofix")`, () => "a light bulb");
  await browser.press(".", 190, CONTROL);
  await browser.sees(".action-widget", "Accept the actual output");
  await browser.picture("actions");
  await browser.press("Enter", 13);
  await isMarked(browser, 0);
  assert.strictEqual(text.held, script);
}

async function act(browser, name) {
  await browser.value`shown.getAction(${"editor." + name}).run()`;
}

async function blocksAreFolded(browser) {
  const rules = () => browser.value`[...document.querySelectorAll(".view-line")].filter((it) => it.innerText === "----").length`;
  assert((await rules()) > 0);
  await act(browser, "foldAll");
  await standin.until(async () => (await rules()) === 0, () => "folds");
  await browser.picture("folds");
  await act(browser, "unfoldAll");
}

async function outlineIsShown(browser) {
  await act(browser, "action.quickOutline");
  await browser.sees(".quick-input-list", "process-ready 2 3");
  await browser.picture("outline");
  await browser.press("Escape", 27);
}

// A line `----` has no blanks around it, and no empty line is put at the end.
async function textIsFormatted(browser) {
  const line = script.split("\n").indexOf("----") + 1;
  await browser.value`shown.setPosition({ lineNumber: ${line}, column: 1 })`;
  await browser.type(" ");
  await standin.until(() => text.held !== script, () => "a blank");
  await act(browser, "action.formatDocument");
  await standin.until(() => text.held === script, () => "the canonical text");
}

async function wordsAreOffered(browser) {
  await browser.value`shown.setPosition(shown.getModel().getFullModelRange().getEndPosition())`;
  await browser.press("Enter", 13);
  await browser.type("del");
  await browser.sees(".suggest-widget .monaco-list-row", "deliver-msgs");
  await browser.press("Enter", 13);
  await browser.type(" 2 type=");
  await browser.sees(".suggest-widget .monaco-list-row", "MsgAppResp");
  await browser.picture("words");
  await browser.press("Enter", 13);
  await standin.until(() => text.held === script + "\ndeliver-msgs 2 type=MsgApp\n----\n", () => "the words");
}

async function look(browser) {
  extension.activate({ subscriptions: [] });
  await browser.value`begin(${path.join(monaco, "vs")}, ${script}, ${providers.characters}, ${configuration})`;
  documents.push(text);
  tell("open", text);
  await standin.until(() => shown.has(text.uri), () => "diagnostics");
  for (const step of [mismatchIsMarked, hoverShowsWhatCame, lightBulbAccepts, blocksAreFolded, outlineIsShown, textIsFormatted, wordsAreOffered]) await step(browser);
  assert.strictEqual(await extension.deactivate(), 0);
  assert.deepStrictEqual(warnings, []);
}

// What is said of another place, with the numbers of its range.
function numbered({ location, message }) {
  return { message, range: location.range.numbers };
}

async function main() {
  const room = fs.mkdtempSync(path.join(os.tmpdir(), "monaco-"));
  const browser = new Browser(room, async ({ id, method, values }) => browser.value`answer(${id}, ${(await asked[method](...values)) ?? null})`);
  shown.set = (uri, list) => {
    Map.prototype.set.call(shown, uri, list);
    browser.value`mark(${list.map((it) => ({ ...it, range: it.range.numbers, relatedInformation: it.relatedInformation?.map(numbered) }))})`;
  };
  const html = path.join(room, "page.html");
  const scripts = [path.join(monaco, "vs/loader.js"), path.join(__dirname, "monaco-page.js")].map((it) => `<script src="file://${it}"></script>`);
  fs.writeFileSync(html, `<!doctype html><meta charset="utf-8"><style>html, body, #editor { height: 100%; margin: 0 }</style><div id="editor"></div>${scripts.join("")}`);
  try {
    await browser.open(html);
    await look(browser);
  } finally {
    await browser.close();
    fs.rmSync(room, { recursive: true });
  }
}

// Where nothing is left to wait for before the end has come, that is a failure too.
process.exitCode = 1;
main().then(
  () => (process.exitCode = 0),
  (error) => {
    console.error(error.message);
    process.exit(1);
  },
);
