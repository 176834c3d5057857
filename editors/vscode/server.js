"use strict";
// Keeps `raftbench lsp` running for the scripts that are open, and shows the diagnostics that it sends. If the server ends, it is started again with
// all open scripts, but not after it ended five times in three minutes. Then the next script that is opened, or a command, starts it.

const vscode = require("vscode");
const { Client } = require("./client.js");
const { diagnosticOf } = require("./convert.js");

const MOST_ENDS = 5;
const WITHIN_MS = 180_000;
const OPEN_SETTINGS = "Open the setting";
const START = "Start it again";

class Server {
  /**
   * @param {vscode.DiagnosticCollection} shown
   * @param {vscode.OutputChannel} output
   */
  constructor(shown, output) {
    this.shown = shown;
    this.output = output;
    /** @type {Client | undefined} */
    this.client = undefined;
    /** @type {Set<string>} The open documents that the server knows. */
    this.served = new Set();
    /** @type {number[]} When the server ended. */
    this.ends = [];
  }

  /** Starts the server and opens all open scripts in it. */
  start() {
    const settings = vscode.workspace.getConfiguration("raftbench");
    this.client = new Client(settings.get("program", "raftbench"), {
      hear: (method, params) => this.hear(method, params),
      hasGone: (why, isMissing) => this.hasGone(why, isMissing),
      traced: (arrow, message) => this.trace(arrow, message),
    });
    this.client.begin({ softenLaterMismatches: settings.get("lsp.softenLaterMismatches"), inlayHints: settings.get("lsp.inlayHints") });
    vscode.workspace.textDocuments.forEach((document) => this.tell(document));
  }

  /** Ends the server, and gives its status. */
  async stop() {
    const client = this.client;
    this.forget();
    return client?.end();
  }

  /** Ends the server and, if a script is open, starts it again, however often it ended before. */
  async restart() {
    this.ends = [];
    await this.stop();
    const isNeeded = vscode.workspace.textDocuments.some(({ languageId }) => languageId === "raftbench");
    if (isNeeded && !this.client) this.start();
  }

  forget() {
    this.client = undefined;
    this.served.clear();
    this.shown.clear();
  }

  /**
   * @param {string} method
   * @param {any} params
   */
  hear(method, params) {
    if (method === "textDocument/publishDiagnostics") {
      this.shown.set(vscode.Uri.parse(params.uri), params.diagnostics.map(diagnosticOf));
    }
  }

  /**
   * @param {string} why
   * @param {boolean} isMissing
   */
  hasGone(why, isMissing) {
    const now = Date.now();
    this.forget();
    this.ends = [...this.ends.filter((end) => now - end < WITHIN_MS), now];
    this.output.appendLine(why);
    if (isMissing) this.offer(why, OPEN_SETTINGS);
    else if (this.ends.length >= MOST_ENDS) this.offer(`${why}, the ${MOST_ENDS}th time in three minutes. It is not started again`, START);
    else this.start();
  }

  /**
   * Warns, and does what the warning's button says if it is pressed.
   * @param {string} why
   * @param {string} button
   */
  async offer(why, button) {
    const chosen = await vscode.window.showWarningMessage(why, button);
    if (chosen === OPEN_SETTINGS) await vscode.commands.executeCommand("workbench.action.openSettings", "raftbench.program");
    if (chosen === START) await this.restart();
  }

  /**
   * Writes a message into the output channel, as the setting `lsp.trace` has it: nothing, the method, or the whole message.
   * @param {string} arrow
   * @param {import("./client.js").Message} message
   */
  trace(arrow, message) {
    const trace = vscode.workspace.getConfiguration("raftbench").get("lsp.trace");
    if (trace === "messages") this.output.appendLine(`${arrow} ${message.method ?? "answer"} ${message.id ?? ""}`.trimEnd());
    if (trace === "verbose") this.output.appendLine(`${arrow} ${JSON.stringify(message)}`);
  }

  /**
   * The result of a request about a document, or undefined if there is none.
   * @param {string} method
   * @param {vscode.TextDocument} document
   * @param {object} params
   */
  async ask(method, document, params) {
    const answer = await this.client?.request(`textDocument/${method}`, { textDocument: { uri: document.uri.toString() }, ...params });
    return answer?.result;
  }

  /** @param {vscode.TextDocument} document */
  tell(document) {
    const { languageId, version } = document;
    const uri = document.uri.toString();
    if (languageId !== "raftbench" || this.served.has(uri)) return;
    this.served.add(uri);
    this.client?.notify("textDocument/didOpen", { textDocument: { uri, languageId, version, text: document.getText() } });
  }

  /** @param {vscode.TextDocument} document */
  open(document) {
    if (document.languageId !== "raftbench") return;
    if (this.client) this.tell(document);
    else this.start();
  }

  /** @param {vscode.TextDocumentChangeEvent} event */
  change({ document, contentChanges }) {
    const { uri, version } = document;
    if (!this.served.has(uri.toString()) || contentChanges.length === 0) return;
    const changes = contentChanges.map(({ range, text }) => ({ range: { start: range.start, end: range.end }, text }));
    this.client?.notify("textDocument/didChange", { textDocument: { uri: uri.toString(), version }, contentChanges: changes });
  }

  /** @param {vscode.TextDocument} document */
  close(document) {
    const uri = document.uri.toString();
    if (this.served.delete(uri)) this.client?.notify("textDocument/didClose", { textDocument: { uri } });
  }
}

module.exports = { Server, MOST_ENDS };
