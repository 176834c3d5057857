"use strict";
// A language server's client, without an editor: it starts the program, frames what it sends, and hands over what it receives (LSP 3.17, base
// protocol). It needs Node alone.

const { spawn } = require("child_process");

// What the editor takes, and which commands of lenses it runs.
const CAPABILITIES = {
  textDocument: { completion: { completionItem: { snippetSupport: true } }, publishDiagnostics: { relatedInformation: true } },
  experimental: { commands: { commands: ["raftbench.accept", "raftbench.openPage"] } },
};
// How long a server may take to end.
const MOST_MS_TO_END = 5_000;

/**
 * A message of JSON-RPC: a request has an id and a method, a notification a method, an answer an id.
 * @typedef {{ id?: number, method?: string, params?: any, result?: any, error?: any }} Message
 */

/**
 * Who is told what the server does: `hear` of each notification, `hasGone` when the server ended without being asked to, and `traced` of each
 * message with an arrow for its direction. `isMissing` says that there is no such program.
 * @typedef {{ hear(method: string, params: any): void, hasGone(why: string, isMissing: boolean): void, traced(arrow: string, message: Message): void }} Listener
 */

/**
 * The message with this body.
 * @param {Message & { jsonrpc: "2.0" }} message
 */
function framed(message) {
  const body = Buffer.from(JSON.stringify(message));
  return Buffer.concat([Buffer.from(`Content-Length: ${body.length}\r\n\r\n`), body]);
}

/**
 * Takes the messages at the front of the bytes: those, and the bytes that are left. Throws an error if no message begins there.
 * @param {Buffer} bytes
 * @returns {[Message[], Buffer]}
 */
function unframed(bytes) {
  const messages = [];
  for (;;) {
    const end = bytes.indexOf("\r\n\r\n");
    if (end < 0) return [messages, bytes];
    const length = /^content-length: *(\d+)/im.exec(bytes.toString("latin1", 0, end));
    if (!length) throw new Error("a message of the server has no length");
    const stop = end + 4 + Number(length[1]);
    if (bytes.length < stop) return [messages, bytes];
    messages.push(JSON.parse(bytes.toString("utf8", end + 4, stop)));
    bytes = bytes.subarray(stop);
  }
}

class Client {
  /**
   * @param {string} program
   * @param {Listener} listener
   */
  constructor(program, listener) {
    this.program = program;
    this.listener = listener;
    this.left = Buffer.alloc(0);
    /** @type {Map<number, (answer: Message) => void>} */
    this.waiting = new Map();
    this.last = 0;
    this.isEnding = false;
    this.server = spawn(program, ["lsp"], { stdio: ["pipe", "pipe", "ignore"] });
    this.server.stdout.on("data", (chunk) => this.take(chunk));
    this.server.stdin.on("error", () => {});
    this.server.on("error", (error) => this.gone(`${program} could not be started: ${error.message}`, true));
    this.server.on("exit", (status, signal) => this.gone(`${program} lsp ended with ${signal ?? `status ${status}`}`, false));
  }

  /**
   * Answers the requests that nobody answers any more, and says why the server is gone, once.
   * @param {string} why
   * @param {boolean} isMissing
   */
  gone(why, isMissing) {
    this.waiting.forEach((answer) => answer({}));
    this.waiting.clear();
    if (this.isEnding) return;
    this.isEnding = true;
    this.listener.hasGone(why, isMissing);
  }

  /** @param {Buffer} chunk */
  take(chunk) {
    try {
      const [messages, left] = unframed(Buffer.concat([this.left, chunk]));
      this.left = left;
      messages.forEach((message) => this.receive(message));
    } catch (error) {
      this.server.kill();
      this.gone(`${this.program} lsp sent no message: ${error instanceof Error ? error.message : error}`, false);
    }
  }

  /** @param {Message} message */
  receive(message) {
    this.listener.traced("<-", message);
    if (message.method !== undefined) this.listener.hear(message.method, message.params);
    else if (message.id !== undefined) {
      this.waiting.get(message.id)?.(message);
      this.waiting.delete(message.id);
    }
  }

  /** @param {Message} message */
  send(message) {
    this.listener.traced("->", message);
    this.server.stdin.write(framed({ jsonrpc: "2.0", ...message }));
  }

  /**
   * @param {string} method
   * @param {any} params
   */
  notify(method, params) {
    this.send({ method, params });
  }

  /**
   * The answer, with its result or its error; with neither if the server is gone.
   * @param {string} method
   * @param {any} [params]
   * @returns {Promise<Message>}
   */
  request(method, params) {
    const id = ++this.last;
    if (this.server.exitCode !== null || this.server.signalCode !== null) return Promise.resolve({});
    /** @type {Promise<Message>} */
    const answer = new Promise((resolve) => this.waiting.set(id, resolve));
    this.send({ id, method, params });
    return answer;
  }

  /**
   * Notifications that are sent before the answer is there wait in the pipe: the server takes messages in order.
   * @param {Record<string, unknown>} [options]
   */
  begin(options = {}) {
    const answer = this.request("initialize", { processId: process.pid, rootUri: null, initializationOptions: options, capabilities: CAPABILITIES });
    this.notify("initialized", {});
    return answer;
  }

  /**
   * Asks the server to end, and kills it if it doesn't. Gives its status.
   * @returns {Promise<number | null>}
   */
  async end() {
    if (this.isEnding) return this.server.exitCode;
    this.isEnding = true;
    const killer = setTimeout(() => this.server.kill(), MOST_MS_TO_END);
    /** @type {Promise<number | null>} */
    const gone = new Promise((resolve) => this.server.on("exit", resolve));
    await this.request("shutdown");
    this.notify("exit", undefined);
    return gone.finally(() => clearTimeout(killer));
  }
}

module.exports = { Client, framed, unframed };
