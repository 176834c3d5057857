// The conversation with the server: the key of the address is exchanged for a token at once, and each request has it.

const KEPT = "raftbench-live";

/** What the server refuses: a sentence, and whether it asks if that was meant. */
export class Refusal extends Error {
  /**
   * @param {string} text
   * @param {boolean} asks
   */
  constructor(text, asks) {
    super(text);
    this.asks = asks;
  }
}

/** That the server doesn't answer any more. */
export class Gone extends Error {}

export class Talk {
  constructor() {
    this.token = "";
  }

  /** Takes the key out of the address, and enters by it; a page that was loaded again has its token still. */
  async enter() {
    const key = /^#key=([\w-]+)$/.exec(location.hash)?.[1];
    if (key) {
      history.replaceState(null, "", location.pathname);
      const { token } = await this.post("enter", { key });
      sessionStorage.setItem(KEPT, token);
    }
    this.token = sessionStorage.getItem(KEPT) ?? "";
  }

  /**
   * @param {string} path
   * @param {object} asked
   * @returns {Promise<any>}
   */
  async post(path, asked) {
    const headers = { "Content-Type": "application/json", Authorization: `Bearer ${this.token}` };
    let answer;
    try {
      answer = await fetch(path, { method: "POST", headers, body: JSON.stringify(asked) });
    } catch {
      throw new Gone();
    }
    const text = await answer.text();
    if (answer.status === 409) {
      const { fault, asks } = JSON.parse(text);
      throw new Refusal(fault, asks);
    }
    if (!answer.ok) {
      throw new Refusal(text, false);
    }
    return JSON.parse(text);
  }

  /**
   * Hears of changes, as long as the server is there.
   * @param {(version: number) => void} changed
   */
  async hear(changed) {
    try {
      const answer = await fetch("events", { headers: { Authorization: `Bearer ${this.token}` } });
      const reader = answer.body?.getReader();
      const decoder = new TextDecoder();
      let rest = "";
      while (reader) {
        const { done, value } = await reader.read();
        if (done) {
          break;
        }
        const lines = (rest + decoder.decode(value, { stream: true })).split("\n");
        rest = lines.pop() ?? "";
        lines.filter((line) => line.startsWith("data: version ")).forEach((line) => changed(Number(line.slice(14))));
      }
    } catch {
      // The connection has ended, which is told below.
    }
    throw new Gone();
  }
}
