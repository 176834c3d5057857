"use strict";
// Opens a script to play with: `raftbench-live` serves it, and the editor's own simple browser shows it beside the script.

const { spawn } = require("child_process");
const path = require("path");
const vscode = require("vscode");

class Plays {
  /** @type {Map<string, { child: { kill(): boolean }, address: Promise<string> }>} by script, what serves it */
  served = new Map();

  /** The command beside the program that the settings name. */
  command() {
    const program = vscode.workspace.getConfiguration("raftbench").get("program", "raftbench");
    return path.join(path.dirname(program), "raftbench-live");
  }

  /** Plays with the script in front. It has to be saved, since the page plays with the file. */
  async open() {
    const document = vscode.window.activeTextEditor?.document;
    if (!document || document.languageId !== "raftbench" || document.isUntitled) {
      vscode.window.showWarningMessage("The document in front is not a script that is saved");
      return;
    }
    try {
      await document.save();
      const address = await this.addressOf(document.uri.fsPath);
      await vscode.commands.executeCommand("simpleBrowser.api.open", vscode.Uri.parse(address), { viewColumn: vscode.ViewColumn.Beside });
    } catch (error) {
      vscode.window.showErrorMessage(`No page to play with: ${error instanceof Error ? error.message : error}`);
    }
  }

  /**
   * Where a script is served, by one server a script.
   * @param {string} file
   */
  addressOf(file) {
    const known = this.served.get(file);
    if (known) return known.address;
    const child = spawn(this.command(), ["--no-browser", "--in-editor", "vscode", "--", file], { stdio: ["ignore", "pipe", "pipe"] });
    /** @type {Promise<string>} */
    const address = new Promise((resolve, reject) => {
      let errors = "";
      child.stdout.on("data", (line) => resolve(String(line).trim()));
      child.stderr.on("data", (text) => (errors += text));
      child.on("error", reject);
      child.on("close", (status) => {
        this.served.delete(file);
        reject(new Error(errors.trim() || `raftbench-live ended with status ${status}`));
      });
    });
    this.served.set(file, { child, address });
    return address;
  }

  dispose() {
    for (const { child } of this.served.values()) child.kill();
  }
}

module.exports = { Plays };
