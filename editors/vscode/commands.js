"use strict";
// The commands: check the scripts of a folder, open the page of a script, accept an output.

const { spawn } = require("child_process");
const fs = require("fs");
const os = require("os");
const path = require("path");
const vscode = require("vscode");
const { changesOf } = require("./convert.js");

function program() {
  return vscode.workspace.getConfiguration("raftbench").get("program", "raftbench");
}

/** The folder of the document in front, or the first one. */
function chosenFolder() {
  const uri = vscode.window.activeTextEditor?.document.uri;
  return (uri && vscode.workspace.getWorkspaceFolder(uri)) ?? vscode.workspace.workspaceFolders?.[0];
}

/** Checks all scripts of a folder, as a task whose mismatches are in the list of problems. */
async function checkFolder() {
  const folder = chosenFolder();
  if (!folder) {
    vscode.window.showWarningMessage("No folder is open");
    return;
  }
  await vscode.workspace.saveAll(false);
  const execution = new vscode.ProcessExecution(program(), ["check", "--color", "never", "."], { cwd: folder.uri.fsPath });
  await vscode.tasks.executeTask(new vscode.Task({ type: "process" }, folder, "check", "raftbench", execution, "$raftbench"));
}

/**
 * What the program writes to its standard output, in this folder. Fails with what it says if its status is not 0 or 1.
 * @param {string[]} words
 * @param {string} folder
 * @returns {Promise<Buffer>}
 */
function written(words, folder) {
  return new Promise((resolve, reject) => {
    const [output, errors] = [/** @type {Buffer[]} */ ([]), /** @type {Buffer[]} */ ([])];
    const child = spawn(program(), words, { cwd: folder, env: { ...process.env, RAFTBENCH_EXPLAIN: "1" }, stdio: ["ignore", "pipe", "pipe"] });
    child.stdout.on("data", (chunk) => output.push(chunk));
    child.stderr.on("data", (chunk) => errors.push(chunk));
    child.on("error", reject);
    child.on("close", (status) => {
      if (status === 0 || status === 1) resolve(Buffer.concat(output));
      else reject(new Error(Buffer.concat(errors).toString().trim() || `${program()} ended with status ${status}`));
    });
  });
}

/**
 * Makes the changes that accept an output. A lens calls this.
 * @param {import("./convert.js").ProtocolChanges} changes
 */
async function accept(changes) {
  await vscode.workspace.applyEdit(changesOf(changes));
}

/**
 * The open document with this address; that in front where none is told.
 * @param {unknown} [uri]
 */
function documentOf(uri) {
  if (uri === undefined) return vscode.window.activeTextEditor?.document;
  return vscode.workspace.textDocuments.find((it) => it.uri.toString() === String(uri));
}

/**
 * Writes a page that leads to the directive on a line of another: what opens a file drops the place from its address.
 * @param {string} page
 * @param {number} line
 */
function leadTo(page, line) {
  const file = `${page}.L${line}.html`;
  fs.writeFileSync(file, `<meta http-equiv="refresh" content="0; url=${encodeURIComponent(path.basename(page))}#L${line}">`);
  return file;
}

class Pages {
  /** @type {string | undefined} The folder of the pages, once there is one. */
  folder;

  /**
   * Opens the page of a script in the browser: of that in front where no address is told, and at the directive on a line where that is a number. The
   * page shows what is in the editor, saved or not.
   * @param {unknown} [uri]
   * @param {unknown} [line]
   */
  async open(uri, line) {
    const document = documentOf(uri);
    if (!document || document.languageId !== "raftbench") {
      vscode.window.showWarningMessage("The document in front is not a script");
      return;
    }
    try {
      this.folder ??= fs.mkdtempSync(path.join(os.tmpdir(), "raftbench-"));
      const name = path.basename(document.uri.path);
      fs.writeFileSync(path.join(this.folder, name), document.getText());
      const page = await written(["page", "--", name], this.folder);
      const file = path.join(this.folder, `${name}.html`);
      fs.writeFileSync(file, page);
      await vscode.env.openExternal(vscode.Uri.file(typeof line === "number" ? leadTo(file, line) : file));
    } catch (error) {
      vscode.window.showErrorMessage(`No page: ${error instanceof Error ? error.message : error}`);
    }
  }

  dispose() {
    if (this.folder) fs.rmSync(this.folder, { recursive: true, force: true });
  }
}

module.exports = { accept, checkFolder, Pages };
