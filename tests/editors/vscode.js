"use strict";
// Runs the extension of editors/vscode with an editor that only pretends: a document is opened, edited, and closed, and what is shown of it is looked at;
// the server ends and is started again; commands are called.
//
//     node tests/editors/vscode.js PROGRAM

const assert = require("assert");
const fs = require("fs");
const os = require("os");
const path = require("path");
const standin = require("./standin.js");
const { Client } = require("../../editors/vscode/client.js");

const program = process.argv[2];
const settings = { program, "lsp.trace": "off" };
const { api, shown, providers, warnings, lines, documents, tell, user } = standin.editor(settings);
const extension = standin.extension(api);
const room = fs.mkdtempSync(path.join(os.tmpdir(), "vscode-"));
const SCRIPT = "log-level debug\n----\nno\n";
const place = new api.Position(0, 0);

async function marks(document) {
  await standin.until(() => shown.get(document.uri)?.length === 1, () => JSON.stringify([...shown]));
  const [told] = shown.get(document.uri);
  assert.deepStrictEqual([told.message, told.severity, told.code, told.source, told.range.numbers], ["- no\n+ ok", 0, "mismatch", "raftbench", [2, 0, 3, 0]]);
  assert.deepStrictEqual(told.relatedInformation.map((it) => [it.message, it.location.uri, it.location.range.numbers]), [["ok", document.uri, [2, 0, 3, 0]]]);
}

async function showsWhatCame(document) {
  const hover = await providers.provideHover(document, place);
  assert.deepStrictEqual([hover.contents.text, hover.contents.language], ["ok\n\nraft-state\n  ok\non their way\n  no messages\n", "plaintext"]);
  assert.deepStrictEqual(hover.range.numbers, [0, 0, 3, 0]);
  assert.strictEqual(await providers.provideHover(document, new api.Position(3, 0)), undefined);
}

async function accepts(document) {
  const actions = await providers.provideCodeActions(document, new api.Range(0, 0, 0, 0));
  assert.deepStrictEqual(actions.map(({ title, kind }) => [title, kind.value]), [["Accept the actual output", "quickfix"], ["Accept all actual outputs", "source"]]);
  for (const { edit } of actions) {
    assert.deepStrictEqual(edit.edits.map(([uri, { range, newText }]) => [uri, range.numbers, newText]), [[document.uri, [2, 0, 3, 0], "ok\n"]]);
  }
}

// A lens accepts the output, or opens the page at its directive.
async function acceptsByALens(document) {
  const lenses = await providers.provideCodeLenses(document);
  assert.deepStrictEqual(lenses.map(({ range, command }) => [range.numbers, command.title]), [[[0, 0, 0, 0], "Accept the actual output"], [[0, 0, 0, 0], "Open the page here"]]);
  const [accept, page] = lenses.map(({ command }) => command);
  await user.commands.get(accept.command)(...accept.arguments);
  const [[, { edits }]] = user.done.splice(0);
  assert.deepStrictEqual(edits.map(([uri, { range, newText }]) => [uri, range.numbers, newText]), [[document.uri, [2, 0, 3, 0], "ok\n"]]);
  documents.unshift({ uri: api.Uri.file("/script.txt"), languageId: "raftbench", getText: () => SCRIPT });
  await user.commands.get(page.command)(...page.arguments);
  documents.shift();
  const [[does, file]] = user.done.splice(0);
  assert.deepStrictEqual([does, fs.readFileSync(file, "utf8")], ["open", '<meta http-equiv="refresh" content="0; url=script.txt.html#L1">']);
  assert(fs.readFileSync(path.join(path.dirname(file), "script.txt.html"), "utf8").includes("log-level debug"));
}

// Who leads is told at a line `----`, and what is selected grows.
async function hintsAndSelects() {
  const small = opened("small.txt", "add-nodes 1 voters=(1) index=10\n----\n\ncampaign 1\n----\n\nstabilize\n----\n", "raftbench");
  const hints = await providers.provideInlayHints(small, new api.Range(0, 0, 8, 0));
  assert.deepStrictEqual(hints.map(({ position, label, paddingLeft }) => [position.line, position.character, label, paddingLeft]), [[1, 4, "no leader, term 0", true], [4, 4, "no leader, term 1", true], [7, 4, "leader 1, term 1", true]]);
  const [word, none] = await providers.provideSelectionRanges(small, [new api.Position(0, 20), new api.Position(2, 0)]);
  const numbers = (it) => (it ? [it.range.numbers, ...numbers(it.parent)] : []);
  assert.deepStrictEqual(numbers(word), [[0, 20, 0, 21], [0, 12, 0, 22], [0, 0, 0, 31], [0, 0, 1, 0], [0, 0, 2, 0], [0, 0, 8, 0]]);
  assert.deepStrictEqual(numbers(none), [[0, 0, 8, 0]]);
  closed(small);
}

async function writesDownTheConversation(document) {
  assert.deepStrictEqual(lines, []);
  settings["lsp.trace"] = "messages";
  await providers.provideDocumentSymbols(document);
  assert.deepStrictEqual(lines.map((line) => line.replace(/\d+$/, "N")), ["-> textDocument/documentSymbol N", "<- answer N"]);
  settings["lsp.trace"] = "off";
}

async function offersWhatTheTextHas(document) {
  const symbols = await providers.provideDocumentSymbols(document);
  assert.deepStrictEqual(symbols.map((it) => [it.name, it.kind, it.range.numbers, it.selectionRange.numbers]), [["log-level debug", 23, [0, 0, 3, 0], [0, 0, 1, 0]]]);
  const folds = await providers.provideFoldingRanges(document);
  assert.deepStrictEqual(folds.map(({ start, end }) => [start, end]), [[0, 2]]);
  const words = await providers.provideCompletionItems(document, new api.Position(0, 5));
  assert.deepStrictEqual(words.map((it) => [it.label, it.kind, it.insertText, it.range.numbers]), [["log-level", 2, "log-level", [0, 0, 0, 5]]]);
  assert(words[0].documentation.length > 0);
  const begun = opened("begun.txt", "log-l", "raftbench");
  const [word] = await providers.provideCompletionItems(begun, new api.Position(0, 5));
  assert.deepStrictEqual([word.label, word.insertText.value], ["log-level", "log-level$1\n----\n$0"]);
  closed(begun);
}

// A line `----` has no blanks around it, and no empty line is put at the end.
async function formats() {
  const wide = opened("wide.txt", "log-level debug\n ---- \nok\n", "raftbench");
  const edits = await providers.provideDocumentFormattingEdits(wide, { tabSize: 4, insertSpaces: true });
  assert.deepStrictEqual(edits.map(({ range, newText }) => [range.numbers, newText]), [[[1, 0, 1, 6], "----"]]);
  const some = await providers.provideDocumentRangeFormattingEdits(wide, new api.Range(0, 0, 0, 1), { tabSize: 4, insertSpaces: true });
  assert.deepStrictEqual(some, edits);
  closed(wide);
}

// A message is found on its line, from where it arrives to where it is sent.
async function findsMessages() {
  const mail = opened("mail.txt", "process-ready 1\n----\n1 ready\n  send 1->2 MsgVote term=1\n\ndeliver-msgs 2\n----\ndeliver 1->2 MsgVote term=1\n", "raftbench");
  const place = new api.Position(7, 2);
  const sent = await providers.provideDefinition(mail, place);
  assert.deepStrictEqual([sent.uri, sent.range.numbers], [mail.uri, [3, 0, 4, 0]]);
  const all = await providers.provideReferences(mail, place, { includeDeclaration: true });
  assert.deepStrictEqual(all.map(({ range }) => range.numbers), [[3, 0, 4, 0], [7, 0, 8, 0]]);
  const marked = await providers.provideDocumentHighlights(mail, place);
  assert.deepStrictEqual(marked.map(({ range, kind }) => [range.numbers, kind]), [[[3, 0, 4, 0], 2], [[7, 0, 8, 0], 1]]);
  assert.strictEqual(await providers.provideDefinition(mail, new api.Position(0, 0)), undefined);
  closed(mail);
}

// The extension names the characters where words are asked for before a server runs: they are those that the server names.
async function asksWhereTheServerSays() {
  const server = new Client(program, { hear() {}, hasGone: assert.fail, traced() {} });
  const { result } = await server.begin();
  assert.deepStrictEqual(providers.characters, result.capabilities.completionProvider.triggerCharacters);
  assert.strictEqual(await server.end(), 0);
}

async function followsAChange(document) {
  document.version = 2;
  tell("change", { document, contentChanges: [{ range: new api.Range(2, 0, 2, 2), rangeLength: 2, text: "ok" }] });
  await standin.until(() => shown.get(document.uri)?.length === 0, () => JSON.stringify([...shown]));
}

function opened(name, text = SCRIPT, languageId = "plaintext") {
  const document = { uri: `file:///${name}`, languageId, version: 1, getText: () => text };
  documents.push(document);
  tell("open", document);
  return document;
}

function closed(document) {
  documents.splice(documents.indexOf(document), 1);
  tell("close", document);
}

// A text is taken for a script when it is opened, when a line of it is complete, and when it is saved. Other languages stay.
function takesScripts() {
  const [typed, saved, other] = [opened("typed.txt", "text"), opened("saved.txt", "text"), opened("other.md", SCRIPT, "markdown")];
  typed.getText = saved.getText = other.getText = () => SCRIPT;
  const typing = (document, text) => tell("change", { document, contentChanges: [{ range: new api.Range(0, 0, 0, 0), text }] });
  typing(typed, "-");
  assert.deepStrictEqual([typed, saved].map((it) => it.languageId), ["plaintext", "plaintext"]);
  typing(typed, "\n");
  typing(other, "\n");
  tell("save", saved);
  assert.deepStrictEqual([typed, saved, other].map((it) => it.languageId), ["raftbench", "raftbench", "markdown"]);
  [typed, saved, other].forEach(closed);
}

// A program that isn't there is named, with a button for the setting. Once that is right, the server is started.
async function namesAMissingProgram(document) {
  settings.program = path.join(room, "nowhere");
  user.chooses = "Open the setting";
  await user.commands.get("raftbench.restart")();
  await standin.until(() => user.done.length > 0, () => "the setting");
  assert.match(warnings.splice(0).join(), /nowhere could not be started: .*ENOENT$/);
  assert.deepStrictEqual(user.done.splice(0), [["workbench.action.openSettings", "raftbench.program"]]);
  settings.program = program;
  tell("configuration", { affectsConfiguration: (name) => name === "raftbench.lsp.trace" });
  assert.deepStrictEqual([...shown], []);
  tell("configuration", { affectsConfiguration: (name) => name === "raftbench.program" });
  await marks(document);
}

// A server that ends is started again with all scripts, until it has ended five times. Then the button of a warning starts it.
async function startsAgain(documents) {
  const [ended, started] = [path.join(room, "ends"), path.join(room, "starts")];
  const ends = (count) => fs.writeFileSync(settings.program, `#!/bin/sh\necho >>"${started}"\n[ $(wc -l <"${ended}") -ge ${count} ] && exec "${program}" "$@"\necho >>"${ended}"; exit 3\n`, { mode: 0o755 });
  settings.program = path.join(room, "program");
  fs.writeFileSync(ended, "");
  ends(2);
  await user.commands.get("raftbench.restart")();
  for (const document of documents) await marks(document);
  assert.deepStrictEqual([warnings, fs.readFileSync(started, "utf8").length], [[], 3]);
  assert.deepStrictEqual(lines.splice(0), Array(2).fill(`${settings.program} lsp ended with status 3`));
  fs.writeFileSync(ended, "");
  fs.writeFileSync(started, "");
  ends(5);
  user.chooses = "Start it again";
  await user.commands.get("raftbench.restart")();
  for (const document of documents) await marks(document);
  assert.deepStrictEqual(warnings.splice(0), [`${settings.program} lsp ended with status 3, the 5th time in three minutes. It is not started again`]);
  assert.strictEqual(fs.readFileSync(started, "utf8").length, 6);
  lines.splice(0);
  settings.program = program;
}

// A request that nobody answers any more has no answer, and what is no message ends the server.
async function endsWithNonsense(document) {
  settings.program = path.join(room, "nonsense");
  fs.writeFileSync(settings.program, "#!/bin/sh\nread line; printf 'nonsense\\r\\n\\r\\n'; exec cat\n", { mode: 0o755 });
  await user.commands.get("raftbench.restart")();
  const hover = providers.provideHover(document, place);
  await standin.until(() => warnings.length > 0, () => "a warning");
  assert.strictEqual(await hover, undefined);
  assert.match(warnings.splice(0).join(), /sent no message: a message of the server has no length, the 5th time/);
  lines.splice(0);
  settings.program = program;
  await user.commands.get("raftbench.restart")();
  await marks(document);
}

// The check of a folder is a task: what it runs says where the scripts differ.
async function checksAFolder() {
  const check = user.commands.get("raftbench.checkFolder");
  await check();
  assert.deepStrictEqual([warnings.splice(0), user.done], [["No folder is open"], []]);
  const folder = { uri: api.Uri.file(room), name: "room" };
  api.workspace.workspaceFolders = [folder];
  await check();
  const [[saves], [, { name, source, execution, matcher, folder: its }]] = user.done.splice(0);
  assert.deepStrictEqual([saves, name, source, matcher, its], ["save all", "check", "raftbench", "$raftbench", folder]);
  assert.deepStrictEqual({ ...execution }, { program, words: ["check", "--color", "never", "."], cwd: room });
}

// The page of what is in the editor is opened, if that is a script; a refused script is an error.
async function opensAPage(subscriptions) {
  const open = user.commands.get("raftbench.openPage");
  await open();
  assert.deepStrictEqual(warnings.splice(0), ["The document in front is not a script"]);
  const document = { uri: api.Uri.file("/elsewhere/-a script.txt"), languageId: "raftbench", getText: () => SCRIPT };
  api.window.activeTextEditor = { document };
  await open();
  const [[does, page]] = user.done.splice(0);
  assert.deepStrictEqual([does, path.basename(page)], ["open", "-a script.txt.html"]);
  for (const wanted of ["-a script.txt", "log-level debug"]) assert(fs.readFileSync(page, "utf8").includes(wanted), wanted);
  api.window.activeTextEditor = { document: { ...document, getText: () => "log-level\n" } };
  await open();
  assert.deepStrictEqual(user.done, []);
  assert.match(user.errors.splice(0).join(), /^No page: raftbench: script refused/);
  subscriptions.forEach((it) => it?.dispose?.());
  assert(!fs.existsSync(page));
}

// A script to play with is served once, by the command beside the program, and shown beside the script.
async function plays() {
  const play = user.commands.get("raftbench.play");
  const file = path.join(room, "played.txt");
  const [commands, bin] = [user.done, path.join(room, "bin")];
  fs.mkdirSync(bin);
  fs.writeFileSync(path.join(bin, "raftbench-live"), `#!/bin/sh\necho called >>"${room}/calls"\necho "http://127.0.0.1:1/#$*"\nexec sleep 60\n`, { mode: 0o755 });
  settings.program = path.join(bin, "raftbench");
  api.window.activeTextEditor = { document: { uri: api.Uri.file(file), languageId: "plaintext" } };
  await play();
  assert.deepStrictEqual(warnings.splice(0), ["The document in front is not a script that is saved"]);
  api.window.activeTextEditor = { document: { uri: api.Uri.file(file), languageId: "raftbench", isUntitled: false, save: async () => commands.push(["save"]) } };
  await play();
  await play();
  const done = commands.splice(0);
  assert.deepStrictEqual(done.map(([name]) => name), ["save", "simpleBrowser.api.open", "save", "simpleBrowser.api.open"]);
  assert(String(done[1][1]).includes(`--no-browser --in-editor vscode -- ${file}`), String(done[1][1]));
  assert.deepStrictEqual([done[1][2], fs.readFileSync(path.join(room, "calls"), "utf8")], [{ viewColumn: api.ViewColumn.Beside }, "called\n"]);
  Object.assign(settings, { program });
  api.window.activeTextEditor = undefined;
}

async function main() {
  const context = { subscriptions: [] };
  extension.activate(context);
  takesScripts();
  const [other, document] = [opened("other.txt"), opened("script.txt")];
  await marks(other);
  await marks(document);
  await showsWhatCame(document);
  await accepts(document);
  await writesDownTheConversation(document);
  await offersWhatTheTextHas(document);
  await formats();
  await findsMessages();
  await acceptsByALens(document);
  await hintsAndSelects();
  await asksWhereTheServerSays();
  await namesAMissingProgram(document);
  lines.splice(0);
  await startsAgain([other, document]);
  await endsWithNonsense(document);
  await checksAFolder();
  await followsAChange(document);
  await plays();
  await opensAPage(context.subscriptions);
  closed(other);
  closed(document);
  assert.strictEqual(await extension.deactivate(), 0);
  assert.deepStrictEqual(warnings, []);
}

// Where nothing is left to wait for before the end has come, that is a failure too.
process.exitCode = 1;
const done = main().finally(() => fs.rmSync(room, { recursive: true }));
done.then(
  () => (process.exitCode = 0),
  (error) => {
    console.error(error.message);
    process.exit(1);
  },
);
