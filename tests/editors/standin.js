"use strict";
// An editor that only pretends: as much of Visual Studio Code's API as the extension of editors/vscode calls. What it makes refuses what the
// editor's own types refuse.

const assert = require("assert");
const Module = require("module");
const path = require("path");

class Position {
  constructor(line, character) {
    assert(Number.isInteger(line) && Number.isInteger(character) && line >= 0 && character >= 0, "a position counts from 0");
    Object.assign(this, { line, character });
  }

  isAfter({ line, character }) {
    return this.line > line || (this.line === line && this.character > character);
  }
}

class Range {
  constructor(startLine, startCharacter, endLine, endCharacter) {
    this.start = new Position(startLine, startCharacter);
    this.end = new Position(endLine, endCharacter);
    assert(!this.start.isAfter(this.end), "a range ends before it begins");
  }

  get numbers() {
    return [this.start.line, this.start.character, this.end.line, this.end.character];
  }

  contains({ start, end }) {
    return !this.start.isAfter(start) && !end.isAfter(this.end);
  }
}

class Diagnostic {
  constructor(range, message, severity) {
    assert(range instanceof Range && message && [0, 1, 2, 3].includes(severity));
    Object.assign(this, { range, message, severity });
  }
}

class Location {
  constructor(uri, range) {
    assert(uri && range instanceof Range);
    Object.assign(this, { uri, range });
  }
}

class DiagnosticRelatedInformation {
  constructor(location, message) {
    assert(location instanceof Location && message);
    Object.assign(this, { location, message });
  }
}

class MarkdownString {
  appendCodeblock(text, language) {
    Object.assign(this, { text, language });
    return this;
  }
}

class Hover {
  constructor(contents, range) {
    assert(contents instanceof MarkdownString && range instanceof Range);
    Object.assign(this, { contents, range });
  }
}

class CodeAction {
  constructor(title, kind) {
    assert(title && Object.values(CodeActionKind).includes(kind));
    Object.assign(this, { title, kind });
  }
}

const CodeActionKind = { QuickFix: { value: "quickfix" }, Source: { value: "source" } };

class TextEdit {
  constructor(range, newText) {
    assert(range instanceof Range && typeof newText === "string");
    Object.assign(this, { range, newText });
  }

  static replace(range, newText) {
    return new TextEdit(range, newText);
  }
}

class WorkspaceEdit {
  edits = [];

  replace(uri, range, newText) {
    this.edits.push([uri, new TextEdit(range, newText)]);
  }
}

class DocumentHighlight {
  constructor(range, kind) {
    assert(range instanceof Range && Number.isInteger(kind));
    Object.assign(this, { range, kind });
  }
}

class SnippetString {
  constructor(value) {
    this.value = value;
  }
}

class CompletionItem {
  constructor(label, kind) {
    assert(label && Number.isInteger(kind));
    Object.assign(this, { label, kind });
  }
}

class DocumentSymbol {
  constructor(name, detail, kind, range, selectionRange) {
    assert(name && range.contains(selectionRange), "a symbol has a name, and its selection stands in its range");
    Object.assign(this, { name, detail, kind, range, selectionRange });
  }
}

class FoldingRange {
  constructor(start, end) {
    assert(Number.isInteger(start) && Number.isInteger(end));
    Object.assign(this, { start, end });
  }
}

class CodeLens {
  constructor(range, command) {
    assert(range instanceof Range && command.title && command.command);
    Object.assign(this, { range, command });
  }
}

class InlayHint {
  constructor(position, label) {
    assert(position instanceof Position && label);
    Object.assign(this, { position, label });
  }
}

class SelectionRange {
  constructor(range, parent) {
    assert(!parent || parent.range.contains(range), "a selection's parent contains it");
    Object.assign(this, { range, parent });
  }
}

class ProcessExecution {
  constructor(program, words, options) {
    assert(program && Array.isArray(words));
    Object.assign(this, { program, words, ...options });
  }
}

class Task {
  constructor(definition, folder, name, source, execution, matcher) {
    assert(definition.type && folder.uri && execution instanceof ProcessExecution);
    Object.assign(this, { folder, name, source, execution, matcher });
  }
}

const PROVIDERS = ["Hover", "CodeActions", "CompletionItem", "DocumentSymbol", "FoldingRange", "DocumentFormattingEdit", "DocumentRangeFormattingEdit", "Definition", "Reference", "DocumentHighlight", "CodeLens", "InlayHints", "SelectionRange"];

// What the editor has to say to its user, and does for an extension: `warnings` and `errors` are shown, `lines` are written down, and `done` are
// commands, tasks and addresses that are opened. `chooses` is the button that the user presses, or undefined.
function user() {
  const [warnings, errors, lines, done, commands] = [[], [], [], [], new Map()];
  const it = { warnings, errors, lines, done, commands, chooses: undefined };
  const shows = (list) => async (text, ...buttons) => {
    list.push(text);
    const { chooses } = it;
    it.chooses = undefined;
    return buttons.includes(chooses) ? chooses : undefined;
  };
  const window = {
    activeTextEditor: undefined,
    showWarningMessage: shows(warnings),
    showErrorMessage: shows(errors),
    createOutputChannel: () => ({ appendLine: (line) => lines.push(line) }),
  };
  const api = {
    window,
    commands: {
      registerCommand: (name, call) => commands.set(name, call),
      executeCommand: async (...words) => done.push(words),
    },
    ViewColumn: { Beside: -2 },
    env: { openExternal: async (uri) => done.push(["open", uri.fsPath]) },
    tasks: { executeTask: async (task) => done.push(["task", task]) },
  };
  return { it, api };
}

// An editor with these settings. In `shown` are the diagnostics of each document, in `providers` what the extension gives when it is asked, and the
// characters after which words are asked for. `tell` calls what listens; a user's part is in `user`, as above.
function editor(settings) {
  const listeners = { open: [], change: [], close: [], save: [], configuration: [] };
  const [shown, providers, documents] = [new Map(), { characters: [] }, []];
  const { it, api } = user();
  const on = (name) => (listener) => listeners[name].push(listener);
  const tell = (name, event) => listeners[name].forEach((listener) => listener(event));
  const provided = (language, provider, ...characters) => {
    assert(language === "raftbench" && characters.every((it) => it.length === 1));
    Object.assign(providers, provider);
    providers.characters.push(...characters);
  };
  // As for the editor, a document in another language is another document.
  const setTextDocumentLanguage = async (document, id) => {
    tell("close", document);
    document.languageId = id;
    tell("open", document);
  };
  const languages = {
    createDiagnosticCollection: () => ({ set: (uri, list) => shown.set(uri, list), clear: () => shown.clear() }),
    setTextDocumentLanguage,
    ...Object.fromEntries(PROVIDERS.map((name) => [`register${name}Provider`, provided])),
  };
  const workspace = {
    textDocuments: documents,
    workspaceFolders: undefined,
    getWorkspaceFolder: () => undefined,
    saveAll: async () => it.done.push(["save all"]),
    applyEdit: async (edit) => it.done.push(["edit", edit]),
    getConfiguration: () => ({ get: (name, otherwise) => settings[name] ?? otherwise }),
    onDidOpenTextDocument: on("open"),
    onDidChangeTextDocument: on("change"),
    onDidCloseTextDocument: on("close"),
    onDidSaveTextDocument: on("save"),
    onDidChangeConfiguration: on("configuration"),
  };
  const Uri = { parse: (text) => text, file: (path) => ({ scheme: "file", path, fsPath: path, toString: () => `file://${path}` }) };
  const types = { CodeAction, CodeActionKind, CodeLens, CompletionItem, Diagnostic, DiagnosticRelatedInformation, DocumentHighlight, DocumentSymbol, FoldingRange, Hover, InlayHint, Location, MarkdownString, Position, ProcessExecution, Range, SelectionRange, SnippetString, Task, TextEdit, WorkspaceEdit };
  return { api: { ...types, Uri, languages, workspace, ...api }, shown, providers, documents, tell, user: it, warnings: it.warnings, lines: it.lines };
}

// The extension, with this for the editor's API.
function extension(api) {
  const load = Module._load;
  Module._load = (name, ...others) => (name === "vscode" ? api : load(name, ...others));
  return require(path.join(__dirname, "../../editors/vscode/extension.js"));
}

// Waits until something holds, and fails where it doesn't come.
async function until(holds, what) {
  for (let tries = 0; tries < 3000; tries++) {
    if (await holds()) return;
    await new Promise((go) => setTimeout(go, 20));
  }
  assert.fail(`it didn't come: ${what()}`);
}

module.exports = { editor, extension, until, Position };
