"use strict";
// Takes plain text that is a script for one, shows what `raftbench lsp` says of each script, and has commands.

const vscode = require("vscode");
const { accept, checkFolder, Pages } = require("./commands.js");
const { Plays } = require("./live.js");
const { actionOf, editOf, highlightOf, hintOf, itemOf, lensOf, locationOf, rangeOf, selectionOf, symbolOf } = require("./convert.js");
const { MOST, isScript } = require("./detect.js");
const { Server } = require("./server.js");

// An option's values follow these: typing one of them offers the values.
const BEFORE_VALUES = ["=", "(", ","];
// A server is told these when it starts.
const SERVER_SETTINGS = ["raftbench.program", "raftbench.lsp.softenLaterMismatches", "raftbench.lsp.inlayHints"];
/** @type {Server | undefined} */
let server;

/** @param {vscode.TextDocument} document */
function look(document) {
  if (document.languageId === "plaintext" && isScript(document.getText(new vscode.Range(0, 0, MOST, 0)))) {
    vscode.languages.setTextDocumentLanguage(document, "raftbench");
  }
}

/**
 * A text may have become a script once a line is complete, or lines are pasted.
 * @param {vscode.TextDocumentChangeEvent} event
 */
function lookAtChange({ document, contentChanges }) {
  if (contentChanges.some(({ text }) => text.includes("\n"))) look(document);
}

/**
 * What the editor asks for, as the server answers it.
 * @param {Server} from
 */
function providersOf(from) {
  /** @type {(method: string, document: vscode.TextDocument, params: object) => Promise<any>} */
  const ask = (method, document, params) => from.ask(method, document, params);
  return {
    /** @type {vscode.HoverProvider["provideHover"]} */
    async provideHover(document, position) {
      const found = await ask("hover", document, { position });
      if (!found) return undefined;
      return new vscode.Hover(new vscode.MarkdownString().appendCodeblock(found.contents.value, "plaintext"), rangeOf(found.range));
    },
    /** @type {vscode.CodeActionProvider["provideCodeActions"]} */
    async provideCodeActions(document, { start, end }) {
      const found = await ask("codeAction", document, { range: { start, end }, context: { diagnostics: [] } });
      return (found ?? []).map((/** @type {import("./convert.js").ProtocolAction} */ it) => actionOf(document, it));
    },
    /** @type {vscode.CompletionItemProvider["provideCompletionItems"]} */
    async provideCompletionItems(document, position) {
      return ((await ask("completion", document, { position })) ?? []).map(itemOf);
    },
    /** @type {vscode.DocumentSymbolProvider["provideDocumentSymbols"]} */
    async provideDocumentSymbols(document) {
      return ((await ask("documentSymbol", document, {})) ?? []).map(symbolOf);
    },
    /** @type {vscode.FoldingRangeProvider["provideFoldingRanges"]} */
    async provideFoldingRanges(document) {
      const found = (await ask("foldingRange", document, {})) ?? [];
      return found.map((/** @type {{ startLine: number, endLine: number }} */ it) => new vscode.FoldingRange(it.startLine, it.endLine));
    },
    /** @type {vscode.DocumentFormattingEditProvider["provideDocumentFormattingEdits"]} */
    async provideDocumentFormattingEdits(document, { tabSize, insertSpaces }) {
      return ((await ask("formatting", document, { options: { tabSize, insertSpaces } })) ?? []).map(editOf);
    },
    /** @type {vscode.DocumentRangeFormattingEditProvider["provideDocumentRangeFormattingEdits"]} */
    async provideDocumentRangeFormattingEdits(document, { start, end }, { tabSize, insertSpaces }) {
      return ((await ask("rangeFormatting", document, { range: { start, end }, options: { tabSize, insertSpaces } })) ?? []).map(editOf);
    },
    /** @type {vscode.DefinitionProvider["provideDefinition"]} */
    async provideDefinition(document, position) {
      const found = await ask("definition", document, { position });
      return found ? locationOf(found) : undefined;
    },
    /** @type {vscode.ReferenceProvider["provideReferences"]} */
    async provideReferences(document, position, { includeDeclaration }) {
      return ((await ask("references", document, { position, context: { includeDeclaration } })) ?? []).map(locationOf);
    },
    /** @type {vscode.DocumentHighlightProvider["provideDocumentHighlights"]} */
    async provideDocumentHighlights(document, position) {
      return ((await ask("documentHighlight", document, { position })) ?? []).map(highlightOf);
    },
    /** @type {vscode.CodeLensProvider["provideCodeLenses"]} */
    async provideCodeLenses(document) {
      return ((await ask("codeLens", document, {})) ?? []).map(lensOf);
    },
    /** @type {vscode.InlayHintsProvider["provideInlayHints"]} */
    async provideInlayHints(document, { start, end }) {
      return ((await ask("inlayHint", document, { range: { start, end } })) ?? []).map(hintOf);
    },
    /** @type {vscode.SelectionRangeProvider["provideSelectionRanges"]} */
    async provideSelectionRanges(document, positions) {
      return ((await ask("selectionRange", document, { positions })) ?? []).map(selectionOf);
    },
  };
}

/** @param {Server} it */
function listen(it) {
  const { workspace } = vscode;
  return [
    workspace.onDidOpenTextDocument(look),
    workspace.onDidSaveTextDocument(look),
    workspace.onDidChangeTextDocument(lookAtChange),
    workspace.onDidOpenTextDocument((document) => it.open(document)),
    workspace.onDidChangeTextDocument((event) => it.change(event)),
    workspace.onDidCloseTextDocument((document) => it.close(document)),
    workspace.onDidChangeConfiguration((event) => {
      if (SERVER_SETTINGS.some((name) => event.affectsConfiguration(name))) it.restart();
    }),
  ];
}

/** @param {ReturnType<typeof providersOf>} providers */
function register(providers) {
  const { languages } = vscode;
  return [
    languages.registerHoverProvider("raftbench", providers),
    languages.registerCodeActionsProvider("raftbench", providers),
    languages.registerCompletionItemProvider("raftbench", providers, ...BEFORE_VALUES),
    languages.registerDocumentSymbolProvider("raftbench", providers),
    languages.registerFoldingRangeProvider("raftbench", providers),
    languages.registerDocumentFormattingEditProvider("raftbench", providers),
    languages.registerDocumentRangeFormattingEditProvider("raftbench", providers),
    languages.registerDefinitionProvider("raftbench", providers),
    languages.registerReferenceProvider("raftbench", providers),
    languages.registerDocumentHighlightProvider("raftbench", providers),
    languages.registerCodeLensProvider("raftbench", providers),
    languages.registerSelectionRangeProvider("raftbench", providers),
    // Editors before 1.67 have no inlay hints.
    ...(languages.registerInlayHintsProvider ? [languages.registerInlayHintsProvider("raftbench", providers)] : []),
  ];
}

/** @param {{ subscriptions: { dispose(): unknown }[] }} context */
function activate(context) {
  const shown = vscode.languages.createDiagnosticCollection("raftbench");
  const output = vscode.window.createOutputChannel("raftbench");
  const pages = new Pages();
  const plays = new Plays();
  const it = new Server(shown, output);
  server = it;
  context.subscriptions.push(
    shown,
    output,
    pages,
    plays,
    vscode.commands.registerCommand("raftbench.restart", () => it.restart()),
    vscode.commands.registerCommand("raftbench.checkFolder", checkFolder),
    vscode.commands.registerCommand("raftbench.openPage", (uri, line) => pages.open(uri, line)),
    vscode.commands.registerCommand("raftbench.accept", accept),
    vscode.commands.registerCommand("raftbench.play", () => plays.open()),
    ...listen(it),
    ...register(providersOf(it)),
  );
  vscode.workspace.textDocuments.forEach(look);
  vscode.workspace.textDocuments.forEach((document) => it.open(document));
}

function deactivate() {
  return server?.stop();
}

module.exports = { activate, deactivate };
