"use strict";
// Makes the editor's values of those of the language server protocol. The protocol counts severities and kinds from 1, the editor from 0.

const vscode = require("vscode");

// The protocol's number for a text with places for the cursor.
const SNIPPET = 2;

/** @typedef {{ line: number, character: number }} ProtocolPosition */
/** @typedef {{ start: ProtocolPosition, end: ProtocolPosition }} ProtocolRange */
/** @typedef {{ uri: string, range: ProtocolRange }} ProtocolLocation */
/** @typedef {{ range: ProtocolRange, kind: number }} ProtocolHighlight */
/** @typedef {{ location: ProtocolLocation, message: string }} ProtocolRelated */
/** @typedef {{ range: ProtocolRange, message: string, severity: number, code: string, source: string, relatedInformation?: ProtocolRelated[] }} ProtocolDiagnostic */
/** @typedef {{ range: ProtocolRange, newText: string }} ProtocolEdit */
/** @typedef {{ title: string, kind: string, edit: { changes: Record<string, ProtocolEdit[]> } }} ProtocolAction */
/** @typedef {{ label: string, kind: number, documentation?: string, textEdit: ProtocolEdit, insertTextFormat?: number }} ProtocolItem */
/** @typedef {{ name: string, kind: number, range: ProtocolRange, selectionRange: ProtocolRange }} ProtocolSymbol */
/** @typedef {{ range: ProtocolRange, command: { title: string, command: string, arguments: unknown[] } }} ProtocolLens */
/** @typedef {{ position: ProtocolPosition, label: string, paddingLeft: boolean }} ProtocolHint */
/** @typedef {{ range: ProtocolRange, parent?: ProtocolSelection }} ProtocolSelection */
/** @typedef {{ changes: Record<string, ProtocolEdit[]> }} ProtocolChanges */

/** @param {ProtocolRange} range */
function rangeOf(range) {
  return new vscode.Range(range.start.line, range.start.character, range.end.line, range.end.character);
}

/** @param {ProtocolLocation} location */
function locationOf({ uri, range }) {
  return new vscode.Location(vscode.Uri.parse(uri), rangeOf(range));
}

/** @param {ProtocolHighlight} highlight */
function highlightOf({ range, kind }) {
  return new vscode.DocumentHighlight(rangeOf(range), kind - 1);
}

/** @param {ProtocolRelated} related */
function relatedOf({ location, message }) {
  return new vscode.DiagnosticRelatedInformation(locationOf(location), message);
}

/** @param {ProtocolDiagnostic} from */
function diagnosticOf(from) {
  const diagnostic = new vscode.Diagnostic(rangeOf(from.range), from.message, from.severity - 1);
  diagnostic.code = from.code;
  diagnostic.source = from.source;
  diagnostic.relatedInformation = from.relatedInformation?.map(relatedOf);
  return diagnostic;
}

/** @param {ProtocolEdit} edit */
function editOf({ range, newText }) {
  return vscode.TextEdit.replace(rangeOf(range), newText);
}

/** @param {ProtocolChanges} from */
function changesOf({ changes }) {
  const edit = new vscode.WorkspaceEdit();
  for (const [uri, edits] of Object.entries(changes)) {
    for (const { range, newText } of edits) edit.replace(vscode.Uri.parse(uri), rangeOf(range), newText);
  }
  return edit;
}

/**
 * An action on one document.
 * @param {vscode.TextDocument} document
 * @param {ProtocolAction} from
 */
function actionOf(document, { title, kind, edit }) {
  const action = new vscode.CodeAction(title, kind === "quickfix" ? vscode.CodeActionKind.QuickFix : vscode.CodeActionKind.Source);
  action.edit = new vscode.WorkspaceEdit();
  for (const { range, newText } of Object.values(edit.changes).flat()) action.edit.replace(document.uri, rangeOf(range), newText);
  return action;
}

/** @param {ProtocolItem} from */
function itemOf({ label, kind, documentation, textEdit, insertTextFormat }) {
  const item = new vscode.CompletionItem(label, kind - 1);
  item.documentation = documentation;
  item.range = rangeOf(textEdit.range);
  item.insertText = insertTextFormat === SNIPPET ? new vscode.SnippetString(textEdit.newText) : textEdit.newText;
  return item;
}

/** @param {ProtocolSymbol} from */
function symbolOf({ name, kind, range, selectionRange }) {
  return new vscode.DocumentSymbol(name, "", kind - 1, rangeOf(range), rangeOf(selectionRange));
}

/** @param {ProtocolLens} from */
function lensOf({ range, command }) {
  return new vscode.CodeLens(rangeOf(range), command);
}

/** @param {ProtocolHint} from */
function hintOf({ position, label, paddingLeft }) {
  const hint = new vscode.InlayHint(new vscode.Position(position.line, position.character), label);
  hint.paddingLeft = paddingLeft;
  return hint;
}

/**
 * @param {ProtocolSelection} from
 * @returns {vscode.SelectionRange}
 */
function selectionOf({ range, parent }) {
  return new vscode.SelectionRange(rangeOf(range), parent && selectionOf(parent));
}

module.exports = { rangeOf, diagnosticOf, editOf, actionOf, changesOf, itemOf, symbolOf, locationOf, highlightOf, lensOf, hintOf, selectionOf };
