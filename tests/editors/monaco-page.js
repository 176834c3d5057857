"use strict";
// The page of monaco.js: Monaco's editor with a script. What the editor asks for is asked of the extension, over the binding `toExtension`. The
// extension counts lines and columns from 0, Monaco from 1.

const waiting = [];

function ask(method, ...values) {
  toExtension(JSON.stringify({ id: waiting.length, method, values }));
  return new Promise((go) => waiting.push(go));
}

function answer(id, told) {
  waiting[id](told);
}

const rangeOf = ([line, character, endLine, endCharacter]) => new monaco.Range(line + 1, character + 1, endLine + 1, endCharacter + 1);
const numbersOf = (range) => [range.startLineNumber - 1, range.startColumn - 1, range.endLineNumber - 1, range.endColumn - 1];
const editOf = ({ range, newText }) => ({ range: rangeOf(range), text: newText });
// What a word puts in: a text, or a snippet.
function insertOf(text) {
  if (typeof text === "string") return { insertText: text };
  return { insertText: text.value, insertTextRules: monaco.languages.CompletionItemInsertTextRule.InsertAsSnippet };
}

const placeOf = ({ lineNumber, column }) => [lineNumber - 1, column - 1];

// A block of code as Monaco shows it whatever library its Markdown is read by: that of Debian's package makes none of ```.
function preformatted(text) {
  const block = document.createElement("pre");
  block.textContent = text;
  return block.outerHTML;
}

// Shows these diagnostics, and no others.
function mark(told) {
  const severities = [monaco.MarkerSeverity.Error, monaco.MarkerSeverity.Warning];
  const placed = ({ message, range }) => ({ message, resource: shown.getModel().uri, ...rangeOf(range) });
  const marks = told.map((it) => ({ ...it, ...rangeOf(it.range), severity: severities[it.severity], relatedInformation: it.relatedInformation?.map(placed) }));
  monaco.editor.setModelMarkers(shown.getModel(), "raftbench", marks);
}

const providers = {
  Hover: {
    async provideHover(_, position) {
      const told = await ask("hover", ...placeOf(position));
      return told && { contents: [{ value: preformatted(told.text), supportHtml: true }], range: rangeOf(told.range) };
    },
  },
  CodeAction: {
    async provideCodeActions(model, range) {
      const told = await ask("actions", ...numbersOf(range));
      const editsOf = ({ edits }) => edits.map((it) => ({ resource: model.uri, textEdit: editOf(it), versionId: undefined }));
      return { actions: told.map((it) => ({ title: it.title, kind: it.kind, edit: { edits: editsOf(it) } })), dispose() {} };
    },
  },
  CompletionItem: {
    async provideCompletionItems(_, position) {
      const told = await ask("words", ...placeOf(position));
      return { suggestions: told.map((it) => ({ ...it, ...insertOf(it.insertText), kind: monaco.languages.CompletionItemKind[it.kind], range: rangeOf(it.range) })) };
    },
  },
  DocumentSymbol: {
    async provideDocumentSymbols() {
      const told = await ask("symbols");
      return told.map((it) => ({ ...it, tags: [], range: rangeOf(it.range), selectionRange: rangeOf(it.selectionRange) }));
    },
  },
  FoldingRange: {
    async provideFoldingRanges() {
      const told = await ask("folds");
      return told.map(({ start, end }) => ({ start: start + 1, end: end + 1 }));
    },
  },
  DocumentFormattingEdit: {
    async provideDocumentFormattingEdits() {
      return (await ask("formatted")).map(editOf);
    },
  },
};

let shown;

// Opens the script, with what the extension says of the language, and the characters behind which words are asked for.
async function begin(vs, script, characters, { wordPattern, ...configuration }) {
  require.config({ paths: { vs } });
  await new Promise((go) => require(["vs/editor/editor.main"], go));
  monaco.languages.register({ id: "raftbench" });
  monaco.languages.setLanguageConfiguration("raftbench", { ...configuration, wordPattern: new RegExp(wordPattern.pattern, wordPattern.flags) });
  providers.CompletionItem.triggerCharacters = characters;
  for (const [name, provider] of Object.entries(providers)) monaco.languages[`register${name}Provider`]("raftbench", provider);
  const model = monaco.editor.createModel(script, "raftbench", monaco.Uri.parse("file:///script.txt"));
  shown = monaco.editor.create(document.getElementById("editor"), { model, automaticLayout: true, fixedOverflowWidgets: true, fontSize: 15, minimap: { enabled: false } });
  model.onDidChangeContent(({ changes }) => ask("change", model.getValue(), changes.map(({ range, text }) => [numbersOf(range), text])));
  shown.focus();
}

// Where a line's column stands on the screen.
function pixelsOf(line, character) {
  const { left, top, height } = shown.getScrolledVisiblePosition({ lineNumber: line + 1, column: character + 1 });
  const area = shown.getDomNode().getBoundingClientRect();
  return { x: area.left + left, y: area.top + top + height / 2 };
}
