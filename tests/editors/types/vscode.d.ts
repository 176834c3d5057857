// As much of Visual Studio Code's API (1.60, and the inlay hints of 1.67) as the extension of editors/vscode calls.

declare module "vscode" {
  export interface Disposable {
    dispose(): unknown;
  }
  type Result<T> = T | undefined | null | Thenable<T | undefined | null>;
  type Thenable<T> = PromiseLike<T>;
  type Event<T> = (hear: (event: T) => unknown) => Disposable;

  export class Position {
    constructor(line: number, character: number);
    readonly line: number;
    readonly character: number;
  }
  export class Range {
    constructor(startLine: number, startCharacter: number, endLine: number, endCharacter: number);
    readonly start: Position;
    readonly end: Position;
  }
  export class Uri {
    private constructor();
    static parse(text: string): Uri;
    static file(path: string): Uri;
    readonly path: string;
    readonly fsPath: string;
    toString(): string;
  }
  export class Location {
    constructor(uri: Uri, range: Range);
  }
  export class DiagnosticRelatedInformation {
    constructor(location: Location, message: string);
  }
  export class Diagnostic {
    constructor(range: Range, message: string, severity?: number);
    code?: string | number;
    source?: string;
    relatedInformation?: DiagnosticRelatedInformation[];
  }
  export class MarkdownString {
    appendCodeblock(text: string, language?: string): MarkdownString;
  }
  export class Hover {
    constructor(contents: MarkdownString, range?: Range);
  }
  export class CodeActionKind {
    private constructor();
    static readonly QuickFix: CodeActionKind;
    static readonly Source: CodeActionKind;
  }
  export class CodeAction {
    constructor(title: string, kind?: CodeActionKind);
    edit?: WorkspaceEdit;
  }
  export class TextEdit {
    static replace(range: Range, text: string): TextEdit;
  }
  export class WorkspaceEdit {
    replace(uri: Uri, range: Range, text: string): void;
  }
  export class SnippetString {
    constructor(value: string);
  }
  export class CompletionItem {
    constructor(label: string, kind?: number);
    documentation?: string;
    range?: Range;
    insertText?: string | SnippetString;
  }
  export class DocumentSymbol {
    constructor(name: string, detail: string, kind: number, range: Range, selectionRange: Range);
  }
  export class DocumentHighlight {
    constructor(range: Range, kind?: number);
  }
  export class FoldingRange {
    constructor(start: number, end: number);
  }

  export class CodeLens {
    constructor(range: Range, command?: { title: string; command: string; arguments?: unknown[] });
  }
  export class InlayHint {
    constructor(position: Position, label: string);
    paddingLeft?: boolean;
  }
  export class SelectionRange {
    constructor(range: Range, parent?: SelectionRange);
  }

  export const ViewColumn: { readonly Beside: number };
  export interface TextDocument {
    readonly uri: Uri;
    readonly languageId: string;
    readonly version: number;
    readonly isUntitled: boolean;
    getText(range?: Range): string;
    save(): Thenable<boolean>;
  }
  export interface TextDocumentChangeEvent {
    readonly document: TextDocument;
    readonly contentChanges: readonly { readonly range: Range; readonly text: string }[];
  }
  export interface HoverProvider {
    provideHover(document: TextDocument, position: Position): Result<Hover>;
  }
  export interface CodeActionProvider {
    provideCodeActions(document: TextDocument, range: Range): Result<CodeAction[]>;
  }
  export interface CompletionItemProvider {
    provideCompletionItems(document: TextDocument, position: Position): Result<CompletionItem[]>;
  }
  export interface DocumentSymbolProvider {
    provideDocumentSymbols(document: TextDocument): Result<DocumentSymbol[]>;
  }
  export interface FoldingRangeProvider {
    provideFoldingRanges(document: TextDocument): Result<FoldingRange[]>;
  }
  export interface DocumentFormattingEditProvider {
    provideDocumentFormattingEdits(document: TextDocument, options: { tabSize: number; insertSpaces: boolean }): Result<TextEdit[]>;
  }
  export interface DocumentRangeFormattingEditProvider {
    provideDocumentRangeFormattingEdits(document: TextDocument, range: Range, options: { tabSize: number; insertSpaces: boolean }): Result<TextEdit[]>;
  }
  export interface DefinitionProvider {
    provideDefinition(document: TextDocument, position: Position): Result<Location>;
  }
  export interface ReferenceProvider {
    provideReferences(document: TextDocument, position: Position, context: { readonly includeDeclaration: boolean }): Result<Location[]>;
  }
  export interface DocumentHighlightProvider {
    provideDocumentHighlights(document: TextDocument, position: Position): Result<DocumentHighlight[]>;
  }
  export interface CodeLensProvider {
    provideCodeLenses(document: TextDocument): Result<CodeLens[]>;
  }
  export interface InlayHintsProvider {
    provideInlayHints(document: TextDocument, range: Range): Result<InlayHint[]>;
  }
  export interface SelectionRangeProvider {
    provideSelectionRanges(document: TextDocument, positions: readonly Position[]): Result<SelectionRange[]>;
  }
  export interface DiagnosticCollection extends Disposable {
    set(uri: Uri, diagnostics: Diagnostic[]): void;
    clear(): void;
  }
  export interface OutputChannel extends Disposable {
    appendLine(line: string): void;
  }
  export interface WorkspaceFolder {
    readonly uri: Uri;
    readonly name: string;
  }
  export class ProcessExecution {
    constructor(program: string, words: string[], options?: { cwd?: string });
  }
  export class Task {
    constructor(definition: { type: string }, scope: WorkspaceFolder, name: string, source: string, execution?: ProcessExecution, matchers?: string | string[]);
  }

  export namespace languages {
    function createDiagnosticCollection(name?: string): DiagnosticCollection;
    function setTextDocumentLanguage(document: TextDocument, language: string): Thenable<TextDocument>;
    function registerHoverProvider(language: string, provider: HoverProvider): Disposable;
    function registerCodeActionsProvider(language: string, provider: CodeActionProvider): Disposable;
    function registerCompletionItemProvider(language: string, provider: CompletionItemProvider, ...characters: string[]): Disposable;
    function registerDocumentSymbolProvider(language: string, provider: DocumentSymbolProvider): Disposable;
    function registerFoldingRangeProvider(language: string, provider: FoldingRangeProvider): Disposable;
    function registerDocumentFormattingEditProvider(language: string, provider: DocumentFormattingEditProvider): Disposable;
    function registerDocumentRangeFormattingEditProvider(language: string, provider: DocumentRangeFormattingEditProvider): Disposable;
    function registerDefinitionProvider(language: string, provider: DefinitionProvider): Disposable;
    function registerReferenceProvider(language: string, provider: ReferenceProvider): Disposable;
    function registerDocumentHighlightProvider(language: string, provider: DocumentHighlightProvider): Disposable;
    function registerCodeLensProvider(language: string, provider: CodeLensProvider): Disposable;
    function registerSelectionRangeProvider(language: string, provider: SelectionRangeProvider): Disposable;
    const registerInlayHintsProvider: ((language: string, provider: InlayHintsProvider) => Disposable) | undefined;
  }
  export namespace window {
    const activeTextEditor: { readonly document: TextDocument } | undefined;
    function createOutputChannel(name: string): OutputChannel;
    function showWarningMessage(text: string, ...buttons: string[]): Thenable<string | undefined>;
    function showErrorMessage(text: string, ...buttons: string[]): Thenable<string | undefined>;
  }
  export namespace workspace {
    const textDocuments: readonly TextDocument[];
    const workspaceFolders: readonly WorkspaceFolder[] | undefined;
    const onDidOpenTextDocument: Event<TextDocument>;
    const onDidCloseTextDocument: Event<TextDocument>;
    const onDidSaveTextDocument: Event<TextDocument>;
    const onDidChangeTextDocument: Event<TextDocumentChangeEvent>;
    const onDidChangeConfiguration: Event<{ affectsConfiguration(name: string): boolean }>;
    function getConfiguration(name: string): { get<T>(name: string): T | undefined; get<T>(name: string, otherwise: T): T };
    function getWorkspaceFolder(uri: Uri): WorkspaceFolder | undefined;
    function saveAll(includesUntitled?: boolean): Thenable<boolean>;
    function applyEdit(edit: WorkspaceEdit): Thenable<boolean>;
  }
  export namespace commands {
    function registerCommand(name: string, call: (...words: any[]) => unknown): Disposable;
    function executeCommand(name: string, ...words: unknown[]): Thenable<unknown>;
  }
  export namespace env {
    function openExternal(uri: Uri): Thenable<boolean>;
  }
  export namespace tasks {
    function executeTask(task: Task): Thenable<unknown>;
  }
}
