'use strict';
// hol-serve in VS Code: errors and goals as one types, over the bridge `holls lsp`. docs/EDITORS.md says how to use it.

const fs = require('fs');
const os = require('os');
const path = require('path');
const vscode = require('vscode');
const { Bridge } = require('./bridge.js');

const LANGUAGE = 'hol';
const SCHEMES = ['file', 'untitled']; // Not those of an earlier version beside a file, as `git`: it would be a second theory of one name.
const SELECTOR = SCHEMES.map((scheme) => ({ language: LANGUAGE, scheme }));
const GOALS = vscode.Uri.parse('hol-goals:goals');
const SEEN_MILLISECONDS = 50;
const CAPABILITIES = { window: { workDoneProgress: true }, workspace: { codeLens: { refreshSupport: true } } };
const SYMBOLS = {
  forall: '∀', exists: '∃', unique: '∃!', lambda: 'λ', select: 'ε', and: '∧', or: '∨', not: '¬', implies: '⇒', iff: '⇔', to: '→',
  in: '∈', union: '∪', inter: '∩', diff: '∖', subset: '⊆', psubset: '⊂', empty: '∅', leq: '≤', geq: '≥', times: '×', circ: '∘',
};

let bridge = null;
let begun = ''; // The words that started it.
let diagnostics = null;
let goalsText = '';
let isPlain = false; // Whether goals are shown as the program says them.
let asked = 0;
let timer = null;
let searching = null; // What hears of the search for a proof that is under way.
const goalsChanged = new vscode.EventEmitter();
const lensesChanged = new vscode.EventEmitter();
const unknown = new Map(); // The ranges that aren't known yet, by the documents' addresses.
const waiting = vscode.window.createTextEditorDecorationType({ isWholeLine: true, opacity: '0.6' });

const isHol = (document) => document.languageId === LANGUAGE && SCHEMES.includes(document.uri.scheme);
const atHome = (file) => file.replace(/^~(?=[/\\])/, os.homedir());
const at = (document, position) => ({ textDocument: { uri: document.uri.toString() }, position });
const range = (found) => new vscode.Range(found.start.line, found.start.character, found.end.line, found.end.character);

function command() {
  const given = vscode.workspace.getConfiguration('holls').get('command') || [];
  if (given.length) return given.map(atHome);
  const own = path.join(__dirname, 'bin', 'holls'); // As in the package that clients/vscode/package makes.
  const bridge = fs.existsSync(own) ? own : path.join(__dirname, '..', 'bin', 'holls');
  const server = vscode.workspace.getConfiguration('holls').get('server');
  return ['python3', bridge, 'lsp', ...(server ? ['--server', atHome(server)] : [])];
}

// Starts the bridge and gives it all that is open.
async function start() {
  const words = command();
  begun = JSON.stringify(words);
  const mine = new Bridge(words, heard, (reason) => {
    if (bridge === mine) {
      bridge = null;
      diagnostics.clear();
      vscode.window.showErrorMessage(`The bridge holls doesn't run: ${reason}. See the settings "holls.command" and "holls.server".`);
    }
  });
  bridge = mine;
  try {
    await mine.request('initialize', { processId: process.pid, rootUri: null, capabilities: CAPABILITIES });
  } catch (error) {
    return;
  }
  mine.notify('initialized', {});
  vscode.workspace.textDocuments.filter(isHol).forEach(opened);
}

function heard(method, params) {
  if (method === 'textDocument/publishDiagnostics') {
    const uri = vscode.Uri.parse(params.uri);
    diagnostics.set(uri, params.diagnostics.map((found) => {
      const shown = new vscode.Diagnostic(range(found.range), found.message, found.severity - 1);
      shown.source = found.source;
      return shown;
    }));
    showGoals();
  } else if (method === '$/hol/fileProgress') {
    unknown.set(params.textDocument.uri, params.processing.map((found) => range(found.range)));
    showUnknown();
  } else if (method === '$/progress') {
    if (searching && String(params.token).startsWith('holls/search/')) searching(params);
  } else if (method === 'workspace/codeLens/refresh') {
    lensesChanged.fire();
  } else if (method === 'window/showMessage') {
    vscode.window.showErrorMessage(params.message);
  }
}

function opened(document) {
  if (bridge && isHol(document)) {
    const given = { uri: document.uri.toString(), languageId: LANGUAGE, version: document.version, text: document.getText() };
    bridge.notify('textDocument/didOpen', { textDocument: given });
    seen();
  }
}

function changed(event) {
  if (bridge && isHol(event.document) && event.contentChanges.length) {
    bridge.notify('textDocument/didChange', {
      textDocument: { uri: event.document.uri.toString(), version: event.document.version },
      contentChanges: event.contentChanges.map(({ range: { start, end }, text }) => ({ range: { start, end }, text })),
    });
    putSymbol(event);
  }
}

// With the setting `holls.symbols`, \forall and the like become symbols once the next character is typed.
function putSymbol(event) {
  const editor = vscode.window.activeTextEditor;
  const isSet = vscode.workspace.getConfiguration('holls').get('symbols');
  if (!isSet || !editor || editor.document !== event.document || event.contentChanges.length !== 1) return;
  const [{ range: { start }, text }] = event.contentChanges;
  if (!/^[^\w']$/.test(text)) return;
  const found = /(?:^|[^/\\])\\([a-z]+)$/.exec(event.document.lineAt(start.line).text.slice(0, start.character));
  if (found && Object.prototype.hasOwnProperty.call(SYMBOLS, found[1])) {
    const first = start.character - found[1].length - 1;
    editor.edit((edit) => edit.replace(new vscode.Range(start.line, first, start.line, start.character), SYMBOLS[found[1]]));
  }
}

function closed(document) {
  if (bridge && isHol(document)) {
    bridge.notify('textDocument/didClose', { textDocument: { uri: document.uri.toString() } });
  }
}

// Tells the bridge what is seen, and shows the goals at the cursor; not for each of many events at once.
function seen() {
  clearTimeout(timer);
  timer = setTimeout(() => {
    const editor = vscode.window.activeTextEditor;
    if (bridge && editor && isHol(editor.document) && editor.visibleRanges.length) {
      const [first, last] = [editor.visibleRanges[0].start, editor.visibleRanges[editor.visibleRanges.length - 1].end];
      bridge.notify('proof/viewRange', { ...at(editor.document, editor.selection.active), range: { start: first, end: last } });
      showGoals();
    }
  }, SEEN_MILLISECONDS);
}

// Of several answers under way only the one asked for last is shown.
async function showGoals() {
  const editor = vscode.window.activeTextEditor;
  const isOpen = vscode.window.visibleTextEditors.some((other) => other.document.uri.toString() === GOALS.toString());
  if (!bridge || !editor || !isHol(editor.document) || !isOpen) return;
  const number = ++asked;
  const result = await request('proof/goals', at(editor.document, editor.selection.active));
  if (number === asked && result) {
    goalsText = (isPlain && result.plain) || result.text;
    goalsChanged.fire(GOALS);
  }
}

// Shows in pale what isn't known yet.
function showUnknown() {
  for (const editor of vscode.window.visibleTextEditors) {
    const ranges = unknown.get(editor.document.uri.toString());
    if (ranges && editor.setDecorations) editor.setDecorations(waiting, ranges);
  }
}

// Finds theorems, perhaps by what they conclude alone; the one that is chosen is shown, or where it is the prelude's, its name is put in.
async function search(conclusion) {
  const query = await vscode.window.showInputBox({ prompt: 'Parts of names, or a pattern such as _ /\\ _ ==> _' });
  if (!query || !bridge) return;
  let found = [];
  try {
    found = await bridge.request('hol/search', { query, conclusion });
  } catch (error) {
    vscode.window.showErrorMessage(error.message);
    return;
  }
  const chosen = await vscode.window.showQuickPick(
    found.map((one) => ({
      label: one.name, description: one.isMade ? one.theory : `${one.theory}, not proved or checked yet`, detail: `|- ${one.statement}`, one,
    })), { placeHolder: `${found.length} found` });
  const editor = vscode.window.activeTextEditor;
  if (chosen && chosen.one.location) {
    const target = await vscode.workspace.openTextDocument(vscode.Uri.parse(chosen.one.location.uri));
    await vscode.window.showTextDocument(target, { selection: range(chosen.one.location.range) });
  } else if (chosen && editor) {
    await editor.edit((edit) => edit.insert(editor.selection.active, chosen.label));
  }
}

// Shows the goals as the program says them, or again in the notation of the file.
function plain() {
  isPlain = !isPlain;
  return showGoals();
}

async function openGoals() {
  const document = await vscode.workspace.openTextDocument(GOALS);
  await vscode.window.showTextDocument(document, { viewColumn: vscode.ViewColumn.Beside, preserveFocus: true, preview: false });
  await showGoals();
}

// The program is started anew; and the bridge, where other words start it now.
function restart() {
  const isSame = bridge && JSON.stringify(command()) === begun;
  return isSame ? request('workspace/executeCommand', { command: 'holls.restart' }) : renew();
}

function renew() {
  stop();
  diagnostics.clear();
  return start();
}

function configured(event) {
  if (['holls.command', 'holls.server'].some((setting) => event.affectsConfiguration(setting))) renew();
}

function stop() {
  const last = bridge;
  bridge = null;
  if (last) last.stop();
}

// A request whose failure is no more than a missing answer.
async function request(method, params, refused = () => {}) {
  try {
    return bridge ? await bridge.request(method, params) : null;
  } catch (error) {
    refused(error);
    return null;
  }
}

// A request whose failure the editor tells.
function told(method, params) {
  return bridge ? bridge.request(method, params) : Promise.reject(new Error("the bridge doesn't run"));
}

function workspaceEdit(given) {
  const made = new vscode.WorkspaceEdit();
  for (const [uri, edits] of Object.entries(given.changes)) {
    edits.forEach((edit) => made.replace(vscode.Uri.parse(uri), range(edit.range), edit.newText));
  }
  return made;
}

const providers = {
  async hover(document, position) {
    const found = await request('textDocument/hover', at(document, position));
    return found && new vscode.Hover(new vscode.MarkdownString(found.contents.value), range(found.range));
  },
  async definition(document, position) {
    const found = await request('textDocument/definition', at(document, position));
    return found && new vscode.Location(vscode.Uri.parse(found.uri), range(found.range));
  },
  async symbols(document) {
    const found = await request('textDocument/documentSymbol', at(document)) || [];
    return found.map((one) => new vscode.DocumentSymbol(one.name, one.detail, one.kind - 1, range(one.range), range(one.selectionRange)));
  },
  async foldings(document) {
    const found = await request('textDocument/foldingRange', at(document)) || [];
    return found.map((one) => new vscode.FoldingRange(one.startLine, one.endLine,
      one.kind === 'comment' ? vscode.FoldingRangeKind.Comment : vscode.FoldingRangeKind.Region));
  },
  async completions(document, position) {
    const found = await request('textDocument/completion', at(document, position)) || [];
    return found.map((one) => Object.assign(
      new vscode.CompletionItem(one.label, one.kind - 1),
      { detail: one.detail, documentation: one.documentation, sortText: one.sortText },
      one.textEdit && { insertText: one.textEdit.newText, range: range(one.textEdit.range), filterText: one.filterText }));
  },
  async references(document, position) {
    const found = await request('textDocument/references', { ...at(document, position), context: { includeDeclaration: true } }) || [];
    return found.map((one) => new vscode.Location(vscode.Uri.parse(one.uri), range(one.range)));
  },
  async allSymbols(query) {
    const found = await request('workspace/symbol', { query }) || [];
    return found.map((one) => new vscode.SymbolInformation(
      one.name, one.kind - 1, one.containerName, new vscode.Location(vscode.Uri.parse(one.location.uri), range(one.location.range))));
  },
  async links(document) {
    const found = await request('textDocument/documentLink', at(document)) || [];
    return found.map((one) => new vscode.DocumentLink(range(one.range), vscode.Uri.parse(one.target)));
  },
  async actions(document, where) {
    const found = await request('textDocument/codeAction', { ...at(document), range: { start: where.start, end: where.end }, context: { diagnostics: [] } }) || [];
    return found.map((one) => {
      const action = new vscode.CodeAction(one.title, vscode.CodeActionKind.QuickFix);
      return Object.assign(action, one.edit ? { edit: workspaceEdit(one.edit) } : { found: one });
    });
  },
  // An action without an edit is a search, which is made once the action is chosen. What it tries is shown, and it can be ended.
  async action(action) {
    const shown = { location: vscode.ProgressLocation.Notification, title: action.found.title, cancellable: true };
    const found = await vscode.window.withProgress(shown, (progress, ending) => {
      searching = ({ token, value }) => {
        if (value.kind === 'begin') ending.onCancellationRequested(() => bridge && bridge.notify('window/workDoneProgress/cancel', { token }));
        if (value.message) progress.report({ message: value.message });
      };
      return request('codeAction/resolve', action.found, (error) => { vscode.window.showInformationMessage(error.message); });
    });
    searching = null;
    return Object.assign(action, found ? { edit: workspaceEdit(found.edit) } : {});
  },
  async mayRename(document, position) {
    return range(await told('textDocument/prepareRename', at(document, position)));
  },
  async rename(document, position, newName) {
    return workspaceEdit(await told('textDocument/rename', { ...at(document, position), newName }));
  },
  async signature(document, position) {
    const found = await request('textDocument/signatureHelp', at(document, position));
    if (!found) return null;
    const help = new vscode.SignatureHelp();
    help.signatures = found.signatures.map((one) => Object.assign(
      new vscode.SignatureInformation(one.label, one.documentation), { parameters: one.parameters.map((part) => new vscode.ParameterInformation(part.label)) }));
    return Object.assign(help, { activeSignature: found.activeSignature, activeParameter: found.activeParameter });
  },
  async lenses(document) {
    const found = await request('textDocument/codeLens', at(document)) || [];
    return found.map((one) => Object.assign(new vscode.CodeLens(range(one.range)), { found: one }));
  },
  async lens(lens) {
    const found = await request('codeLens/resolve', lens.found);
    lens.command = found ? found.command : { title: '', command: '' };
    return lens;
  },
};

function register() {
  const { languages, workspace, window, commands } = vscode;
  return [
    languages.registerHoverProvider(SELECTOR, { provideHover: providers.hover }),
    languages.registerDefinitionProvider(SELECTOR, { provideDefinition: providers.definition }),
    languages.registerDocumentSymbolProvider(SELECTOR, { provideDocumentSymbols: providers.symbols }),
    languages.registerFoldingRangeProvider(SELECTOR, { provideFoldingRanges: providers.foldings }),
    languages.registerCompletionItemProvider(SELECTOR, { provideCompletionItems: providers.completions }, '\\'),
    languages.registerReferenceProvider(SELECTOR, { provideReferences: providers.references }),
    languages.registerRenameProvider(SELECTOR, { prepareRename: providers.mayRename, provideRenameEdits: providers.rename }),
    languages.registerWorkspaceSymbolProvider({ provideWorkspaceSymbols: providers.allSymbols }),
    languages.registerDocumentLinkProvider(SELECTOR, { provideDocumentLinks: providers.links }),
    languages.registerCodeActionsProvider(SELECTOR, { provideCodeActions: providers.actions, resolveCodeAction: providers.action }),
    languages.registerSignatureHelpProvider(SELECTOR, { provideSignatureHelp: providers.signature }, ' ', '(', '[', '`'),
    languages.registerCodeLensProvider(SELECTOR, {
      onDidChangeCodeLenses: lensesChanged.event, provideCodeLenses: providers.lenses, resolveCodeLens: providers.lens,
    }),
    workspace.registerTextDocumentContentProvider('hol-goals', {
      onDidChange: goalsChanged.event, provideTextDocumentContent: () => goalsText,
    }),
    workspace.onDidChangeConfiguration(configured),
    workspace.onDidOpenTextDocument(opened),
    workspace.onDidChangeTextDocument(changed),
    workspace.onDidCloseTextDocument(closed),
    workspace.onDidSaveTextDocument((document) => bridge && isHol(document) && bridge.notify('textDocument/didSave', at(document))),
    window.onDidChangeTextEditorSelection(seen),
    window.onDidChangeTextEditorVisibleRanges(seen),
    window.onDidChangeActiveTextEditor(() => { showUnknown(); seen(); }),
    commands.registerCommand('holls.goals', openGoals),
    commands.registerCommand('holls.plain', plain),
    commands.registerCommand('holls.search', () => search(false)),
    commands.registerCommand('holls.searchConclusions', () => search(true)),
    commands.registerCommand('holls.restart', restart),
  ];
}

function activate(context) {
  diagnostics = vscode.languages.createDiagnosticCollection(LANGUAGE);
  context.subscriptions.push(diagnostics, goalsChanged, lensesChanged, ...register());
  return start();
}

module.exports = { activate, deactivate: stop };
