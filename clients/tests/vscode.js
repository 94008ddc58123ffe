'use strict';
// The VS Code extension over a stand-in for the module `vscode`: what it shows, as JSON on standard output. Run by test_vscode.py.

const Module = require('module');
const path = require('path');

const SECONDS = 240;
const [text, folder] = [process.env.TEXT, process.env.EXTENSION];
const about = require(path.join(folder, 'package.json'));
const given = JSON.parse(process.env.SETTINGS);
const providers = {};
const events = {};
const shown = [];
let settings = given;
let query = 'infinity';

class Position { constructor(line, character) { Object.assign(this, { line, character }); } }
class Range {
  constructor(a, b, c, d) { this.start = new Position(a, b); this.end = new Position(c, d); }
  toJSON() { return [this.start, this.end]; } // As VS Code's does.
}
class EventEmitter {
  constructor() { this.listeners = []; this.event = (listener) => this.listeners.push(listener); }
  fire(value) { this.listeners.forEach((listener) => listener(value)); }
  dispose() {}
}
const plain = (...names) => class { constructor(...values) { names.forEach((name, at) => { this[name] = values[at]; }); } };
const Uri = { parse: (uri) => ({ scheme: uri.split(':')[0], toString: () => uri }) };
const register = (name) => (...given) => { providers[name] = given[given.length - 1]; return { dispose() {} }; };
const on = (name) => (listener) => { events[name] = listener; return { dispose() {} }; };
const found = new Map();
const file = {
  languageId: 'hol', version: 1, uri: Uri.parse('file:///A.hol'), text,
  getText() { return this.text; }, lineAt(line) { return { text: this.text.split('\n')[line] }; },
};
const goals = { document: { uri: Uri.parse('hol-goals:goals'), languageId: 'plaintext' } };
const results = { searched: [], commands: [], tried: [] };
let endSearch = false; // Whether the user ends a search as soon as it has begun.
const typed = [];
const editor = {
  document: file, setDecorations: (kind, ranges) => { results.unknown = ranges.length; },
  edit: async (work) => work({
    insert: (position, text) => typed.push(text), replace: (range, text) => typed.push([range.start.character, range.end.character, text]),
  }),
  selection: { active: new Position(1, 2) }, visibleRanges: [new Range(0, 0, 9, 0)],
};

const vscode = {
  Position, Range, EventEmitter, Uri,
  Diagnostic: plain('range', 'message', 'severity'), Hover: plain('contents', 'range'), MarkdownString: plain('value'),
  Location: plain('uri', 'range'), DocumentSymbol: plain('name', 'detail', 'kind', 'range', 'selectionRange'),
  FoldingRange: plain('start', 'end', 'kind'), FoldingRangeKind: { Comment: 1, Region: 3 }, ProgressLocation: { Notification: 15 }, CompletionItem: plain('label', 'kind'),
  CodeLens: plain('range'), ViewColumn: { Beside: -2 }, SymbolInformation: plain('name', 'kind', 'containerName', 'location'),
  DocumentLink: plain('range', 'target'), CodeAction: plain('title', 'kind'), CodeActionKind: { QuickFix: 'quickfix' }, SignatureHelp: plain(),
  SignatureInformation: plain('label', 'documentation'), ParameterInformation: plain('label'),
  WorkspaceEdit: class { constructor() { this.edits = []; } replace(...edit) { this.edits.push(edit); } },
  languages: {
    createDiagnosticCollection: () => ({ set: (uri, all) => found.set(uri.toString(), all), clear: () => found.clear(), dispose() {} }),
    registerHoverProvider: register('hover'), registerDefinitionProvider: register('definition'),
    registerDocumentSymbolProvider: register('symbols'), registerFoldingRangeProvider: register('foldings'),
    registerCompletionItemProvider: (language, provider) => { providers.completions = provider; return { dispose() {} }; },
    registerCodeLensProvider: register('lenses'), registerReferenceProvider: register('references'),
    registerWorkspaceSymbolProvider: register('allSymbols'), registerDocumentLinkProvider: register('links'),
    registerCodeActionsProvider: register('actions'), registerRenameProvider: register('renames'),
    registerSignatureHelpProvider: (language, provider) => { providers.signature = provider; return { dispose() {} }; },
  },
  workspace: {
    getConfiguration: (section) => ({ get: (key) => setting(`${section}.${key}`, key) }), textDocuments: [file], openTextDocument: async () => goals.document,
    registerTextDocumentContentProvider: register('goals'), onDidOpenTextDocument: on('open'), onDidChangeTextDocument: on('change'),
    onDidCloseTextDocument: on('close'), onDidChangeConfiguration: on('configuration'), onDidSaveTextDocument: on('save'),
  },
  window: {
    activeTextEditor: editor, visibleTextEditors: [editor, goals], showTextDocument: async () => goals,
    withProgress: async (options, work) => work(
      { report: ({ message }) => results.tried.push(message) }, { onCancellationRequested: (end) => { if (endSearch) end(); } }),
    showInformationMessage: (message) => { results.told = message; },
    createTextEditorDecorationType: () => ({}), showInputBox: async () => query,
    showQuickPick: async (items) => { results.searched.push(items.map((one) => one.label)); return items[0]; },
    showErrorMessage: (message) => shown.push(message), onDidChangeTextEditorSelection: on('selection'),
    onDidChangeTextEditorVisibleRanges: on('visible'), onDidChangeActiveTextEditor: on('active'),
  },
  commands: { registerCommand: (name, work) => { providers[name] = work; results.commands.push(name); return { dispose() {} }; } },
};

// What a setting is: as it was set, or by what the extension's manifest says of it.
function setting(name, key) {
  const declared = about.contributes.configuration.properties[name];
  if (!declared) throw new Error(`the manifest has no setting ${name}`);
  return key in settings ? settings[key] : declared.default;
}

const load = Module._load;
Module._load = (name, ...rest) => (name === 'vscode' ? vscode : load(name, ...rest));
const extension = require(path.join(folder, about.main));

async function until(holds) {
  const end = Date.now() + SECONDS * 1000;
  while (!holds()) {
    if (Date.now() > end) throw new Error(`not within ${SECONDS} seconds: ${holds}`);
    await new Promise((go) => setTimeout(go, 20));
  }
}

const said = () => (found.get('file:///A.hol') || []).map((one) => [one.range.start.line, one.severity, one.message]);

async function run() {
  await extension.activate({ subscriptions: [] });
  await until(() => said().length === 1);
  results.before = said();
  await providers['holls.goals']();
  await until(() => providers.goals.provideTextDocumentContent() !== '');
  results.goals = providers.goals.provideTextDocumentContent();
  await providers['holls.plain'](); // What has no notation is the same in plain text.
  results.plain = providers.goals.provideTextDocumentContent();
  await providers['holls.plain']();
  events.open({ ...file, uri: Uri.parse('git:/A.hol?HEAD') }); // The version before, as it stands beside a file's changes.
  file.version = 2;
  events.change({ document: file, contentChanges: [{ range: new Range(2, 2, 2, 9), text: 'ALL_TAC' }] });
  await until(() => said().length === 1 && said()[0][0] === 0);
  results.after = said();
  results.hover = (await providers.hover.provideHover(file, new Position(1, 2))).contents.value;
  results.symbols = (await providers.symbols.provideDocumentSymbols(file)).map((one) => [one.name, one.kind]);
  results.lenses = (await providers.lenses.provideCodeLenses(file)).length;
  results.completions = (await providers.completions.provideCompletionItems(file, new Position(1, 2))).length > 40;
  results.actions = (await providers.actions.provideCodeActions(file, new Range(0, 0, 0, 1))).map((one) => [one.title, one.edit ? one.edit.edits[0][2] : 'a search']);
  let goal = 'p /\\ q';
  const search = async (text) => { // Of a proof of another goal in the first line, once the bridge has it.
    file.version += 1;
    events.change({ document: file, contentChanges: [{ range: new Range(0, 5, 0, 5 + goal.length), text }] });
    goal = text;
    results.told = '';
    for (;;) {
      const offered = (await providers.actions.provideCodeActions(file, new Range(0, 0, 0, 1))).find((one) => one.title === 'Find a proof');
      if (offered) return (await providers.actions.resolveCodeAction(offered)).edit;
      await new Promise((go) => setTimeout(go, 20));
    }
  };
  endSearch = true;
  await search('(!x:A. R x (f x)) /\\ (!x y z. R x y /\\ R y z ==> R x z) ==> ?x. R x x'); // Which has no proof, and is true of finitely many.
  results.ended = results.told;
  endSearch = false;
  results.found = (await search('x = x')).edits[0][2];
  await search('p /\\ q');
  results.why = results.told;
  const told = (answer) => answer.then((made) => made.edits || made, (error) => error.message);
  results.mayRename = (await told(providers.renames.prepareRename(file, new Position(0, 2)))).start.character;
  results.renamed = (await told(providers.renames.provideRenameEdits(file, new Position(0, 2), 'BETTER'))).map((edit) => edit[2]);
  results.notRenamed = await told(providers.renames.provideRenameEdits(file, new Position(0, 2), 'THEN'));
  results.symbolOf = (await providers.allSymbols.provideWorkspaceSymbols('a')).map((one) => one.name);
  results.references = (await providers.references.provideReferences(file, new Position(0, 2))).length;
  results.links = (await providers.links.provideDocumentLinks(file)).length;
  file.version += 1;
  events.change({ document: file, contentChanges: [{ range: new Range(3, 0, 3, 0), text: 'e MATCH_MP_TAC ' }] });
  results.signature = (await providers.signature.provideSignatureHelp(file, new Position(3, 15))).signatures[0].label;
  await providers['holls.search']();
  query = '_ ==> P (_)';
  await providers['holls.searchConclusions']();
  settings = { ...given, symbols: true };
  file.version += 1;
  file.text = 'g A `p /\\and \\forall ';
  for (const at of [12, 20]) events.change({ document: file, contentChanges: [{ range: new Range(0, at, 0, at), text: ' ' }] });
  await until(() => results.unknown === 0);
  results.settled = true; // Later another bridge begins, of which all is unknown at first.
  results.typed = typed;
  results.opened = [...found.keys()];
  extension.deactivate();
  settings = { command: ['/nowhere/holls'] };
  await extension.activate({ subscriptions: [] });
  await until(() => shown.length === 1);
  results.shown = shown;
  settings = given;
  events.configuration({ affectsConfiguration: (name) => name === 'holls.command' });
  await until(() => said().length);
  process.stdout.write(JSON.stringify(results));
}

run().then(() => process.exit(0), (error) => { process.stderr.write(`${error.stack}\n`); process.exit(1); });
