// The page: the open theories, and what the bridge tells of them.
import { Choices } from './choices.js';
import { Editor } from './editor.js';
import { element } from './element.js';
import { Goals, said } from './goals.js';
import { help } from './help.js';
import { Hour, lessonOf, theoryOf } from './hour.js';
import { LESSONS, given } from './lessons.js';
import { Bridge } from './lsp.js';
import { colour } from './paint.js';
import { elsewhere, keep, linkOf, linked, nameOfFile, restore, saveFile } from './store.js';
import { Theory, isName, nameOf, uriOf } from './theory.js';
import { announce, keys, panels, tabs } from './frame.js';
import { hoverOf } from './hover.js';

const SETTLED = 200; // So many milliseconds after an edit what could be done is asked for, and what was found is searched anew.
const KEPT = 400; // So long after an edit all is kept.
const DWELL = 500; // So long a pointer rests before it is told what it is on.
const COMPLETIONS = 40;
const WARNING = 2; // What LSP calls a message that isn't an error.
const SECONDS = Number(new URLSearchParams(location.search).get('seconds')) || undefined;
const $ = (id) => document.getElementById(id);

// Calls a function once, some time after the last of some calls.
function later(milliseconds, act) {
  let timer = null;
  return () => {
    clearTimeout(timer);
    timer = setTimeout(act, milliseconds);
  };
}

class Page {
  constructor() {
    const kept = restore();
    this.theories = kept.tabs.map(({ name, text }) => new Theory(name, text));
    this.active = null;
    Object.assign(this, { failure: null, warning: null, isResting: false }); // What the banner tells.
    Object.assign(this, { asked: null, goalsOf: null, manual: null, isDrawn: true, saidTimer: null, searched: 0, fixing: 0 });
    this.bridge = new Bridge({
      options: { seconds: SECONDS, slow: 1, refused: true, mostCompletions: COMPLETIONS },
      heard: {
        'textDocument/publishDiagnostics': (params) => this.diagnostics(params),
        '$/hol/fileProgress': (params) => this.progress(params),
        '$/progress': ({ value }) => { $('progress').textContent = value.message ?? ''; },
        'window/showMessage': ({ type, message }) => (type === WARNING ? this.warn(message) : this.fail(message)),
        'workspace/codeLens/refresh': () => this.known(),
      },
      begun: (exercises) => this.begun(exercises),
      ended: (words) => this.ended(words),
    });
    this.goals = new Goals($('goals'));
    this.goals.hasSymbols = kept.hasSymbols;
    this.editor = new Editor({ area: $('text'), under: $('under'), changed: () => this.changed(), moved: () => this.moved() });
    this.choices = new Choices({ list: $('choices'), editor: this.editor, complete: (place) => this.complete(place) });
    this.hour = new Hour({
      pane: $('hour'), done: kept.done, start: (...lesson) => this.startLesson(...lesson), put: (code) => this.editor.insert(code),
      basis: (one) => this.basis(this.active.uri, one.name), passed: (number) => this.passed(number),
    });
    this.settled = later(SETTLED, () => {
      this.fixes();
      this.search();
    });
    this.keepSoon = later(KEPT, () => this.keep());
    this.rested = later(DWELL, () => this.hover(this.editor.placeAt(...this.pointer), this.pointer));
    this.frame();
    this.begin(kept.active);
    this.bridge.open();
  }

  frame() {
    keys($('keys'), (text) => this.editor.insert(text));
    panels($('panel-tabs'));
    $('help').replaceChildren(...help(null));
    const actions = {
      new: () => this.add(this.freeName('Theory'), ''),
      open: () => $('files').click(),
      save: () => saveFile(this.active.name, this.active.text),
      link: () => this.copyLink(),
      rename: () => this.rename(),
      close: () => this.close(this.active),
      symbols: () => this.toggleSymbols(),
      plain: () => this.togglePlain(),
      stop: () => this.bridge.request('workspace/executeCommand', { command: 'holls.stop' }),
    };
    for (const [id, action] of Object.entries(actions)) $(id).addEventListener('click', action);
    $('files').addEventListener('change', () => this.openFiles($('files').files));
    $('query').addEventListener('input', () => this.settled());
    document.addEventListener('dragover', (event) => event.preventDefault());
    document.addEventListener('drop', (event) => {
      event.preventDefault();
      this.openFiles(event.dataTransfer.files);
    });
    document.addEventListener('keydown', (event) => this.key(event));
    window.addEventListener('hashchange', () => this.openLink());
    window.addEventListener('pagehide', () => this.keep());
    $('text').addEventListener('pointermove', ({ clientX, clientY, pointerType }) => {
      $('hover').hidden = true;
      this.pointer = [clientX, clientY];
      if (pointerType === 'mouse') this.rested();
    });
    $('text').addEventListener('pointerleave', () => { this.pointer = [-1, -1]; });
    elsewhere(() => this.rest());
    $('symbols').setAttribute('aria-pressed', String(this.goals.hasSymbols));
  }

  // Another window goes on: what is written here isn't kept any more.
  rest() {
    if (this.isResting) return;
    this.isResting = true;
    this.banner();
  }

  banner() {
    const button = (words, onclick) => element('button', { onclick }, words);
    let parts = [];
    if (this.isResting) {
      parts = ['The page is open in another window, in which you went on. What is written here is not kept. ', button('Go on here', () => location.reload())];
    } else if (this.failure) {
      parts = [`The prover doesn't answer: ${this.failure}. `, button('Try again', () => this.again())];
    } else if (this.warning) {
      parts = [`${this.warning[0].toUpperCase()}${this.warning.slice(1)}. `, button('Close', () => this.warn(null))];
    }
    $('banner').replaceChildren(...parts);
    $('banner').hidden = !parts.length;
  }

  fail(words) {
    this.failure = words;
    this.banner();
  }

  warn(words) {
    this.warning = words;
    this.banner();
  }

  again() {
    this.fail(null);
    if (this.bridge.isBegun) this.bridge.request('workspace/executeCommand', { command: 'holls.restart' });
    else this.bridge.open();
  }

  async begin(active) {
    if (!this.theories.length) this.theories.push(new Theory(theoryOf(0), given(LESSONS[0])));
    const before = this.theories.find(({ name }) => name === active) ?? this.theories[0];
    if (!await this.openLink()) this.activate(before);
  }

  // The bridge

  // A bridge is there. It gets the theory that is shown, and those that are exercises, which the server follows.
  async begun(exercises) {
    this.fail(null);
    this.warn(null);
    for (const theory of this.theories) theory.forget();
    if (this.active) this.show();
    for (const theory of this.theories) if (exercises.includes(theory.name)) this.open(theory);
    this.manual ??= await this.bridge.request('hol/manual', {});
    if (!this.manual) return;
    colour(this.manual);
    this.editor.symbols = this.manual.symbols;
    $('help').replaceChildren(...help(this.manual));
    this.draw();
  }

  ended(words) {
    for (const theory of this.theories) theory.forget();
    this.asked = null;
    if (words) this.fail(words);
    this.draw();
  }

  // Opens a theory in the bridge, with those that it may import, which come first.
  open(theory) {
    if (theory.isOpen || !this.bridge.isBegun) return;
    theory.isOpen = true;
    for (const name of theory.imports) {
      const other = this.theories.find((one) => one.name === name);
      if (other) this.open(other);
    }
    const { uri, version, text } = theory;
    this.bridge.notify('textDocument/didOpen', { textDocument: { uri, languageId: 'hol', version, text } });
  }

  shut(theory) {
    if (theory.isOpen) this.bridge.notify('textDocument/didClose', { textDocument: { uri: theory.uri } });
    theory.forget();
  }

  of(uri) {
    return this.theories.find((theory) => theory.uri === uri);
  }

  diagnostics({ uri, version, diagnostics }) {
    const theory = this.of(uri);
    if (!theory || version !== theory.version) return;
    theory.takeDiagnostics(diagnostics);
    if (theory === this.active) this.news();
  }

  progress({ textDocument: { uri, version }, processing }) {
    const theory = this.of(uri);
    if (!theory || version !== theory.version) return;
    theory.takeProgress(processing);
    if (theory === this.active) this.news();
  }

  // What is told of the active theory is drawn with the browser's next picture, and not for each message.
  news() {
    if (!this.isDrawn) return;
    this.isDrawn = false;
    requestAnimationFrame(() => this.draw());
  }

  draw() {
    this.isDrawn = true;
    if (!this.active) return;
    this.editor.paint(this.active, this.active.pieceAt(this.editor.cursor));
    this.errors();
    $('stop').hidden = !this.active.isSlow;
    if (this.active.isDone) this.settled();
  }

  // All is known, of what the bridge has, which may be exercises alone before a theory is shown.
  known() {
    const { active } = this;
    $('progress').textContent = '';
    if (!active) return;
    this.hour.check(active, async () => {
      const lenses = await this.bridge.request('textDocument/codeLens', { textDocument: { uri: active.uri } });
      return (lenses ?? []).map(({ data }) => data);
    });
  }

  get isDone() {
    return this.asked === null && this.isDrawn && this.theories.every((theory) => !theory.isOpen || theory.isDone) && this.active.isOpen;
  }

  async basis(uri, name) {
    return (await this.bridge.request('codeLens/resolve', { data: { uri, name } }))?.data.items ?? null;
  }

  // Theories

  freeName(base) {
    const names = this.theories.map(({ name }) => name);
    if (base !== 'Theory' && !names.includes(base)) return base;
    let number = base === 'Theory' ? 1 : 2;
    while (names.includes(`${base}${number}`)) number += 1;
    return `${base}${number}`;
  }

  add(name, text) {
    const theory = new Theory(name, text);
    this.theories.push(theory);
    this.activate(theory);
    this.editor.area.focus();
  }

  activate(theory, place = theory.place ?? theory.text.length) {
    if (this.active) this.active.place = this.editor.cursor;
    this.active = theory;
    this.editor.show(theory.text, place);
    this.tabs();
    this.hour.show(theory.name);
    if (lessonOf(theory.name) >= 0) $('tab-hour').click();
    $('text').setAttribute('aria-label', `Text of the theory ${theory.name}`);
    this.show();
    this.keepSoon();
  }

  show() {
    this.bridge.wake();
    this.open(this.active);
    this.goalsOf = null;
    this.draw();
    this.moved();
    this.known();
  }

  tabs() {
    tabs($('tabs'), this.theories, this.active, (theory) => this.activate(theory));
  }

  close(theory) {
    if (theory.text.trim() && lessonOf(theory.name) < 0 && !window.confirm(`Close ${theory.name}? What isn't saved as a file is lost.`)) return;
    const at = this.theories.indexOf(theory);
    this.theories.splice(at, 1);
    this.shut(theory);
    if (!this.theories.length) this.theories.push(new Theory('Theory1', ''));
    this.active = null;
    this.activate(this.theories[Math.min(at, this.theories.length - 1)]);
  }

  rename() {
    const name = window.prompt('The theory’s name:', this.active.name)?.trim();
    if (!name || name === this.active.name) return;
    if (!isName(name) || this.theories.some((theory) => theory.name === name)) {
      this.tell(`${name} can't be its name: it has to be letters, digits, _ or ' behind a letter or _, and no other theory's.`);
      return;
    }
    const renamed = new Theory(name, this.active.text);
    renamed.place = this.editor.cursor;
    this.shut(this.active);
    this.theories[this.theories.indexOf(this.active)] = renamed;
    this.active = null;
    this.activate(renamed);
  }

  async openFiles(files) {
    for (const file of files) this.take(nameOfFile(file.name), await file.text());
    $('files').value = '';
  }

  // Opens a text under a name: the theory of that name if it has the same text, else another one.
  take(name, text) {
    const same = this.theories.find((theory) => theory.name === name && theory.text === text);
    if (same) this.activate(same);
    else this.add(this.freeName(name), text);
  }

  async openLink() {
    const found = await linked(location.hash);
    if (location.hash) history.replaceState(null, '', location.pathname + location.search);
    for (const { name, text } of found) this.take(nameOfFile(name), text);
    return found.length > 0;
  }

  // A theory behind the open ones that it imports, by way of others too.
  withImports(theory, seen = new Set()) {
    seen.add(theory);
    const imported = theory.imports.map((name) => this.theories.find((one) => one.name === name));
    return [...imported.flatMap((one) => (one && !seen.has(one) ? this.withImports(one, seen) : [])), theory];
  }

  async copyLink() {
    const link = await linkOf(this.withImports(this.active));
    this.link = link;
    try {
      await navigator.clipboard.writeText(link);
      this.tell(`A link that holds ${this.active.name} was copied (${link.length} characters).`);
    } catch (error) {
      window.prompt('The link:', link);
    }
  }

  startLesson(name, text, place, isAnew) {
    const before = this.theories.find((theory) => theory.name === name);
    if (before && !isAnew) {
      this.activate(before);
    } else if (before) {
      this.activate(before);
      this.editor.insert(text, 0, before.text.length);
    } else {
      this.add(name, text);
    }
    if (this.active.text === text) this.editor.go(place);
    this.editor.area.focus();
  }

  keep() {
    if (this.isResting || !this.active) return;
    const tabs = this.theories.map(({ name, text }) => ({ name, text }));
    const isKept = keep({ tabs, active: this.active.name, done: [...this.hour.done], hasSymbols: this.goals.hasSymbols });
    if (!isKept) this.tell('The browser keeps no more text: save the theory as a file.');
  }

  // Goes to a place that the bridge names: of a theory of the library a copy is opened.
  async goTo({ uri, range }) {
    const name = nameOf(uri);
    let theory = this.theories.find((one) => one.name === name);
    if (!theory && uri !== uriOf(name)) {
      const text = await fetch(`theories/${encodeURIComponent(name)}.hol`);
      if (!text.ok) return;
      theory = new Theory(name, await text.text());
      this.theories.push(theory);
    }
    if (!theory) return;
    if (theory !== this.active) this.activate(theory);
    this.editor.go(theory.lines.place(range.start));
  }

  // At the cursor

  changed() {
    const { active } = this;
    const change = active.take(this.editor.text);
    this.bridge.wake();
    if (change && active.isOpen) {
      const { uri, version } = active;
      for (const name of active.imports) {
        const other = this.theories.find((one) => one.name === name);
        if (other) this.open(other);
      }
      this.bridge.notify('textDocument/didChange', { textDocument: { uri, version }, contentChanges: [change] });
    }
    this.askGoals();
    this.editor.paint(active, active.pieceAt(this.editor.cursor));
    $('hover').hidden = true;
    $('stop').hidden = true;
    $('fixes').replaceChildren(); // They are of the text before.
    this.fixing += 1;
    this.choices.typed();
    this.settled();
    this.keepSoon();
  }

  moved() {
    this.editor.mark(this.active.pieceAt(this.editor.cursor));
    this.askGoals();
    this.settled();
  }

  at(place = this.editor.cursor) {
    return { textDocument: { uri: this.active.uri }, position: this.active.lines.position(place) };
  }

  // Asks for the goals after the command at the cursor, unless these are what is shown.
  async askGoals() {
    const { active } = this;
    const piece = active.pieceAt(this.editor.cursor);
    const key = `${active.name} ${active.version} ${piece} ${this.editor.cursor >= (active.pieces[piece]?.from ?? 0)}`;
    if (key === this.goalsOf || !active.isOpen) return;
    this.goalsOf = key;
    this.goals.wait();
    if (this.asked) this.bridge.cancel(this.asked.number);
    const asked = this.bridge.request('proof/goals', { ...this.at(), plain: this.goals.isPlain });
    this.asked = asked;
    const answer = await asked;
    if (this.asked !== asked) return;
    this.asked = null;
    if (!answer) return;
    const start = answer.range && active.lines.place(answer.range.start);
    const word = answer.range ? /^\w*/.exec(active.text.slice(start, start + 40))[0] : '';
    this.goals.show(answer, answer.range ? `made by ${word} on line ${answer.range.start.line + 1}` : '');
    announceSoon(this, said(answer));
  }

  errors() {
    const { active } = this;
    const told = active.found.filter(({ severity }) => severity === 'error' || severity === 'warning');
    const items = told.map(({ start, severity, text }) => element('li', { className: severity },
      element('button', { onclick: () => this.editor.go(start) }, `Line ${active.lines.line(start) + 1}: ${text}`)));
    const list = $('errors');
    if (list.textContent !== items.map(({ textContent }) => textContent).join('')) list.replaceChildren(...items);
  }

  // What could be done about the command at the cursor: quick fixes, and finding a proof.
  async fixes() {
    this.fixing += 1;
    const { fixing, active } = this;
    const { textDocument } = this.at();
    const { from, end } = active.pieces[active.pieceAt(this.editor.cursor)] ?? { from: 0, end: 0 };
    const range = { start: active.lines.position(from), end: active.lines.position(end) };
    const found = active.isOpen ? await this.bridge.request('textDocument/codeAction', { textDocument, range, context: { diagnostics: [] } }) : [];
    if (fixing !== this.fixing) return;
    const buttons = (found ?? []).map((action) => element('button', { onclick: (event) => this.fix(action, event.target) }, action.title));
    const before = [...$('fixes').children].map(({ textContent }) => textContent).join('\n');
    const isSame = before === buttons.map(({ textContent }) => textContent).join('\n') && this.fixedVersion === active.version;
    this.fixedVersion = active.version;
    if (!isSame) $('fixes').replaceChildren(...buttons);
  }

  async fix(action, button) {
    let { edit } = action;
    const { active } = this;
    if (!edit) {
      const asked = this.bridge.request('codeAction/resolve', action, (words) => this.tell(words));
      button.textContent = 'Searching … end it';
      button.onclick = () => this.bridge.cancel(asked.number);
      edit = (await asked)?.edit;
      this.fixedVersion = -1;
      this.settled();
    }
    if (!edit || active !== this.active) return;
    const edits = (edit.changes[active.uri] ?? []).map(({ range, newText }) => ({ ...active.range(range), newText }));
    for (const { start, end, newText } of edits.sort((one, other) => other.start - one.start)) this.editor.insert(newText, start, end);
  }

  async complete(place) {
    const found = this.active.isOpen ? await this.bridge.request('textDocument/completion', this.at(place)) : null;
    return (found?.items ?? []).map(({ label, detail, documentation, textEdit }) => (
      { name: textEdit?.newText ?? label, told: textEdit ? label : documentation && !/ of /.test(documentation) ? `${detail}: ${documentation}` : detail }));
  }

  // Tells what stands at a place, beside a point of the screen.
  async hover(place, [x, y]) {
    if (place < 0 || !this.active.isOpen) return;
    const answer = await this.bridge.request('textDocument/hover', this.at(place));
    if (!answer) return;
    const box = $('hover');
    box.replaceChildren(...hoverOf(answer.contents.value, (text) => this.goals.term(text)));
    box.hidden = false;
    box.style.left = `${Math.max(4, Math.min(x, window.innerWidth - box.offsetWidth - 12))}px`;
    box.style.top = `${y + 18 + box.offsetHeight > window.innerHeight ? Math.max(4, y - box.offsetHeight - 12) : y + 18}px`;
    announce(box.textContent);
  }

  async search() {
    if ($('theorems').hidden || !this.bridge.isBegun) return;
    this.searched += 1;
    const { searched } = this;
    const query = $('query').value.trim();
    let told = '';
    const waits = setTimeout(() => { $('found').textContent = 'Searching …'; }, SETTLED);
    const found = await this.bridge.request('hol/search', { query: query || '_' }, (words) => { told = words; }) ?? [];
    clearTimeout(waits);
    if (searched !== this.searched) return;
    $('found').textContent = told || (found.length === 1 ? '1 theorem' : `${found.length} theorems`);
    const key = JSON.stringify(found.map(({ name, statement, theory }) => [name, statement, theory]));
    if (key === this.listed) return;
    this.listed = key;
    $('list').replaceChildren(...found.map((one) => this.theorem(one)));
  }

  theorem({ name, statement, theory, location: where }) {
    const put = element('button', { title: 'write its name at the cursor', onclick: () => this.editor.insert(name) }, name);
    const rests = element('span', { className: 'rests' });
    const small = (words, onclick) => element('button', { className: 'small', onclick }, words);
    const tell = async () => { rests.textContent = `rests on ${(await this.basis(where.uri, name))?.join(', ') || 'nothing of its own'}`; };
    const isOpen = where && this.of(where.uri);
    const from = where ? small(theory, () => this.goTo(where)) : element('small', {}, theory);
    const more = isOpen ? [from, ' ', small('rests on …', tell), ' ', rests] : [from];
    return element('li', {}, put, ' ', ...more, element('pre', {}, this.goals.term(statement)));
  }

  passed(number) {
    this.keep();
    this.tabs();
    announce(`Lesson ${number + 1} is done.`);
  }

  tell(text) {
    $('progress').textContent = text;
    announce(text);
  }

  toggleSymbols() {
    this.goals.hasSymbols = !this.goals.hasSymbols;
    $('symbols').setAttribute('aria-pressed', String(this.goals.hasSymbols));
    this.goalsOf = null;
    this.listed = null;
    this.askGoals();
    this.search();
    this.keep();
  }

  // Shows the goals as the program says them, or again in the notation of the theory.
  togglePlain() {
    this.goals.isPlain = !this.goals.isPlain;
    $('plain').setAttribute('aria-pressed', String(this.goals.isPlain));
    this.goalsOf = null;
    this.askGoals();
  }

  key(event) {
    const { active, editor } = this;
    if (event.key === 's' && (event.ctrlKey || event.metaKey)) {
      saveFile(active.name, active.text);
    } else if (event.key === 'F1') {
      const { left, top } = editor.rectangle(editor.cursor);
      this.hover(editor.cursor, [left, top]);
    } else if (event.key === 'F2') {
      this.bridge.request('textDocument/definition', this.at()).then((found) => found && this.goTo(found));
    } else if (event.key === 'F4') {
      this.togglePlain();
    } else if (event.key === 'Escape') {
      $('hover').hidden = true;
      return;
    } else if (event.key === 'Enter' && event.altKey) {
      $('fixes').querySelector('button')?.focus();
    } else if (event.key === 'F8') {
      const places = active.found.filter(({ severity }) => severity === 'error' || severity === 'warning').map(({ start }) => start);
      const next = event.shiftKey ? places.reverse().find((place) => place < editor.cursor) : places.find((place) => place > editor.cursor);
      if (places.length) editor.go(next ?? places[0]);
    } else if (event.altKey && (event.key === 'ArrowUp' || event.key === 'ArrowDown')) {
      const step = event.key === 'ArrowUp' ? -1 : 1;
      let at = active.pieceAt(editor.cursor) + step;
      while (active.pieces[at]?.from < 0) at += step;
      if (active.pieces[at]) editor.go(active.pieces[at].from);
    } else {
      return;
    }
    event.preventDefault();
  }
}

function announceSoon(page, text) {
  if (!text || text === page.lastSaid) return;
  clearTimeout(page.saidTimer);
  page.saidTimer = setTimeout(() => {
    page.lastSaid = text;
    announce(text);
  }, 700);
}

window.page = new Page();
