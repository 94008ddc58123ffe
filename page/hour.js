// The hours of lessons: a lesson's words, its hints step by step, and whether what it wants was made.
import { LESSONS, SECOND_BEGINS, given } from './lessons.js';
import { element } from './element.js';

const PREFIX = 'Lesson';
const THEOREM = /^thm (\S+) \|- /;
const DONE = '✓ Done: the prover has accepted it.';
const OWN_AXIOM = /^axiom:(?!(ETA_AX|SELECT_AX|INFINITY_AX)$)/;

// Whether items, on which a theorem rests, are known and none of them is an axiom of a theory.
const isFree = (items) => items !== null && !items.some((item) => OWN_AXIOM.test(item));

export const theoryOf = (number) => `${PREFIX}${number + 1}`;

// The number of the lesson that a theory is of, or -1.
export function lessonOf(name) {
  const number = new RegExp(`^${PREFIX}([0-9]+)$`).test(name) ? Number(name.slice(PREFIX.length)) - 1 : -1;
  return number < LESSONS.length ? number : -1;
}

export class Hour {
  // `done` are the numbers of the lessons that are done; `start(name, text, place, isAnew)` opens a lesson's theory with the cursor at a
  // place, `put(code)` writes at the cursor, `basis(theorem)` answers on what a theorem rests, and `passed(number)` is called when a
  // lesson is done.
  constructor({ pane, done, start, put, basis, passed }) {
    Object.assign(this, { pane, start, put, basis, passed, done: new Set(done), number: -1, hints: 0, checked: '' });
  }

  // Shows the lesson of a theory, or the list of all.
  show(name) {
    const number = lessonOf(name);
    if (number !== this.number) this.hints = 0;
    this.number = number;
    this.render();
  }

  render() {
    this.pane.replaceChildren(...(this.number < 0 ? this.overview() : this.lesson()));
  }

  overview() {
    const items = LESSONS.map(({ title }, number) => element('li', {},
      element('button', { onclick: () => this.begin(number) }, title),
      this.done.has(number) ? element('span', { className: 'done' }, ' ✓ done') : ''));
    return [
      element('h2', {}, 'A first hour'),
      element('p', {}, 'Ten lessons, from x = x to a definition and an induction. Each has a goal to prove, and is ticked off when the '
        + 'prover has accepted it.'),
      element('ol', { className: 'lessons' }, ...items.slice(0, SECOND_BEGINS)),
      element('h2', {}, 'A second hour'),
      element('p', {}, 'From definitions to a compiler that is proved correct: numbers, lists, types and relations of your own. An exercise has hints, and no '
        + 'answer to put in.'),
      element('ol', { className: 'lessons', start: SECOND_BEGINS + 1 }, ...items.slice(SECOND_BEGINS)),
    ];
  }

  lesson() {
    const { title, say, wanted, inNotation = wanted } = LESSONS[this.number];
    const isDone = this.done.has(this.number);
    const paragraphs = say.map((html) => element('p', { innerHTML: html }));
    const next = this.number + 1 < LESSONS.length ? 'Next lesson' : 'All lessons';
    return [
      element('h2', {}, `${this.number + 1}. ${title}`),
      ...paragraphs,
      element('p', {}, 'Wanted:'),
      element('ul', { className: 'wanted' }, ...inNotation.map((text) => element('li', {}, element('code', {}, text.replace(THEOREM, '$1: '))))),
      ...this.hintParts(),
      element('div', { className: 'foot' },
        element('p', { className: isDone ? 'verdict done' : 'verdict', id: 'verdict' }, isDone ? DONE : 'Not proved yet.'),
        element('p', { className: 'buttons' },
          element('button', { id: 'next', className: isDone ? 'main' : '', onclick: () => this.next() }, next),
          element('button', { onclick: () => this.begin(this.number, true) }, 'Begin anew'),
          element('button', { onclick: () => this.list() }, 'All lessons'))),
    ];
  }

  hintParts() {
    const { hints } = LESSONS[this.number];
    const shown = hints.slice(0, this.hints).map(({ say, code }) => element('li', {},
      element('p', { innerHTML: say }), ...(code ? [element('pre', {}, code),
        element('button', { onclick: () => this.put(code) }, 'Put it at the cursor')] : [])));
    const list = element('ol', { className: 'hints', 'aria-label': 'Hints', 'aria-live': 'polite' }, ...shown);
    if (this.hints === hints.length) return [list];
    const words = `${this.hints ? 'Next hint' : 'Show a hint'} (${this.hints + 1} of ${hints.length})`;
    return [list, element('button', { id: 'hint', onclick: () => this.hint() }, words)];
  }

  hint() {
    this.hints += 1;
    this.render();
    (this.pane.querySelector('#hint') ?? this.pane).focus();
  }

  begin(number, isAnew = false) {
    this.start(theoryOf(number), given(LESSONS[number]), LESSONS[number].given[0].length, isAnew);
  }

  next() {
    if (this.number + 1 < LESSONS.length) this.begin(this.number + 1);
    else this.list();
  }

  list() {
    this.number = -1;
    this.render();
    this.pane.focus();
  }

  // Ticks the lesson of a theory off, if what it wants was made in it, and without axioms of its own. `made()` answers a promise of the theorems
  // that stand there, each with its name and statement.
  async check(theory, made) {
    const number = lessonOf(theory.name);
    if (number < 0 || this.done.has(number) || this.checked === theory.text) return;
    const { text } = theory;
    const found = await made();
    const wanted = LESSONS[number].wanted.map((one) => found.find(({ name, statement }) => `thm ${name} |- ${statement}` === one));
    if (!wanted.every(Boolean)) return;
    const bases = await Promise.all(wanted.map((one) => this.basis(one)));
    if (theory.text !== text) return;
    this.checked = text;
    if (this.done.has(number) || !bases.every(isFree)) return;
    this.done.add(number);
    this.passed(number);
    if (number === this.number) this.render();
  }
}
