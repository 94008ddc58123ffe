// The goals after a command, as they are shown.
import { element } from './element.js';

const SYMBOL = /<=>|==>|<=|>=|\\\/|\/\\|->|\?!|[!?\\@~]|(?<![\w'])(?:IN|UNION|INTER|DIFF|P?SUBSET)(?![\w'])/g;
const SYMBOLS = {
  '<=': '≤', '>=': '≥', IN: '∈', UNION: '∪', INTER: '∩', DIFF: '∖', SUBSET: '⊆', PSUBSET: '⊂',
  '<=>': '⇔', '==>': '⇒', '\\/': '∨', '/\\': '∧', '->': '→', '?!': '∃!', '!': '∀', '?': '∃', '\\': 'λ', '@': 'ε', '~': '¬',
};

// A term or type with symbols. The `?` of a type variable `?0` stays.
export const symbolic = (text) => text.replace(SYMBOL, (found, at) => (found === '?' && /[0-9]/.test(text[at + 1] ?? '') ? found : SYMBOLS[found]));

export class Goals {
  constructor(pane) {
    Object.assign(this, { pane, hasSymbols: false, isPlain: false, key: null, answer: null, shownAt: null }); // shownAt: after so many milliseconds the first state was shown
  }

  term(text) {
    return this.hasSymbols ? symbolic(text) : text;
  }

  // What is shown isn't what stands there any more.
  wait() {
    this.pane.classList.add('unknown');
  }

  // Shows an answer to `proof/goals`, with words on the command that it is after.
  show(answer, after) {
    this.pane.classList.remove('unknown');
    this.answer = answer;
    const key = JSON.stringify([answer.goals, answer.messages, answer.error, answer.text, after, this.hasSymbols]);
    if (key === this.key) return;
    this.key = key;
    this.shownAt ??= Math.max(1, Math.round(performance.now()));
    const refused = answer.error ? [element('p', { className: 'refused' }, answer.error)] : [];
    this.pane.replaceChildren(...refused, ...this.parts(answer, after));
  }

  parts({ goals, messages }, after) {
    if (messages.length) return [element('p', { className: 'after' }, after), ...messages.map((entry) => element('pre', { className: 'made' }, this.term(entry)))];
    if (!goals) return [element('p', {}, 'No proof is open. Begin one by ', element('code', {}, 'g NAME `term`;;'))];
    if (!goals.goals.length) return [element('p', { className: 'done' }, 'No goals are left: end the proof by ', element('code', {}, 'qed;;'))];
    const shown = goals.goals.map((goal, at) => this.goal(goal, at, goals.goals.length + (goals.more ?? 0)));
    return goals.more ? [...shown, element('p', {}, `and ${goals.more} more`)] : shown;
  }

  // A goal: its variables, its assumptions from the oldest, a line, the conclusion.
  goal({ hyps, ty: conclusion }, at, count) {
    const isAssumption = ({ names: [name] }) => /^[0-9]/.test(name);
    const variables = hyps.filter((one) => !isAssumption(one)).map(({ names: [name], ty }) => this.term(`${name} : ${ty}`));
    const assumed = hyps.filter(isAssumption).map(({ ty }) => element('li', {}, element('code', {}, this.term(ty))));
    const title = count > 1 ? `Goal ${at + 1} of ${count}` : '1 goal';
    return element('article', { className: at ? 'goal later' : 'goal', 'aria-label': title },
      element('h3', {}, title),
      ...(variables.length ? [element('p', { className: 'variables' }, element('code', {}, variables.join('   ')))] : []),
      ...(assumed.length ? [element('ul', { className: 'assumptions', 'aria-label': 'Assumptions' }, ...assumed)] : []),
      element('pre', { className: 'conclusion', 'aria-label': 'Conclusion' }, this.term(conclusion)));
  }
}

// An answer in a sentence, for a screen reader.
export function said({ goals, messages, error }) {
  if (error) return error;
  if (messages.length) return `made ${messages.join(', ')}`;
  if (!goals) return 'no proof is open';
  if (!goals.goals.length) return 'no goals are left';
  const { length } = goals.goals;
  const [{ ty }] = goals.goals;
  return `${length === 1 ? '1 goal' : `${length} goals`}: ${ty.length < 300 ? ty : `${ty.slice(0, 300)} ..`}`;
}
