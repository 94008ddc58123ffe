// The help panel: commands, tactics, keys.
import { element } from './element.js';

const KEYS = [
  ['Ctrl+Space', 'completes a name'],
  ['Alt+Up, Alt+Down', 'goes to the command before or behind'],
  ['F4', 'shows the goals as the program says them, or again in notation'],
  ['F8, Shift+F8', 'goes to the next error, or the one before'],
  ['F1', 'tells what the name at the cursor is; so does the pointer, when it rests on one'],
  ['F2', 'goes to where the name at the cursor is made'],
  ['Alt+Enter', 'goes to what can be done about the line: quick fixes, and finding a proof'],
  ['Ctrl+S', 'saves the theory as a file'],
  ['\\forall, \\exists, \\and, \\or, \\not, \\implies, \\iff, \\lambda, \\to', 'become ∀ ∃ ∧ ∨ ¬ ⇒ ⇔ λ → as you type on'],
];
const TITLES = { commands: 'Commands', declarations: 'Declarations of notation', functions: 'Tactics', tacticals: 'Tacticals, which join tactics', rules: 'Theorems in place' };

const list = (rows) => element('dl', {}, ...rows.flatMap(([name, does]) => [element('dt', {}, element('code', {}, name)), element('dd', {}, does)]));

// `manual` is what the bridge tells of the words of the notation.
export function help(manual) {
  const words = Object.keys(TITLES).map((kind) => [kind, manual?.[kind] ?? {}]).map(([kind, entries]) => element('details', { open: kind === 'commands' },
    element('summary', {}, TITLES[kind]), list(Object.values(entries).map(({ form, does }) => [form, does]))));
  return [
    element('p', {}, 'A theory is a list of commands; each ends with ;; and comments (* .. *) may stand anywhere. The goals are those after '
      + 'the command at the cursor. Theories import others that are open here. All is kept in this browser alone.'),
    element('details', { open: true }, element('summary', {}, 'Keys'), list(KEYS)),
    ...words,
  ];
}
