// Parts of the page that need no theory: the bar of symbols, the panels, the tabs, and what a screen reader is told.
import { element } from './element.js';
import { lessonOf } from './hour.js';

const KEYS = ['∀', '∃', 'λ', '∧', '∨', '¬', '⇒', '⇔', '`', ';;\n'];
const NAMES = {
  '∀': 'for all', '∃': 'there is', λ: 'lambda', '∧': 'and', '∨': 'or', '¬': 'not', '⇒': 'implies', '⇔': 'if and only if',
  '`': 'backquote', ';;\n': 'end of the command',
};

export function announce(text) {
  document.getElementById('announced').textContent = text;
}

// The bar of symbols: one stop for Tab, arrows within it.
export function keys(bar, put) {
  bar.replaceChildren(...KEYS.map((text, at) => element('button', {
    tabIndex: at ? -1 : 0, 'aria-label': NAMES[text], title: NAMES[text],
    onpointerdown: (event) => event.preventDefault(), onclick: () => put(text),
  }, text.trim())));
  arrows(bar);
}

// Left and right go from button to button.
function arrows(bar, chosen = () => {}) {
  bar.addEventListener('keydown', (event) => {
    const moves = { ArrowRight: 1, ArrowLeft: -1 };
    if (!(event.key in moves)) return;
    const buttons = [...bar.querySelectorAll('button')];
    const at = buttons.indexOf(document.activeElement);
    const next = buttons[(at + moves[event.key] + buttons.length) % buttons.length];
    for (const button of buttons) button.tabIndex = button === next ? 0 : -1;
    next.focus();
    chosen(next);
    event.preventDefault();
  });
}

export function panels(bar) {
  const buttons = [...bar.querySelectorAll('[role=tab]')];
  const choose = (chosen) => {
    for (const button of buttons) {
      button.setAttribute('aria-selected', String(button === chosen));
      button.tabIndex = button === chosen ? 0 : -1;
      document.getElementById(button.getAttribute('aria-controls')).hidden = button !== chosen;
    }
    document.getElementById('query').dispatchEvent(new Event('input'));
  };
  for (const button of buttons) button.addEventListener('click', () => choose(button));
  arrows(bar, choose);
}

export function tabs(bar, theories, active, activate) {
  const hadFocus = bar.contains(document.activeElement);
  bar.replaceChildren(...theories.map((theory) => element('button', {
    role: 'tab', tabIndex: theory === active ? 0 : -1, 'aria-selected': String(theory === active), 'aria-controls': 'editing',
    className: lessonOf(theory.name) < 0 ? '' : 'lesson', onclick: () => activate(theory),
  }, theory.name)));
  if (!bar.dataset.isReady) arrows(bar, (button) => button.click());
  bar.dataset.isReady = 'yes';
  if (hadFocus) bar.querySelector('[aria-selected=true]').focus();
}
