// The list of names that complete what is typed. Focus stays in the text; the list follows the pattern of a listbox with an active descendant.
import { element } from './element.js';

const WORD = /(?:\\[a-z]*|[A-Za-z_][A-Za-z0-9_']*)$/;

export class Choices {
  // `complete(place)` answers a promise of what may stand at a place, each with a name and with what is told of it.
  constructor({ list, editor, complete }) {
    Object.assign(this, { list, editor, complete, found: [], word: '', at: -1, isChosen: false, asked: 0 });
    const { area } = editor;
    area.addEventListener('keydown', (event) => this.key(event));
    area.addEventListener('blur', () => this.hide());
    list.addEventListener('pointerdown', (event) => {
      event.preventDefault();
      const at = [...list.children].indexOf(event.target.closest('li'));
      if (at >= 0) this.take(at);
    });
    area.setAttribute('aria-controls', list.id);
    area.setAttribute('aria-autocomplete', 'list');
  }

  get isOpen() {
    return !this.list.hidden;
  }

  // After something was typed.
  typed() {
    const { editor } = this;
    const before = editor.text.slice(Math.max(0, editor.cursor - 3), editor.cursor);
    if (/[A-Za-z_][A-Za-z0-9_']+$|\\[a-z]+$/.test(before)) this.show(false);
    else this.hide();
  }

  async show(isAsked) {
    const { editor } = this;
    const word = WORD.exec(editor.text.slice(Math.max(0, editor.cursor - 80), editor.cursor))?.[0] ?? '';
    this.asked += 1;
    const { asked } = this;
    const place = editor.cursor;
    const all = isAsked || word ? await this.complete(place) : [];
    if (asked !== this.asked || place !== editor.cursor) return;
    const found = all.length === 1 && all[0].name === word ? [] : all;
    if (!found.length) {
      this.hide();
      return;
    }
    Object.assign(this, { word, found, at: 0, isChosen: isAsked });
    this.list.replaceChildren(...found.map(({ name, told }, at) => element('li', { id: `choice-${at}`, role: 'option' },
      element('b', {}, name), ' ', element('small', {}, told))));
    this.list.hidden = false;
    const sheet = this.list.parentElement.getBoundingClientRect();
    const { left, bottom } = this.editor.rectangle(this.editor.cursor - word.length);
    this.list.style.left = `${Math.max(0, Math.min(left - sheet.left, sheet.width - this.list.offsetWidth - 4))}px`;
    this.list.style.top = `${bottom - sheet.top + 2}px`;
    this.choose(0);
  }

  hide() {
    this.asked += 1;
    if (!this.isOpen) return;
    this.list.hidden = true;
    this.editor.area.removeAttribute('aria-activedescendant');
  }

  choose(at) {
    this.at = (at + this.found.length) % this.found.length;
    [...this.list.children].forEach((item, place) => item.setAttribute('aria-selected', String(place === this.at)));
    this.list.children[this.at].scrollIntoView({ block: 'nearest' });
    this.editor.area.setAttribute('aria-activedescendant', `choice-${this.at}`);
  }

  take(at) {
    const { editor, found, word } = this;
    this.hide();
    editor.insert(found[at].name, editor.cursor - word.length, editor.cursor);
    this.hide();
  }

  key(event) {
    if (event.key === ' ' && event.ctrlKey) {
      event.preventDefault();
      this.show(true);
    } else if (this.isOpen) {
      this.keyInList(event);
    }
  }

  // Enter takes a name only where one was asked for or gone to, since else a new line is meant.
  keyInList(event) {
    const moves = { ArrowDown: 1, ArrowUp: -1 };
    if (event.key in moves && !event.altKey) {
      this.isChosen = true;
      this.choose(this.at + moves[event.key]);
    } else if (event.key === 'Tab' || (event.key === 'Enter' && this.isChosen)) {
      this.take(this.at);
    } else if (event.key === 'Escape') {
      this.hide();
    } else {
      return;
    }
    event.preventDefault();
    event.stopPropagation();
  }
}
