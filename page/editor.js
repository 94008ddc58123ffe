// The editor: a textarea, and under it the same text in colour, piece by piece. `symbols` are those that a name behind a backslash becomes.
import { escaped, painted } from './paint.js';
import { middle } from './text.js';

const END = '\u200b'; // Behind the text, so that its last line is shown where it is empty.
const ROOM = /^[ \t]*(\n[ \t]*(\n|$)|$)/; // What stands behind a command with room under it for the words of its error.
const PREFIXES = new Set(['forall', 'exists', 'unique', 'lambda', 'select', 'not']);

export class Editor {
  constructor({ area, under, changed, moved }) {
    Object.assign(this, { area, under, changed, moved, shown: [], current: -1, theory: null, seen: new Set(), symbols: {} });
    this.watcher = new IntersectionObserver((entries) => this.watch(entries), { root: area.closest('#scroller'), rootMargin: '600px 0px' });
    area.addEventListener('input', (event) => this.input(event));
    for (const name of ['keyup', 'click', 'focus', 'select']) area.addEventListener(name, () => this.look());
    document.addEventListener('selectionchange', () => document.activeElement === area && this.look());
    this.place = -1;
  }

  get text() {
    return this.area.value;
  }

  get cursor() {
    return this.area.selectionStart;
  }

  // Shows another text, with the cursor at a place.
  show(text, place) {
    if (this.area.value !== text) this.area.value = text;
    this.area.setSelectionRange(place, place);
    this.place = place;
    this.current = -1;
  }

  // Puts a text in the place of a range, so that it can be undone.
  insert(text, start = this.cursor, end = this.area.selectionEnd) {
    this.area.focus();
    this.area.setSelectionRange(start, end);
    const isDone = text ? document.execCommand('insertText', false, text) : document.execCommand('delete');
    if (isDone) return;
    this.area.setRangeText(text, start, end, 'end');
    this.area.dispatchEvent(new Event('input'));
  }

  go(place) {
    this.area.focus();
    this.area.setSelectionRange(place, place);
    this.reveal(place);
    this.look();
  }

  look() {
    if (this.place === this.cursor) return;
    this.place = this.cursor;
    this.moved();
  }

  // A symbol's name behind a backslash becomes the symbol, once the next character is typed.
  input(event) {
    const { cursor, text } = this;
    const typed = event.inputType === 'insertText' || event.inputType === 'insertLineBreak';
    const found = typed ? /\\([a-z]+)[^a-z]$/.exec(text.slice(Math.max(0, cursor - 12), cursor)) : null;
    if (found && Object.hasOwn(this.symbols, found[1])) {
      const start = cursor - found[0].length;
      const isDropped = text[cursor - 1] === ' ' && PREFIXES.has(found[1]);
      this.insert(this.symbols[found[1]] + (isDropped ? '' : text[cursor - 1]), start, cursor);
      return;
    }
    this.place = cursor;
    this.changed();
    if (event.inputType !== 'insertText' || /\n/.test(event.data ?? '')) requestAnimationFrame(() => this.reveal(this.cursor));
  }

  // Shows the pieces of a theory, with what is told of each. Blocks that aren't near what is seen are text without colours or marks: so a
  // change has the browser lay out what is seen and no more.
  paint(theory, current = this.current) {
    const told = theory.tellings();
    const blocks = blocksOf(theory);
    const { start, old, fresh } = middle(this.shown.map(({ text }) => text), blocks.map(({ text }) => text));
    const both = Math.min(old, fresh);
    for (const { element: gone } of this.shown.slice(start + both, start + old)) {
      this.watcher.unobserve(gone);
      this.seen.delete(gone);
      gone.remove();
    }
    const next = this.shown[start + old]?.element ?? null;
    this.shown = blocks.map((block, at) => {
      const before = at < start + both ? this.shown[at] : at < start + fresh ? null : this.shown[at - fresh + old];
      return { ...block, element: before?.element ?? this.block(next), told: block.pieces.map((piece) => told[piece]) };
    });
    Object.assign(this, { theory, current });
    this.shown.forEach((block, at) => {
      block.element.at = at;
      if (this.seen.has(block.element)) this.draw(block);
      else if (block.element.shownText !== block.text) put(block.element, block.text, null);
    });
  }

  block(next) {
    const made = document.createElement('div');
    this.under.insertBefore(made, next);
    this.watcher.observe(made);
    return made;
  }

  // Colours a block that is seen, or will be soon.
  draw(block) {
    const hasRoom = ROOM.test(this.theory.text.slice(block.end, block.end + 200));
    const html = htmlOf(this.theory, block, hasRoom, this.current);
    if (block.element.shownHtml !== html) put(block.element, block.text, html);
  }

  watch(entries) {
    for (const { target, isIntersecting } of entries) {
      if (!isIntersecting) this.seen.delete(target);
      else if (target.isConnected) {
        this.seen.add(target);
        if (this.shown[target.at]?.element === target) this.draw(this.shown[target.at]);
      }
    }
  }

  // Marks the command of a piece as the one at the cursor.
  mark(piece) {
    if (piece === this.current) return;
    const changed = [this.current, piece];
    this.current = piece;
    for (const block of this.shown) if (this.seen.has(block.element) && block.pieces.some((one) => changed.includes(one))) this.draw(block);
  }

  // Where a place is on the screen: where the character behind it is, of which there always is one.
  rectangle(place) {
    let at = this.shown.findIndex(({ end }) => place < end);
    if (at < 0) at = this.shown.length - 1;
    if (at < 0) return this.area.getBoundingClientRect();
    let left = place - this.shown[at].start;
    const walker = document.createTreeWalker(this.shown[at].element, NodeFilter.SHOW_TEXT, (node) => (
      node.parentElement.closest('i') ? NodeFilter.FILTER_REJECT : NodeFilter.FILTER_ACCEPT));
    for (let node = walker.nextNode(); node; node = walker.nextNode()) {
      if (left < node.length) return rangeAt(node, left).getBoundingClientRect();
      left -= node.length;
    }
    return this.shown[at].element.getBoundingClientRect();
  }

  // The place of a point of the screen, or -1: that of the text in colour, which else no pointer meets.
  placeAt(x, y) {
    this.under.parentElement.classList.add('asked');
    const found = document.caretPositionFromPoint?.(x, y) ?? document.caretRangeFromPoint?.(x, y);
    this.under.parentElement.classList.remove('asked');
    const [node, offset] = [found?.offsetNode ?? found?.startContainer, found?.offset ?? found?.startOffset];
    const block = node?.parentElement?.closest('#under > div');
    const shown = block && this.shown[block.at];
    if (!shown || node.parentElement.closest('i')) return -1;
    let place = shown.start;
    const walker = document.createTreeWalker(block, NodeFilter.SHOW_TEXT, (one) => (
      one.parentElement.closest('i') ? NodeFilter.FILTER_REJECT : NodeFilter.FILTER_ACCEPT));
    for (let one = walker.nextNode(); one && one !== node; one = walker.nextNode()) place += one.length;
    return place + offset;
  }

  reveal(place) {
    const scroller = this.area.closest('#scroller');
    const { top, bottom } = this.rectangle(place);
    const outer = scroller.getBoundingClientRect();
    if (top < outer.top + 8) scroller.scrollTop -= outer.top + 40 - top;
    else if (bottom > outer.bottom - 8) scroller.scrollTop += bottom - outer.bottom + 40;
  }
}

function put(made, text, html) {
  if (html === null) made.textContent = text;
  else made.innerHTML = html;
  made.shownText = html === null ? text : null;
  made.shownHtml = html;
}

// The text in blocks of whole lines, which the browser lays out one by one: a piece, and those that begin in its last line. A line's end
// belongs to the line.
function blocksOf({ text, pieces }) {
  const found = [];
  pieces.forEach(({ start, end }, at) => {
    const rest = /^[ \t]*\n/.exec(text.slice(start, end))?.[0].length ?? -1;
    const last = found[found.length - 1];
    if (last) last.end = rest < 0 ? end : start + rest;
    if (last && rest < 0) last.pieces.push(at);
    else found.push({ start: start + (last ? rest : 0), end, pieces: [at] });
  });
  return found.map((block) => ({ ...block, text: text.slice(block.start, block.end) + (block === found[found.length - 1] ? END : '') }));
}

function htmlOf({ text, pieces }, block, hasRoom, current) {
  let html = '';
  let last = block.start;
  block.pieces.forEach((at, number) => {
    const piece = pieces[at];
    const start = Math.max(block.start, piece.start);
    const from = (place) => Math.max(0, Math.min(piece.end, place) - start);
    const trimmed = text.slice(piece.start, piece.end).trimEnd().length;
    const places = piece.from < 0 ? null : { start: from(piece.from), end: from(piece.start + trimmed), isCurrent: at === current };
    const { status, findings } = block.told[number];
    const own = findings.map((one) => ({ ...one, start: from(one.start), end: Math.max(from(one.end), from(one.start) + 1) }));
    const comments = piece.comments.map(([first, end]) => [from(first), from(end)]);
    html += painted(text.slice(start, piece.end), comments, places, status, own, hasRoom);
    last = piece.end;
  });
  return html + escaped(block.text.slice(last - block.start));
}

function rangeAt(node, offset) {
  const range = document.createRange();
  range.setStart(node, offset);
  range.setEnd(node, offset);
  return range;
}
