// A theory of the page: its text, whether the bridge has it, and what the bridge has told of it.
import { Lines, middle, piecesOf } from './text.js';

const SEVERITIES = [null, 'error', 'warning', 'note', 'hint'];
const WAITING = 1; // The kinds of ranges that `$/hol/fileProgress` tells.
const RUNNING_LONG = 2;
const REFUSED = 3;
const IMPORT = /\bimport\s+([A-Za-z_][A-Za-z0-9_']*)/g;

export const isName = (text) => /^[A-Za-z_][A-Za-z0-9_']{0,63}$/.test(text);

export const uriOf = (name) => `hol:/${encodeURIComponent(name)}.hol`;

export const nameOf = (uri) => decodeURIComponent(/([^/]*)\.hol$/.exec(uri)?.[1] ?? '');

export class Theory {
  constructor(name, text) {
    Object.assign(this, { name, version: 0, isOpen: false, place: null });
    this.forget();
    this.set(text.replace(/\r\n?/g, '\n'));
  }

  get uri() {
    return uriOf(this.name);
  }

  // Nothing is told of it any more.
  forget() {
    Object.assign(this, { found: [], ranges: [], told: -1, progressed: -1, isOpen: false });
  }

  set(text) {
    Object.assign(this, { text, lines: new Lines(text), pieces: piecesOf(text) });
  }

  // Takes a text; answers the change as the protocol has it, or null. What is told elsewhere moves with the text.
  take(text) {
    const { start, old, fresh } = middle(this.text, text);
    if (!old && !fresh) return null;
    const range = { start: this.lines.position(start), end: this.lines.position(start + old) };
    this.set(text);
    this.version += 1;
    const moved = (one) => {
      if (one.end <= start) return one;
      return one.start >= start + old ? { ...one, start: one.start + fresh - old, end: one.end + fresh - old } : null;
    };
    this.found = this.found.map(moved).filter(Boolean);
    const ranges = this.ranges.map((one) => (one.kind === RUNNING_LONG ? { ...one, kind: WAITING } : one)); // Whether it runs on will be told.
    this.ranges = ranges.map((one) => moved(one) ?? { ...one, start: Math.min(one.start, start), end: Math.max(start + fresh, one.end + fresh - old) });
    return { range, text: text.slice(start, start + fresh) };
  }

  // The names that it may import; a comment or a quotation may have more.
  get imports() {
    return Array.from(this.text.matchAll(IMPORT), ([, name]) => name);
  }

  range({ start, end }) {
    return { start: this.lines.place(start), end: this.lines.place(end) };
  }

  takeDiagnostics(diagnostics) {
    this.found = diagnostics.map(({ range, severity, message }) => ({ ...this.range(range), severity: SEVERITIES[severity], text: message }));
    this.told = this.version;
  }

  takeProgress(processing) {
    this.progressed = this.version;
    this.ranges = processing.map(({ range, kind }) => ({ ...this.range(range), kind }));
  }

  get isDone() {
    return this.told === this.version && this.progressed === this.version && !this.ranges.some(({ kind }) => kind !== REFUSED);
  }

  get isSlow() {
    return this.ranges.some(({ kind }) => kind === RUNNING_LONG);
  }

  // The piece whose command is the last one that begins before a place, or at it; -1 where there is none.
  pieceAt(place) {
    let at = this.pieces.length - 1;
    while (at >= 0 && !(this.pieces[at].from >= 0 && this.pieces[at].from <= place)) at -= 1;
    return at;
  }

  // For each piece what became of its command, and what there is to say of it.
  tellings() {
    const found = this.pieces.map(() => []);
    const places = this.pieces.map(({ start }) => start);
    const at = (place) => {
      let [first, last] = [0, places.length];
      while (last - first > 1) {
        const half = (first + last) >> 1;
        if (places[half] <= place) first = half;
        else last = half;
      }
      return first;
    };
    for (const one of this.found) if (one.severity !== 'hint') found[at(one.start)].push(one);
    const kinds = this.pieces.map(() => 0);
    for (const { start, end, kind } of this.ranges) {
      for (let piece = at(start); piece < this.pieces.length && this.pieces[piece].start < end; piece += 1) kinds[piece] = kind;
    }
    return this.pieces.map(({ from }, piece) => ({ status: from < 0 || this.told < 0 ? '' : statusOf(kinds[piece], found[piece]), findings: found[piece] }));
  }
}

function statusOf(kind, found) {
  if (kind === WAITING) return 'pending';
  if (kind === RUNNING_LONG) return 'slow';
  if (found.some(({ severity }) => severity === 'error')) return 'error';
  if (kind === REFUSED) return found.some(({ severity }) => severity === 'warning') ? 'warning' : 'note';
  return 'ok';
}
