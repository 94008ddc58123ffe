// The look of a theory's text: one span for each piece (a command with what stands before it and its `;;`), with its words in colour,
// the places of findings underlined, a mark of what became of it, and the words of its error.

const WORDS = { commands: new Set(), declarations: new Set(), tacticals: new Set(), rules: new Set() };

// Takes the words of the notation that have a colour, as the bridge tells them.
export function colour(manual) {
  for (const kind of Object.keys(WORDS)) WORDS[kind] = new Set(Object.keys(manual[kind]));
}

const TOKEN = /`[^`]*`?|[A-Za-z_][A-Za-z0-9_']*/g;
const IN_QUOTATION = /(?<![A-Za-z0-9_'])(?:[0-9]+|if|then|else|let|in|and)(?![A-Za-z0-9_'])/g;
const ESCAPES = { '&': '&amp;', '<': '&lt;', '>': '&gt;' };
const SEVERITIES = ['error', 'warning', 'note'];
const MARKS = { ok: '✓', error: '✗', note: '·', pending: '…', slow: '⧗', warning: '!' };

export const escaped = (text) => text.replace(/[&<>]/g, (character) => ESCAPES[character]);

function classOf(word, isFirst) {
  if (isFirst && (WORDS.commands.has(word) || WORDS.declarations.has(word))) return 'command';
  if (WORDS.tacticals.has(word)) return 'tactical';
  if (WORDS.rules.has(word)) return 'rule';
  return word.endsWith('_TAC') ? 'function' : '';
}

// The ranges of a quotation at a place, with those of its numerals and words apart.
function quoted(text, start) {
  const found = [];
  let at = 0;
  for (const { 0: word, index } of text.matchAll(IN_QUOTATION)) {
    if (index > at) found.push([start + at, start + index, 'quotation']);
    found.push([start + index, start + index + word.length, 'quotation word']);
    at = index + word.length;
  }
  found.push([start + at, start + text.length, 'quotation']);
  return found;
}

// The coloured ranges of a piece's text, [start, end, class], in order. Comments are given, from the piece's start.
function coloured(text, comments) {
  const found = [];
  let at = 0;
  let isFirst = true;
  const plain = (end) => {
    for (const { 0: word, index } of text.slice(at, end).matchAll(TOKEN)) {
      const kind = word[0] === '`' ? 'quotation' : classOf(word, isFirst);
      isFirst = false;
      if (kind === 'quotation') found.push(...quoted(word, at + index));
      else if (kind) found.push([at + index, at + index + word.length, kind]);
    }
  };
  for (const [start, end] of comments) {
    plain(start);
    found.push([start, end, 'comment']);
    at = end;
  }
  plain(text.length);
  return found;
}

// Where underlines begin and end: the worst finding of each place.
function underlined(start, end, findings) {
  const over = findings.filter((finding) => finding.start < end && finding.end > start);
  return SEVERITIES.find((severity) => over.some((finding) => finding.severity === severity));
}

function segment(text, start, end, kind, findings) {
  if (start >= end) return '';
  if (!findings.length) return kind ? `<span class="${kind}">${escaped(text.slice(start, end))}</span>` : escaped(text.slice(start, end));
  const places = new Set([start, end]);
  for (const finding of findings) for (const place of [finding.start, finding.end]) if (place > start && place < end) places.add(place);
  const sorted = [...places].sort((one, other) => one - other);
  return sorted.slice(1).map((last, at) => {
    const first = sorted[at];
    const classes = [kind, underlined(first, last, findings)].filter(Boolean).join(' ');
    const shown = escaped(text.slice(first, last));
    return classes ? `<span class="${classes}">${shown}</span>` : shown;
  }).join('');
}

// The HTML of a piece: `places` has the start of its command, the end behind `;;` and whether the cursor is in it, or is null; `findings` are
// those of the piece; all from its start. The words of an error stand under the command if it has room there, else beside it.
export function painted(text, comments, places, status, findings, hasRoom) {
  const said = findings.find(({ severity }) => severity === 'error') ?? findings.find(({ severity }) => severity === 'warning');
  const stops = [];
  if (places) {
    const words = said ? `<i class="said ${said.severity}${hasRoom ? ' under' : ''}">${escaped(said.text)}</i>` : '';
    stops.push([places.start, `<i class="mark ${status}">${MARKS[status] ?? ''}</i><span${places.isCurrent ? ' class="current"' : ''}>`]);
    stops.push([places.end, `</span>${words}`]);
  }
  let html = '';
  let at = 0;
  const upTo = (end, kind) => {
    while (stops.length && stops[0][0] <= end) {
      const [place, extra] = stops.shift();
      html += segment(text, at, place, kind, findings) + extra;
      at = Math.max(at, place);
    }
    html += segment(text, at, end, kind, findings);
    at = Math.max(at, end);
  };
  for (const [start, end, kind] of coloured(text, comments)) {
    upTo(start, '');
    upTo(end, kind);
  }
  upTo(text.length, '');
  return html;
}
