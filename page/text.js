// A theory's text, as far as an editor has to know it: its lines, and the pieces that end with `;;`, which have colours and marks. What a
// command is, and what there is to say of it, the bridge knows.

const MARKS = /\(\*|\*\)|;;/g;
const SPACE = /^(?:\s|\ufeff|\0)*/;

// What differs of two lists, or texts: the common beginning, and how many elements of each follow before the common end.
export function middle(old, fresh) {
  const most = Math.min(old.length, fresh.length);
  let start = 0;
  while (start < most && old[start] === fresh[start]) start += 1;
  let end = 0;
  while (end < most - start && old[old.length - 1 - end] === fresh[fresh.length - 1 - end]) end += 1;
  return { start, old: old.length - start - end, fresh: fresh.length - start - end };
}

// The pieces of a text: { start, end, comments, from }, up to behind each `;;`, the last one to the text's end; comments nest. `from` is where
// a command begins in it, -1 where none does.
export function piecesOf(text) {
  const pieces = [];
  let [start, comments, depth, opened] = [0, [], 0, 0];
  const add = (end) => {
    let plain = text.slice(start, end);
    for (const [first, last] of comments) plain = plain.slice(0, first - start) + '\0'.repeat(last - first) + plain.slice(last - start);
    const lead = SPACE.exec(plain)[0].length;
    pieces.push({ start, end, comments, from: lead < plain.length && !plain.startsWith(';;', lead) ? start + lead : -1 });
    [start, comments] = [end, []];
  };
  for (const { 0: mark, index } of text.matchAll(MARKS)) {
    if (mark === '(*') {
      if (!depth) opened = index;
      depth += 1;
    } else if (mark === '*)' && depth) {
      depth -= 1;
      if (!depth) comments.push([opened, index + 2]);
    } else if (mark === ';;' && !depth) {
      add(index + 2);
    }
  }
  if (depth) comments.push([opened, text.length]);
  add(text.length);
  return pieces;
}

// Where the lines of a text begin, for places as the protocol has them: JavaScript's texts are of UTF-16 units, as those are.
export class Lines {
  constructor(text) {
    this.length = text.length;
    this.starts = [0, ...Array.from(text.matchAll(/\n/g), ({ index }) => index + 1)];
  }

  line(place) {
    let [first, last] = [0, this.starts.length];
    while (last - first > 1) {
      const half = (first + last) >> 1;
      if (this.starts[half] <= place) first = half;
      else last = half;
    }
    return first;
  }

  position(place) {
    const line = this.line(place);
    return { line, character: place - this.starts[line] };
  }

  place({ line, character }) {
    if (line >= this.starts.length) return this.length;
    return Math.min(this.starts[line] + character, line + 1 < this.starts.length ? this.starts[line + 1] - 1 : this.length);
  }
}
