// What a hover says: Markdown as far as the bridge writes it, which is text and parts between ``` lines.
import { element } from './element.js';

export function hoverOf(text, term) {
  return text.split(/```(?:hol)?\n?/).map((part, at) => {
    const plain = part.replace(/\n+$/, '');
    if (!plain.trim()) return '';
    return at % 2 ? element('pre', {}, term(plain)) : element('p', {}, plain.trim());
  });
}
