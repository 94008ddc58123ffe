// What the browser keeps: the open theories and the lessons that are done; and theories as files and as links.
import { isName } from './theory.js';

const KEY = 'hol-serve';
const LINK = 'theory';
const NAME = 64;
const LINKED = 400000; // A link that holds more bytes of text is none.
const MOST = 64; // So many theories of a link are taken.

// What was kept, or what a first visit begins with.
export function restore() {
  try {
    const kept = JSON.parse(localStorage.getItem(KEY));
    const list = (value) => (Array.isArray(value) ? value : []);
    const tabs = list(kept?.tabs).filter((one) => typeof one?.name === 'string' && typeof one.text === 'string');
    return { tabs, active: kept?.active ?? '', done: list(kept?.done), hasSymbols: Boolean(kept?.hasSymbols) };
  } catch (error) {
    return { tabs: [], active: '', done: [], hasSymbols: false };
  }
}

// Keeps a state; answers whether there was room.
export function keep(state) {
  try {
    localStorage.setItem(KEY, JSON.stringify(state));
    return true;
  } catch (error) {
    return false;
  }
}

// Calls a function when another window keeps something: it would undo what this one keeps, and the other way round.
export function elsewhere(called) {
  window.addEventListener('storage', ({ key }) => key === KEY && called());
}

export function saveFile(name, text) {
  const address = URL.createObjectURL(new Blob([text], { type: 'text/plain;charset=utf-8' }));
  const link = document.createElement('a');
  link.href = address;
  link.download = `${name}.hol`;
  link.click();
  setTimeout(() => URL.revokeObjectURL(address), 10000);
}

// The name of a file's theory: the file's without its suffix, with _ for what can't be in a name.
export function nameOfFile(file) {
  const name = file.replace(/\.[^.]*$/, '').replace(/[^A-Za-z0-9_']/g, '_').slice(0, NAME);
  return isName(name) ? name : `_${name}`.slice(0, NAME);
}

// Bytes through a stream; null where more come of them than `most`.
async function through(bytes, stream, most = Infinity) {
  const reader = new Blob([bytes]).stream().pipeThrough(stream).getReader();
  const parts = [];
  let size = 0;
  for (let part = await reader.read(); !part.done; part = await reader.read()) {
    parts.push(part.value);
    size += part.value.length;
    if (size > most) return null;
  }
  return new Uint8Array(await new Blob(parts).arrayBuffer());
}

// Bytes as letters, digits, - and _, and back.
function letters(bytes) {
  const text = Array.from(bytes, (byte) => String.fromCharCode(byte)).join('');
  return btoa(text).replace(/\+/g, '-').replace(/\//g, '_').replace(/=+$/, '');
}

const bytesOf = (text) => Uint8Array.from(atob(text.replace(/-/g, '+').replace(/_/g, '/')), (character) => character.charCodeAt(0));

// A link to this page with theories in it: #theory=NAME.TEXT&theory=.., each text in UTF-8, deflated.
export async function linkOf(theories) {
  const parts = theories.map(async ({ name, text }) => {
    const deflated = await through(new TextEncoder().encode(text), new CompressionStream('deflate-raw'));
    return `${LINK}=${encodeURIComponent(name)}.${letters(deflated)}`;
  });
  return `${location.origin}${location.pathname}#${(await Promise.all(parts)).join('&')}`;
}

// The theories that a link's fragment holds; none where one of them can't be read, or they hold too much together.
export async function linked(fragment) {
  const found = [];
  let room = LINKED;
  for (const part of fragment.slice(1).split('&').slice(0, MOST)) {
    const [, name, data] = new RegExp(`^${LINK}=([^.]+)\\.([\\w-]+)$`).exec(part) ?? [];
    try {
      const inflated = name && await through(bytesOf(data), new DecompressionStream('deflate-raw'), room);
      if (!inflated) return [];
      room -= inflated.length;
      found.push({ name: decodeURIComponent(name), text: new TextDecoder('utf-8', { fatal: true }).decode(inflated) });
    } catch (error) {
      return [];
    }
  }
  return found;
}
