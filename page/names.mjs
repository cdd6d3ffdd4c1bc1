/** Paths and names of a tree: what they can be, and what is left out of one. */

const MOST_NAMES = 128;
const MOST_BYTES = 255;
const CONTROL = /[\u0000-\u001f\u007f]/;
const encoder = new TextEncoder();

/** Returns a path's names without empty ones and `.`, so that `a`, `./a` and `/a` are the same. */
export function namesOf(path) {
  return path.split('/').filter((name) => name !== '' && name !== '.');
}

/** Returns why names can't be a path of a tree, or null. */
export function faultOf(names) {
  if (names.length > MOST_NAMES) return `more than ${MOST_NAMES} names`;
  for (const name of names) {
    if (name === '..') return 'a path with ..';
    if (CONTROL.test(name)) return 'a name with a control character';
    if (name.includes('\ufffd')) return 'a name that is not UTF-8';
    if (encoder.encode(name).length > MOST_BYTES) return `a name of more than ${MOST_BYTES} bytes`;
  }
  return null;
}
