/** Contents of files side by side: as lines of text, in hexadecimal, or as pictures. */

import { make } from './dom.mjs';

const MOST_OF_A_PICTURE = 8192;

function rowElement({ lines, numbers, same }) {
  if (same) {
    const text = `${same} ${same === 1 ? 'line' : 'lines'} the same`;
    return make('tr', {}, make('td', { class: 'same', colspan: 4, text }));
  }
  const isSame = lines[0] === lines[1];
  const cells = ['removed', 'added'].flatMap((word, side) => {
    const line = lines[side];
    const name = isSame ? '' : line === null ? 'none' : word;
    const number = make('td', { class: `number ${name}`, text: numbers[side] ?? '' });
    return [number, make('td', { class: name, text: line ?? '' })];
  });
  return make('tr', {}, ...cells);
}

function table({ rows, more, isCut }) {
  const heads = ['before', 'after'].map((text) => make('th', { scope: 'col', colspan: 2, text }));
  const columns = ['number', '', 'number', ''].map((name) => make('col', { class: name }));
  const cut = isCut ? ', of the first 1,048,576 bytes' : '';
  return make('div', { class: 'contents-frame', tabindex: 0, role: 'group', 'aria-label': 'contents before and after' },
    make('table', { class: 'contents' }, make('colgroup', {}, ...columns),
      make('thead', {}, make('tr', {}, ...heads)), make('tbody', {}, ...rows.map(rowElement))),
    ...(more > 0 || isCut ? [make('p', { class: 'note', text: `and ${more} more rows${cut}` })] : []));
}

function urlOf(type, bytes) {
  let text = '';
  for (let at = 0; at < bytes.length; at += MOST_OF_A_PICTURE) {
    text += String.fromCharCode(...bytes.subarray(at, at + MOST_OF_A_PICTURE));
  }
  return `data:${type};base64,${btoa(text)}`;
}

function picture(side, given) {
  if (!given) return make('figure', {}, make('figcaption', { text: `${side}: none` }));
  const image = make('img', { src: urlOf(given.type, given.bytes), alt: `the picture ${side}` });
  return make('figure', {}, make('figcaption', { text: `${side}: ${given.bytes.length} bytes` }), image);
}

/**
 * Returns an element that shows two contents. `load` is called with whether they are wanted in hexadecimal, and returns
 * a promise of their rows and, where both are pictures, of these.
 */
export function contentsOf(load) {
  const place = make('div', { class: 'contents-of', 'aria-busy': 'true' });
  const show = async (wantsHex) => {
    const found = await load(wantsHex);
    const { isText, isHex, pictures } = found;
    const turn = make('button', {
      type: 'button', text: isHex ? 'As text' : 'In hexadecimal', disabled: !isText, onclick: () => show(!isHex),
    });
    const drawn = pictures ? [make('div', { class: 'pictures' },
      ...['before', 'after'].map((side, i) => picture(side, pictures[i])))] : [];
    place.replaceChildren(...drawn, turn, table(found));
    place.removeAttribute('aria-busy');
  };
  show(false);
  return place;
}
