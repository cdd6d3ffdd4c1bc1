/**
 * Painting of a graph from afar: a rectangle for each box in the color of its status, without a box in the page. Boxes
 * that touch in the picture are one rectangle, so 65,535 vertices are a few thousand at most.
 */

import { BOX, boxesOfRow, rowsIn } from './layout.mjs';
import { atOnce } from './turns.mjs';

const WORDS = ['unneeded', 'waiting', 'ready', 'done', 'taken', 'blocked', 'running', 'failed', 'refused'];
// These are painted over all others.
const LAST = new Set(['running', 'failed', 'refused']);
const LEAST_TEXT = 13;
const MOST_EDGES = 3000;
// In each turn the rows of about so many boxes are gone over, or so many rectangles painted.
const MOST_BOXES = 2000;
const MOST_RECTANGLES = 500;

/** Returns the colors of the page's statuses, edges, texts and marks, as they are now. */
export function colorsOf(element) {
  const style = getComputedStyle(element);
  const color = (name) => style.getPropertyValue(`--${name}`).trim();
  const like = { unneeded: 'waiting', taken: 'done', refused: 'failed' };
  const statuses = WORDS.map((word) => {
    const name = like[word] ?? word;
    return [word, { edge: color(name), fill: color(`${name}-box`) }];
  });
  return { of: Object.fromEntries(statuses), line: color('waiting'), near: color('accent'), text: color('ink') };
}

/** A view of a layout: what is at the left and top of a picture, how large the picture is, and its scales. */
export function viewOf({ left, top }, { width, height }, scaleX, scaleY = scaleX) {
  return { left, top, right: left + width / scaleX, bottom: top + height / scaleY, width, height, scaleX, scaleY };
}

// Rectangles by status, of a view that is `left` pixels from the left of the picture. One that is at the same pixels as
// the one before is left out.
class Rectangles {
  constructor() {
    this.of = new Map(WORDS.map((word) => [word, []]));
    this.left = 0;
    this.counts = new Map(WORDS.map((word) => [word, 0]));
  }

  // The words in the order in which they are painted: what is seldom is seen among thousands of others.
  order() {
    const rank = (word) => (LAST.has(word) ? WORDS.indexOf(word) : -this.counts.get(word));
    return [...WORDS].sort((a, b) => rank(a) - rank(b));
  }

  add(word, count, x, y, width, height) {
    const list = this.of.get(word);
    this.counts.set(word, this.counts.get(word) + count);
    const last = list.at(-1);
    if (last && last.x === x && last.y === y && last.width === width) return;
    list.push({ x, y, width, height });
  }
}

// The rectangles of a row, each of as many boxes beside one another as have one status and no gap that is seen.
function addRow(found, placed, row, view, wordOf) {
  const vertices = boxesOfRow(placed, row, view);
  if (!vertices.length) return;
  const touch = BOX.across * view.scaleX < 1;
  const { y } = placed.boxes[vertices[0]];
  const top = Math.round((y - view.top) * view.scaleY);
  const height = Math.max(1, Math.round(BOX.height * view.scaleY));
  const put = (word, from, to) => {
    const left = Math.round(found.left + (placed.boxes[from].x - view.left) * view.scaleX);
    const last = placed.boxes[to];
    const right = Math.round(found.left + (last.x + last.width - view.left) * view.scaleX);
    const count = last.column - placed.boxes[from].column + 1;
    found.add(word, count, left, top, Math.max(1, right - left), height);
  };
  let [from, to, word] = [vertices[0], vertices[0], wordOf(vertices[0])];
  for (const vertex of vertices.slice(1)) {
    const next = wordOf(vertex);
    if (!touch || next !== word) {
      put(word, from, to);
      [from, word] = [vertex, next];
    }
    to = vertex;
  }
  put(word, from, to);
}

function* painting(context, found, colors, isSmall) {
  for (const word of found.order()) {
    const { edge, fill } = colors.of[word];
    context.fillStyle = isSmall ? edge : fill;
    context.strokeStyle = edge;
    for (const [number, { x, y, width, height }] of found.of.get(word).entries()) {
      context.fillRect(x, y, width, height);
      if (!isSmall) context.strokeRect(x + 0.5, y + 0.5, width - 1, height - 1);
      if (number % MOST_RECTANGLES === 0) yield;
    }
  }
}

/**
 * Paints the boxes that views of one layout touch, each view at its place from the left, when the generator ends: in
 * each turn it goes over the rows of so many boxes. `wordOf` returns the word of a vertex's status.
 */
export function* paintingColumns(context, placed, columns, colors, wordOf) {
  const found = new Rectangles();
  let count = 0;
  for (const [left, view] of columns) {
    const [first, last] = rowsIn(placed, view);
    for (let row = first; row <= last; row += 1) {
      found.left = left;
      addRow(found, placed, row, view, wordOf);
      count += placed.rows[row].length;
      if (count >= MOST_BOXES) {
        yield;
        count = 0;
      }
    }
  }
  yield* painting(context, found, colors, BOX.height * columns[0][1].scaleY < 4);
}

/** Paints the boxes that a view touches. */
export function paintBoxes(context, placed, view, colors, wordOf) {
  atOnce(paintingColumns(context, placed, [[0, view]], colors, wordOf));
}

/** Paints the labels of the boxes that a view touches, where they can be read. */
export function paintLabels(context, placed, view, colors, labelOf) {
  if (BOX.height * view.scaleY < LEAST_TEXT) return;
  const [first, last] = rowsIn(placed, view);
  context.fillStyle = colors.text;
  context.font = `${Math.min(13, Math.round(BOX.height * view.scaleY * 0.7))}px system-ui, sans-serif`;
  context.textBaseline = 'middle';
  for (let row = first; row <= last; row += 1) {
    for (const vertex of boxesOfRow(placed, row, view)) {
      const { x, y, width } = placed.boxes[vertex];
      const [left, middle] = [(x - view.left) * view.scaleX + 4, (y - view.top + BOX.height / 2) * view.scaleY];
      context.fillText(labelOf(vertex), left, middle, width * view.scaleX - 8);
    }
  }
}

/** Paints edges along their ways; those of the selected vertex alone, if there are too many to tell them apart. */
export function paintEdges(context, edges, view, colors, isNear) {
  const seen = edges.filter(({ left, right, top, bottom }) => (
    right >= view.left && left <= view.right && bottom >= view.top && top <= view.bottom));
  const line = (list, color, width) => {
    context.strokeStyle = color;
    context.lineWidth = width;
    context.beginPath();
    for (const { way } of list) {
      way.forEach(({ x, y }, i) => {
        const [left, top] = [(x - view.left) * view.scaleX, (y - view.top) * view.scaleY];
        if (i === 0) context.moveTo(left, top);
        else context.lineTo(left, top);
      });
    }
    context.stroke();
  };
  if (seen.length <= MOST_EDGES) line(seen, colors.line, Math.max(0.3, view.scaleX));
  return () => line(seen.filter(isNear), colors.near, 1.5);
}

/** Paints a frame about each of some vertices, so large that it is seen. */
export function paintFound(context, placed, view, colors, vertices) {
  context.strokeStyle = colors.near;
  context.lineWidth = 2;
  for (const vertex of vertices) {
    const box = placed.boxes[vertex];
    const [x, y] = [(box.x - view.left) * view.scaleX, (box.y - view.top) * view.scaleY];
    const [width, height] = [box.width * view.scaleX, BOX.height * view.scaleY];
    const isSeen = x + width >= 0 && x <= view.width && y + height >= 0 && y <= view.height;
    if (isSeen) context.strokeRect(x - 3, y - 3, width + 6, height + 6);
  }
}
