/**
 * Where the boxes of a graph are: in layers, each vertex below all that it needs; a wide layer has several rows. The
 * boxes of one row are as wide as its labels, if there is room. What is long is done by generators, in turns.
 */

import { atOnce } from './turns.mjs';

export const BOX = { width: 168, widest: 460, height: 54, across: 24, down: 46, margin: 24 };

const SWEEPS = 6;
const MOST_IN_ROW = 24;
// Widths of boxes are multiples of this, so that the rows of a graph look alike.
const PART = 36;
// The most rows that an edge goes through one by one.
const MOST_ROWS = 12;
// Edges in one gap are so many pixels apart, on so many tracks.
const SHIFT = 3;
const SHIFTS = 5;

// So many vertices, or edges, are gone over before the next turn.
const MOST_AT_ONCE = 1000;

// The layer of a vertex is the length of the longest way to it. Inputs have smaller numbers than their users.
function* layersOf(vertices) {
  const level = [];
  const layers = [];
  for (const { number, inputs } of vertices) {
    level[number] = inputs.reduce((most, { vertex }) => Math.max(most, level[vertex] + 1), 0);
    (layers[level[number]] ??= []).push(number);
    if (number % MOST_AT_ONCE === 0) yield;
  }
  return layers;
}

// The vertices above each vertex, and those below it.
function* joinedIn(vertices) {
  const [above, below] = [[], vertices.map(() => [])];
  for (const { number, inputs } of vertices) {
    above.push(inputs.map(({ vertex }) => vertex));
    for (const { vertex } of inputs) below[vertex].push(number);
    if (number % MOST_AT_ONCE === 0) yield;
  }
  return { above, below };
}

// Each layer is put in the order of the middles of what its vertices are joined with, down and up in turn.
function* ordered(layers, above, below) {
  const place = new Float64Array(above.length);
  const keys = new Float64Array(above.length);
  const put = (layer) => layer.forEach((vertex, i) => { place[vertex] = i - (layer.length - 1) / 2; });
  layers.forEach(put);
  const middle = (vertex, joined) => {
    const near = joined[vertex];
    return near.length ? near.reduce((sum, other) => sum + place[other], 0) / near.length : place[vertex];
  };
  for (let sweep = 0; sweep < SWEEPS; sweep += 1) {
    const isDown = sweep % 2 === 0;
    for (const layer of isDown ? layers : [...layers].reverse()) {
      for (const vertex of layer) keys[vertex] = middle(vertex, isDown ? above : below);
      layer.sort((a, b) => keys[a] - keys[b] || a - b);
      put(layer);
      yield;
    }
  }
}

// The rows of layers, none of which has too many boxes: a large graph is about as wide as it is high.
function* rowsOf(layers, vertices) {
  const square = Math.round(Math.sqrt((vertices * (BOX.height + BOX.down)) / (BOX.width + BOX.across)));
  const most = Math.max(MOST_IN_ROW, square);
  const rows = [];
  for (const layer of layers) {
    const length = Math.ceil(layer.length / Math.ceil(layer.length / most));
    for (let at = 0; at < layer.length; at += length) rows.push(layer.slice(at, at + length));
    yield;
  }
  return rows;
}

// How wide the boxes of a row are: as its labels want, if the row then is not wider than there is room.
function widthIn(vertices, room, wanted) {
  const most = Math.min(BOX.widest, Math.floor((room + BOX.across) / vertices.length) - BOX.across);
  if (most <= BOX.width) return BOX.width;
  const need = vertices.reduce((width, vertex) => Math.max(width, wanted(vertex)), BOX.width);
  return Math.min(most, BOX.width + Math.ceil((need - BOX.width) / PART) * PART);
}

// Where the box of each vertex is, by the widths of the rows.
function* boxesOf(rows, widths, sizes, width) {
  const boxes = [];
  for (const [row, vertices] of rows.entries()) {
    const left = BOX.margin + (width - sizes[row]) / 2;
    const y = BOX.margin + row * (BOX.height + BOX.down);
    vertices.forEach((vertex, column) => {
      const x = Math.round(left + column * (widths[row] + BOX.across));
      boxes[vertex] = { x, y, width: widths[row], row, column };
    });
    yield;
  }
  return boxes;
}

/**
 * Returns, when the generator ends, the rows of a graph, how wide the boxes of each are, each box's place by vertex,
 * and the size of the whole. `room` is how wide the window is, `wanted` returns how wide the label of a vertex is.
 */
export function* placing(graph, room, wanted) {
  const layers = yield* layersOf(graph.vertices);
  const { above, below } = yield* joinedIn(graph.vertices);
  yield* ordered(layers, above, below);
  const rows = yield* rowsOf(layers, graph.vertices.length);
  const longest = rows.reduce((most, vertices) => Math.max(most, vertices.length), 1);
  const most = Math.max(longest * (BOX.width + BOX.across) - BOX.across, room - 2 * BOX.margin);
  const widths = [];
  for (const vertices of rows) {
    widths.push(widthIn(vertices, most, wanted));
    yield;
  }
  const sizes = rows.map((vertices, row) => vertices.length * (widths[row] + BOX.across) - BOX.across);
  const width = sizes.reduce((one, other) => Math.max(one, other), 0);
  const boxes = yield* boxesOf(rows, widths, sizes, width);
  const height = 2 * BOX.margin + rows.length * (BOX.height + BOX.down) - BOX.down;
  return { rows, widths, boxes, below, width: width + 2 * BOX.margin, height };
}

/** Returns what `placing` does, at once. */
export function layout(graph, room = 0, wanted = () => BOX.width) {
  return atOnce(placing(graph, room, wanted));
}

// The middle of the gap of a row that is nearest to a place: between two boxes, or beside the first or the last one.
function gapNear(placed, row, x) {
  const step = placed.widths[row] + BOX.across;
  const vertices = placed.rows[row];
  const first = placed.boxes[vertices[0]].x - BOX.across / 2;
  return first + Math.min(vertices.length, Math.max(0, Math.round((x - first) / step))) * step;
}

// An edge over many rows goes beside all boxes, on the side that is nearer.
function sideNear(placed, x) {
  return x < placed.width / 2 ? BOX.margin / 2 : placed.width - BOX.margin / 2;
}

/**
 * Returns the way of an edge: places from the lower side of a box to the upper side of another one below. Between two
 * rows it bends, and through a row it goes straight down in a gap, so no edge passes behind a box. `shift` moves it in
 * its gaps, so that edges that share one stay apart.
 */
export function edgeWay(placed, from, to, shift = 0) {
  const [a, b] = [placed.boxes[from], placed.boxes[to]];
  const start = { x: a.x + a.width / 2, y: a.y + BOX.height };
  const end = { x: b.x + b.width / 2, y: b.y };
  const count = b.row - a.row;
  const topOf = (row) => BOX.margin + row * (BOX.height + BOX.down);
  const found = [start];
  if (count > MOST_ROWS) {
    const x = sideNear(placed, (start.x + end.x) / 2) + shift / 2;
    found.push({ x, y: topOf(a.row + 1) }, { x, y: topOf(b.row - 1) + BOX.height });
  } else {
    for (let row = a.row + 1; row < b.row; row += 1) {
      const wanted = start.x + ((end.x - start.x) * (row - a.row)) / count;
      const x = gapNear(placed, row, wanted) + shift;
      found.push({ x, y: topOf(row) }, { x, y: topOf(row) + BOX.height });
    }
  }
  return [...found, end];
}

/** Returns the edges of a graph, when the generator ends: each with its way, and the window that it lies in. */
export function* edgesIn(graph, placed) {
  const found = [];
  for (const { number, inputs } of graph.vertices) {
    for (const { vertex } of inputs) {
      const way = edgeWay(placed, vertex, number, ((found.length % SHIFTS) - (SHIFTS - 1) / 2) * SHIFT);
      let [left, right] = [way[0].x, way[0].x];
      for (const { x } of way) [left, right] = [Math.min(left, x), Math.max(right, x)];
      found.push({ from: vertex, to: number, way, left, right, top: way[0].y, bottom: way.at(-1).y });
      if (found.length % MOST_AT_ONCE === 0) yield;
    }
  }
  return found;
}

/** Returns the rows that a window of the layout touches: the first, and the last. */
export function rowsIn(placed, window) {
  const step = BOX.height + BOX.down;
  return [
    Math.max(0, Math.floor((window.top - BOX.margin - BOX.height) / step)),
    Math.min(placed.rows.length - 1, Math.ceil((window.bottom - BOX.margin) / step)),
  ];
}

/** Returns the vertices of a row whose boxes touch a window of the layout. */
export function boxesOfRow(placed, row, window) {
  const vertices = placed.rows[row];
  const step = placed.widths[row] + BOX.across;
  const start = placed.boxes[vertices[0]].x;
  const first = Math.max(0, Math.floor((window.left - start) / step));
  const last = Math.floor((window.right - start) / step);
  return vertices.slice(first, Math.max(first, last + 1));
}

/** Returns the vertices whose boxes touch a window of the layout, found by rows. */
export function boxesIn(placed, window) {
  const [first, last] = rowsIn(placed, window);
  const found = [];
  for (let row = first; row <= last; row += 1) found.push(...boxesOfRow(placed, row, window));
  return found;
}

/** Returns the vertex whose box is at a place of the layout, or null. */
export function vertexAt(placed, { x, y }) {
  const row = Math.floor((y - BOX.margin) / (BOX.height + BOX.down));
  if (row < 0 || row >= placed.rows.length) return null;
  return boxesOfRow(placed, row, { left: x, right: x }).find((vertex) => {
    const box = placed.boxes[vertex];
    return x >= box.x && x <= box.x + box.width && y <= box.y + BOX.height;
  }) ?? null;
}

/** Returns the vertex beside another one: an input of it (`up`), a user of it (`down`), or one of its row. */
export function neighbor(placed, graph, vertex, direction) {
  const box = placed.boxes[vertex];
  const row = placed.rows[box.row];
  if (direction === 'left') return row[box.column - 1] ?? vertex;
  if (direction === 'right') return row[box.column + 1] ?? vertex;
  const joined = direction === 'up' ? graph.vertices[vertex].inputs.map((one) => one.vertex) : placed.below[vertex];
  const middle = ({ x, width }) => x + width / 2;
  const far = (other) => Math.abs(middle(placed.boxes[other]) - middle(box)) + Math.abs(placed.boxes[other].y - box.y);
  return [...joined].sort((a, b) => far(a) - far(b))[0] ?? vertex;
}
