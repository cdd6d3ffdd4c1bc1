/**
 * The view *Graph*: vertices as boxes in layers. Only boxes and edges inside the window are in the page; from afar they
 * are painted, and none but the selected box is in the page.
 */

import { by, draw, make, oncePerFrame } from './dom.mjs';
import { colorsOf, paintBoxes, paintEdges, paintFound, paintLabels, viewOf } from './graph_paint.mjs';
import { GraphWindow } from './graph_window.mjs';
import { BOX, boxesIn, edgesIn, neighbor, placing, vertexAt } from './layout.mjs';
import { Overview } from './overview.mjs';
import { VertexSearch } from './vertex_search.mjs';

const AROUND = 120;
const MOST_OF_A_LINE = 60;
// Below this scale boxes are painted.
const FAR = 0.45;
// The labels of larger graphs are not measured.
const MOST_MEASURED = 5000;
// About as wide are a letter of a label, and what is beside it.
const LETTER = { width: 6.8, beside: 40 };
const MARKS = { none: '○', claim: '◐', settle: '●' };
const BREAK_WORDS = { none: 'no breakpoint', claim: 'stops when it is claimed', settle: 'stops when it is settled' };
const NEXT_BREAK = { none: 'claim', claim: 'settle', settle: 'none' };

function short(text) {
  return text.length > MOST_OF_A_LINE ? `${text.slice(0, MOST_OF_A_LINE - 1)}…` : text;
}

// A vertex by its number, or a row of a definition that is refused by its own.
function labelOf({ number, kind, row }) {
  return `${row === undefined ? number : `row ${row}`} ${kind}`;
}

function saidOf(entry) {
  return entry?.name || entry?.line || '';
}

// How wide the box of a vertex has to be so that its label is not cut.
function widthFor(vertex, entry) {
  return LETTER.beside + LETTER.width * Math.max(short(saidOf(entry)).length, labelOf(vertex).length + 12);
}

/** The view of a session's graph. `onSelect` is called with a vertex, `onBreak` with a vertex and a kind. */
export class GraphView {
  constructor(onSelect, onBreak) {
    this.frame = by('graph');
    this.space = by('graph-layer');
    this.edges = by('graph-edges');
    this.far = by('graph-far');
    this.onSelect = onSelect;
    this.onBreak = onBreak;
    this.shown = new Map();
    this.found = new Set();
    this.refresh = oncePerFrame(() => {
      const start = performance.now();
      this.render();
      this.frame.dataset.drawing = (performance.now() - start).toFixed(2);
    });
    this.window = new GraphWindow(this.refresh, (place) => this.press(place));
    this.overview = new Overview((place) => this.window.center(place));
    this.search = new VertexSearch((vertex) => this.go(vertex), (found) => this.mark(found));
    matchMedia('(prefers-color-scheme: dark)').addEventListener('change', () => this.recolor());
  }

  /** Returns where all of a graph is, when the generator ends. */
  * placing(graph, entries) {
    const isMeasured = graph.vertices.length <= MOST_MEASURED;
    const wanted = (vertex) => (isMeasured ? widthFor(graph.vertices[vertex], entries[vertex]) : BOX.width);
    const placed = yield* placing(graph, this.frame.clientWidth, wanted);
    return { placed, spans: yield* edgesIn(graph, placed) };
  }

  /**
   * Shows another graph, given where all of it is. `entries` has what the definition says of each vertex, `notes` what
   * BuildKit does.
   */
  open({ placed, spans }, graph, entries, notes = null) {
    this.graph = graph;
    this.entries = entries;
    this.notes = notes;
    this.placed = placed;
    this.spans = spans;
    this.selected = null;
    this.statuses = null;
    this.breaks = { claim: new Set(), settle: new Set() };
    for (const box of this.shown.values()) box.remove();
    this.shown.clear();
    this.lines = new Map();
    this.near = null;
    this.edgeWindow = '';
    this.edges.replaceChildren();
    this.edges.setAttribute('width', this.placed.width);
    this.edges.setAttribute('height', this.placed.height);
    this.colors = colorsOf(document.documentElement);
    this.window.open(this.placed);
    this.overview.open(this.placed);
    this.search.open(graph, entries, (vertex) => this.wordOf(vertex));
    this.render();
  }

  wordOf(vertex) {
    return this.statuses?.wordOf(vertex) ?? 'waiting';
  }

  recolor() {
    if (!this.graph) return;
    this.colors = colorsOf(document.documentElement);
    this.paintOverview();
    this.refresh();
  }

  // Selects the vertex at a place that was pressed beside the boxes of the page: one that is painted.
  press(place) {
    const vertex = this.window.scale < FAR ? vertexAt(this.placed, place) : null;
    if (vertex !== null) this.onSelect(vertex);
  }

  // Goes to a vertex, so near that it can be read.
  go(vertex) {
    if (this.window.scale < FAR) this.window.setScale(1);
    this.onSelect(vertex);
  }

  mark(found) {
    this.found = found;
    this.refresh();
  }

  /** Shows the statuses of the vertices, and breakpoints. */
  update(statuses, breaks) {
    this.statuses = statuses;
    this.breaks = breaks;
    this.paintOverview();
    this.refresh();
  }

  paintOverview() {
    this.overview.later(this.colors, (vertex) => this.wordOf(vertex), () => this.window.seen());
  }

  /** Selects a vertex, and scrolls to it if it is not seen. */
  select(vertex, focus = false) {
    if (vertex !== null && !this.placed.boxes[vertex]) return;
    this.selected = vertex;
    if (vertex !== null) this.reveal(vertex);
    this.render();
    if (focus) this.shown.get(vertex)?.querySelector('.vertex').focus({ preventScroll: true });
  }

  reveal(vertex) {
    const { x, y, width } = this.placed.boxes[vertex];
    const { left, top, right, bottom } = this.window.seen();
    if (x >= left && x + width <= right && y >= top && y + BOX.height <= bottom) return;
    this.window.center({ x: x + width / 2, y: y + BOX.height / 2 });
  }

  /** Draws what is inside the window. */
  render() {
    if (!this.graph) return;
    const window = this.window.seen(AROUND);
    const isFar = this.window.scale < FAR;
    const seen = new Set(isFar ? [] : boxesIn(this.placed, window));
    if (this.selected !== null) seen.add(this.selected);
    for (const [vertex, box] of this.shown) {
      if (!seen.has(vertex)) {
        box.remove();
        this.shown.delete(vertex);
      }
    }
    for (const vertex of seen) {
      if (!this.shown.has(vertex)) {
        this.shown.set(vertex, this.box(vertex));
        this.space.append(this.shown.get(vertex));
      }
      this.dress(vertex);
    }
    this.far.hidden = !isFar;
    if (isFar) this.paintFar();
    else this.renderEdges(window);
    this.edges.style.display = isFar ? 'none' : '';
    this.overview.mark(this.window.seen(), this.colors);
  }

  // Paints what is seen from afar.
  paintFar() {
    const { clientWidth: width, clientHeight: height } = this.frame;
    const ratio = devicePixelRatio;
    Object.assign(this.far, { width: width * ratio, height: height * ratio });
    Object.assign(this.far.style, { width: `${width}px`, height: `${height}px` });
    const context = this.far.getContext('2d');
    context.scale(ratio, ratio);
    const view = viewOf(this.window.seen(), { width, height }, this.window.scale);
    const isNear = ({ from, to }) => from === this.selected || to === this.selected;
    const paintNear = paintEdges(context, this.spans, view, this.colors, isNear);
    paintBoxes(context, this.placed, view, this.colors, (vertex) => this.wordOf(vertex));
    paintLabels(context, this.placed, view, this.colors, (vertex) => this.labelOf(vertex));
    paintNear();
    const marked = this.selected === null ? this.found : new Set([...this.found, this.selected]);
    paintFound(context, this.placed, view, this.colors, marked);
  }

  // Edges stay in the page while any part of the window that they lie in is seen. A step seldom moves the window.
  renderEdges(window) {
    const key = `${window.left} ${window.right} ${window.top} ${window.bottom}`;
    if (key !== this.edgeWindow) this.placeEdges(window);
    this.edgeWindow = key;
    if (this.near === this.selected) return;
    for (const [number, line] of this.lines) line.setAttribute('class', this.edgeClass(this.spans[number]));
    this.near = this.selected;
  }

  placeEdges(window) {
    this.spans.forEach((edge, number) => {
      const isSeen = edge.right >= window.left && edge.left <= window.right
        && edge.bottom >= window.top && edge.top <= window.bottom;
      const line = this.lines.get(number);
      if (!isSeen && line) {
        line.remove();
        this.lines.delete(number);
      } else if (isSeen && !line) {
        this.lines.set(number, this.edge(edge));
        this.edges.append(this.lines.get(number));
      }
    });
  }

  edgeClass({ from, to }) {
    return this.selected === from || this.selected === to ? 'edge near' : 'edge';
  }

  // The places of a way in pairs: from the first to the second it bends, and on to the next pair it goes straight down.
  edge(span) {
    const d = span.way.map(({ x, y }, i, way) => {
      if (i === 0) return `M${x} ${y}`;
      if (i % 2 === 0) return `V${y}`;
      const before = way[i - 1];
      const middle = (before.y + y) / 2;
      return `C${before.x} ${middle} ${x} ${middle} ${x} ${y}`;
    });
    return draw('path', { d: d.join(''), class: this.edgeClass(span) });
  }

  box(vertex) {
    const { x, y, width } = this.placed.boxes[vertex];
    const said = saidOf(this.entries[vertex]);
    const main = make(
      'button', { class: 'vertex', type: 'button', title: said, onclick: () => this.onSelect(vertex) },
      make('span', { class: 'vertex-name', text: this.labelOf(vertex) }), make('span', { class: 'vertex-status' }),
      make('span', { class: 'vertex-line', text: short(said) }),
    );
    main.addEventListener('keydown', (event) => this.key(event, vertex));
    // The graph has one stop for the Tab key, the selected vertex: the arrows go on, and `.` turns the breakpoint.
    const mark = make('button', { class: 'mark', type: 'button', tabindex: -1, onclick: () => this.turn(vertex) });
    const style = `left:${x}px;top:${y}px;width:${width}px`;
    return make('div', { class: 'box', style, 'data-vertex': vertex }, main, mark);
  }

  /** Returns the label of a vertex. */
  labelOf(vertex) {
    return labelOf(this.graph.vertices[vertex]);
  }

  breakOf(vertex) {
    if (this.breaks.claim.has(vertex)) return 'claim';
    return this.breaks.settle.has(vertex) ? 'settle' : 'none';
  }

  turn(vertex) {
    const next = NEXT_BREAK[this.breakOf(vertex)];
    this.onBreak(vertex, next === 'none' ? null : next);
  }

  dress(vertex) {
    const box = this.shown.get(vertex);
    const status = this.statuses?.of(vertex) ?? { word: 'waiting', worker: null, rest: '' };
    const words = status.worker === null ? status.word : `running, worker ${status.worker}`;
    const isResult = this.graph.result.startsWith(`${vertex}.`);
    const at = this.breakOf(vertex);
    const notes = this.notes?.of(vertex).length ?? 0;
    const isFound = this.found.has(vertex);
    const key = `${status.word} ${status.rest} ${at} ${this.selected === vertex} ${notes} ${isFound}`;
    if (box.dataset.key === key) return;
    box.dataset.key = key;
    const marks = [['selected', this.selected === vertex], ['result', isResult], ['found', isFound]];
    box.className = ['box', status.word, ...marks.filter(([, is]) => is).map(([name]) => name)].join(' ');
    const [main, mark] = box.children;
    box.querySelector('.vertex-name').textContent = `${this.labelOf(vertex)}${notes ? ' ≠' : ''}`;
    box.querySelector('.vertex-status').textContent = status.worker === null ? status.word : `worker ${status.worker}`;
    const entry = this.entries[vertex];
    const failed = status.word === 'failed' ? ` at ${status.rest}` : '';
    const { row } = this.graph.vertices[vertex];
    mark.hidden = row !== undefined;
    main.setAttribute('aria-label', `${row === undefined ? 'vertex ' : ''}${this.labelOf(vertex)}, ${words}${failed}`
      + `${entry?.name ? `, ${entry.name}` : ''}${isResult ? ', the result' : ''}`
      + `${notes ? `, ${notes} ${notes === 1 ? 'note' : 'notes'} of BuildKit` : ''}`);
    main.setAttribute('aria-pressed', String(this.selected === vertex));
    main.tabIndex = vertex === (this.selected ?? 0) ? 0 : -1;
    mark.textContent = MARKS[at];
    mark.className = `mark ${at}`;
    mark.title = BREAK_WORDS[at];
    mark.setAttribute('aria-label', `breakpoint of vertex ${vertex}: ${BREAK_WORDS[at]}`);
  }

  key(event, vertex) {
    const direction = { ArrowUp: 'up', ArrowDown: 'down', ArrowLeft: 'left', ArrowRight: 'right' }[event.key];
    if (event.ctrlKey || event.altKey || event.metaKey) return;
    if (event.key === '.') this.turn(vertex);
    if (!direction) return;
    event.preventDefault();
    event.stopPropagation();
    this.onSelect(neighbor(this.placed, this.graph, vertex, direction), true);
  }
}
