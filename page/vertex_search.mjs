/** The search for a vertex: by its number, its name, what it does, its kind, or its status. */

import { by, make } from './dom.mjs';

const MOST = 50;
const SLICE = 15;
const PAUSE = 120;

/** The view of the search. `onVertex` is called with a vertex to go to, `onFound` with all that were found. */
export class VertexSearch {
  constructor(onVertex, onFound) {
    this.onVertex = onVertex;
    this.onFound = onFound;
    this.found = [];
    this.texts = [];
    this.asked = 0;
    by('find').addEventListener('input', () => {
      clearTimeout(this.waits);
      this.waits = setTimeout(() => this.search(), PAUSE);
    });
    by('find-form').addEventListener('submit', (event) => {
      event.preventDefault();
      this.next();
    });
  }

  /** Begins anew with another graph. `entries` has what the definition says of each vertex, `wordOf` its status. */
  open(graph, entries, wordOf) {
    this.graph = graph;
    this.entries = entries;
    this.wordOf = wordOf;
    this.texts = [];
    by('find').value = '';
    this.search();
  }

  // What is searched of a vertex, but for its status. It is read once.
  textOf(vertex) {
    this.texts[vertex] ??= [this.graph.vertices[vertex].kind, this.entries[vertex]?.name, this.entries[vertex]?.line]
      .filter(Boolean).join('\n').toLowerCase();
    return this.texts[vertex];
  }

  isFound(vertex, text) {
    const { row } = this.graph.vertices[vertex];
    return String(row ?? vertex) === text || this.wordOf(vertex) === text || this.textOf(vertex).includes(text);
  }

  /** Searches, in slices: 65,535 vertices are read one by one. */
  async search() {
    clearTimeout(this.waits);
    this.waits = null;
    this.asked += 1;
    const { asked } = this;
    const text = by('find').value.trim().toLowerCase();
    const found = [];
    let end = performance.now() + SLICE;
    for (let vertex = 0; text !== '' && vertex < this.graph.vertices.length; vertex += 1) {
      if (this.isFound(vertex, text)) found.push(vertex);
      if (performance.now() > end) {
        await new Promise((done) => { setTimeout(done); });
        if (asked !== this.asked) return;
        end = performance.now() + SLICE;
      }
    }
    this.found = found;
    this.at = -1;
    this.show(text);
    this.onFound(new Set(found));
  }

  show(text) {
    const count = this.found.length;
    const said = `${count.toLocaleString('en')} ${count === 1 ? 'vertex' : 'vertices'}`;
    by('find-said').textContent = text === '' ? '' : said;
    const rows = this.found.slice(0, MOST).map((vertex) => make('li', {}, make('button', {
      type: 'button', text: this.wordsOf(vertex), onclick: () => this.onVertex(vertex),
    })));
    const more = `and ${(count - MOST).toLocaleString('en')} more: Enter goes from one to the next`;
    by('find-found').replaceChildren(...rows, ...(count > MOST ? [make('li', { class: 'note', text: more })] : []));
  }

  wordsOf(vertex) {
    const { kind, row } = this.graph.vertices[vertex];
    const entry = this.entries[vertex];
    const words = entry?.name || entry?.line || '';
    return `${row === undefined ? vertex : `row ${row}`} ${kind}${words ? `: ${words.slice(0, 80)}` : ''}`;
  }

  /** Goes to the next vertex that was found. */
  async next() {
    if (this.waits !== null) await this.search();
    if (!this.found.length) return;
    this.at = (this.at + 1) % this.found.length;
    this.onVertex(this.found[this.at]);
    by('find-said').textContent = `${(this.at + 1).toLocaleString('en')} of ${this.found.length.toLocaleString('en')}`;
  }
}
