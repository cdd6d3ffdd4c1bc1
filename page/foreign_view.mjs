/** The view *Refused*: what the machine refuses in a definition, entry by entry, and what adopting would change. */

import { by, make } from './dom.mjs';
import { explained } from './faults.mjs';

const MOST_ENTRIES = 200;

function counted(count, word, words = `${word}s`) {
  return `${count} ${count === 1 ? word : words}`;
}

function findingElement(one) {
  return make('li', { class: 'finding' }, make('strong', { text: one.line }), ` ${explained(one.line)}`);
}

function entryElement(foreign, vertex, onSelect) {
  const { row, kind } = foreign.graph.vertices[vertex];
  const entry = foreign.entries[vertex];
  const changes = foreign.changes.get(row) ?? [];
  const words = [...new Set([entry?.name, entry?.line])].filter(Boolean).join(': ');
  return make('section', { class: 'refused-entry', 'data-row': row },
    make('h3', {}, make('button', { type: 'button', onclick: () => onSelect(vertex), text: `row ${row} ${kind}` })),
    ...(words ? [make('p', { class: 'path', text: words })] : []),
    make('ul', {}, ...(foreign.found.get(row) ?? []).map(findingElement)),
    ...(changes.length ? [make('p', { text: 'Adopting it:' })] : []),
    make('ul', { class: 'adopting' }, ...changes.map((change) => make('li', { text: change.words }))));
}

function adoptionWords({ adoption }) {
  if (adoption.why) return `It can't be adopted: ${adoption.why}.`;
  const sources = adoption.sources.map(({ name }) => name).join(', ');
  const trees = sources ? ` It needs a tree for each of: ${sources}.` : ' It needs no tree.';
  if (!adoption.left.length) return `Adopting makes a definition that llbm takes.${trees}`;
  return `Adopting leaves: ${adoption.left.map((one) => one.line).join('; ')}. These have to be changed by hand.`;
}

/** Shows what is refused in a definition. `onSelect` is called with a vertex, `onAdopt` once it is to be adopted. */
export function showForeign(foreign, onSelect, onAdopt) {
  const vertices = foreign.graph.vertices.filter(({ row }) => foreign.found.has(row) || foreign.changes.has(row));
  const refused = [...foreign.found.keys()].filter((row) => row !== null).length;
  const others = foreign.found.get(null) ?? [];
  by('foreign-said').textContent = `llbm refuses this definition: ${counted(foreign.findings.length, 'finding')} in `
    + `${counted(refused, 'entry', 'entries')} of ${foreign.graph.vertices.length}. ${adoptionWords(foreign)}`;
  by('adopt').disabled = !foreign.adoption.data || foreign.adoption.changes.length === 0;
  by('adopt').onclick = onAdopt;
  const more = vertices.length - MOST_ENTRIES;
  by('foreign').replaceChildren(
    make('ul', {}, ...others.map(findingElement)),
    ...vertices.slice(0, MOST_ENTRIES).map(({ number }) => entryElement(foreign, number, onSelect)),
    ...(more > 0 ? [make('p', { class: 'note', text: `and ${more} more entries: select one in the graph` })] : []));
}

/** Returns elements that say what is refused in a vertex of such a graph, and what adopting would change. */
export function detailsOf(foreign, vertex) {
  const { row } = foreign.graph.vertices[vertex];
  const found = foreign.found.get(row) ?? [];
  const changes = foreign.changes.get(row) ?? [];
  return [
    ...found.map((one) => make('p', { class: 'fault', text: `${one.line}: ${explained(one.line)}` })),
    ...changes.map((change) => make('p', { class: 'note', text: `adopting it: ${change.words}` })),
  ];
}
