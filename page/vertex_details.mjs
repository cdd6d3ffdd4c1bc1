/** What is said below the graph of the selected vertex. */

import { make } from './dom.mjs';
import { detailsOf } from './foreign_view.mjs';

/** Returns a list of what BuildKit does otherwise at a vertex. */
export function notesElement(notes) {
  const rows = notes.map(({ words }) => make('li', { text: words }));
  return make('ul', { class: 'notes', 'aria-label': 'what BuildKit does otherwise' }, ...rows);
}

/** Returns what is said of a vertex of a session. `onTree` is called with the output whose tree is asked for. */
export function vertexDetails({ number, kind, steps, outputs, inputs }, entry, { word, rest }, onTree) {
  const edges = inputs.map((edge) => `${edge.vertex}.${edge.output}`).join(' ') || 'none';
  const status = `${word} ${rest}`.trim();
  const trees = word === 'done' ? Array.from({ length: outputs }, (_, output) => make('button', {
    type: 'button', text: `Tree ${number}.${output}`, onclick: () => onTree(output),
  })) : [];
  return [
    make('p', {}, make('strong', { text: `${number} ${kind}` }), ` ${status}, steps ${steps}, inputs ${edges}`),
    ...(entry?.name ? [make('p', { text: entry.name })] : []),
    ...(entry?.line ? [make('code', { text: entry.line })] : []),
    ...(trees.length ? [make('p', {}, ...trees)] : []),
  ];
}

/** Returns what is said of an entry of a definition that is refused. */
export function foreignDetails(foreign, vertex, label) {
  const entry = foreign.entries[vertex];
  const said = [...new Set([entry?.name, entry?.line])].filter(Boolean).join(': ');
  return [make('p', {}, make('strong', { text: label }), ` ${said}`), ...detailsOf(foreign, vertex)];
}
