/** A definition that the machine refuses: its rows as a graph, what is found in them, and what adopting changes. */

import { adopted } from './adopting.mjs';
import { entriesOf } from './definition.mjs';
import { findingsOf } from './findings.mjs';
import { inputsFirst, Rows } from './refused_rows.mjs';

function graphOf(rows, order) {
  const place = new Map(order.map((row, i) => [row, i]));
  const vertices = order.map((row, number) => {
    const named = rows.linksOf(row).map((one) => place.get(one)).filter((one) => one < number);
    const kind = row === rows.terminal ? 'result' : rows.ops.get(row)?.kind ?? 'no op';
    return { number, kind, steps: 0, outputs: 0, inputs: named.map((vertex) => ({ vertex, output: 0 })), row };
  });
  return { vertices, result: '' };
}

function byRow(list) {
  const found = new Map();
  for (const one of list) found.set(one.row, [...(found.get(one.row) ?? []), one]);
  return found;
}

// What adopting would change, or why it can't be done.
function adoptionOf(machine, definition, rows, findings) {
  try {
    const adoption = adopted(machine, definition, rows, findings);
    return { ...adoption, left: findingsOf(machine, adoption.data) };
  } catch (fault) {
    return { data: null, changes: [], sources: [], left: [], why: fault.message };
  }
}

/**
 * Returns what is known of a definition that can be read into rows but is refused: the graph of its rows, each with its
 * number, what the rows are, and the findings and the changes by row.
 */
export function foreignOf(machine, definition) {
  const findings = findingsOf(machine, definition);
  const { rows: entries } = entriesOf(machine, definition);
  const rows = new Rows(entries, findings);
  const order = inputsFirst([...rows.named.values()], (row) => rows.linksOf(row));
  const adoption = adoptionOf(machine, definition, rows, findings);
  return {
    definition, graph: graphOf(rows, order), entries: order.map((row) => entries[row]), findings, adoption,
    found: byRow(findings), changes: byRow(adoption.changes), reached: rows.reached(),
  };
}

/** Returns the statuses of the vertices of such a graph: refused, taken, or not needed for the result. */
export function foreignStatuses({ graph, found, reached }) {
  const wordOf = (vertex) => {
    const { row } = graph.vertices[vertex];
    return found.has(row) ? 'refused' : reached.has(row) ? 'taken' : 'unneeded';
  };
  return { wordOf, of: (vertex) => ({ word: wordOf(vertex), rest: '', worker: null }) };
}
