/** Every fault of a definition, as the machine's call `llb_findings` lists them: each that is at its own place. */

import { entriesOf } from './definition.mjs';

// The faults whose line has no row, and those whose line has a name after it.
const ROWLESS = new Set([81, 83, 85, 87]);
const NAMED = new Set([88, 89]);
// A rule with a text at its end, the first word of a call; only this text can have line ends.
const NO_APPLET = 'Script 71 ';

function findingOf(line) {
  const [, head, rest] = /^fault ([0-9]+) ?(.*)$/s.exec(line);
  const number = Number(head);
  if (ROWLESS.has(number)) return { number, row: null, rest, line, name: '' };
  const [, row, others] = /^([0-9]+) ?(.*)$/s.exec(rest);
  return { number, row: Number(row), rest: others, line, name: NAMED.has(number) ? others.split(' ')[0] : '' };
}

// How many lines more the line of a finding has: as many as there are line ends in the word that it ends with.
function moreLines(machine, definition, { row, rest }) {
  if (!rest.startsWith(NO_APPLET)) return 0;
  return entriesOf(machine, definition).rows[row].op.exec.meta.args[0].split('\n').length - 1;
}

/**
 * Returns all findings of a definition: the machine's own fault first, then the others by row, those without a row
 * first; empty if the machine takes it.
 */
export function findingsOf(machine, definition) {
  const handle = machine.handle();
  handle.findings(definition);
  const lines = handle.text().split('\n').slice(0, -1);
  const found = [];
  for (let at = 0; at < lines.length;) {
    const first = findingOf(lines[at]);
    const end = at + 1 + moreLines(machine, definition, first);
    found.push(end === at + 1 ? first : findingOf(lines.slice(at, end).join('\n')));
    at = end;
  }
  const [first, ...others] = found;
  const sorted = others.sort((a, b) => (a.row ?? -1) - (b.row ?? -1) || a.number - b.number);
  return first ? [first, ...sorted] : [];
}
