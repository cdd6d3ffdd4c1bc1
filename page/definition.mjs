/**
 * What a definition says of its vertices beside what the machine shows of them: names and places of the metadata, what
 * an op does in a line, the trees that actions are done on, and the mounts of executions. Digests and ops are the
 * machine's, and it says which entries are vertices, in which order, and of which kind.
 */

import { digestsOf, entriesIn } from './digests.mjs';
import { LOCAL } from './local_names.mjs';
import { Metadata, namesIn, placeInWords } from './metadata.mjs';
import { STATUS } from './machine.mjs';
import { endsOf, Ops } from './op_text.mjs';
import { atOnce } from './turns.mjs';

// So many entries are made before the next turn.
const MOST_AT_ONCE = 500;
const MODES = ['shared', 'private', 'locked'];
const CACHE = 3;
const NOTHING = { line: '', actions: [], commands: [], mounts: [] };

function optional(read, otherwise) {
  try {
    return read();
  } catch {
    return otherwise;
  }
}

function actionOf({ input, secondaryInput: from, output, kind, ...members }) {
  const body = members[kind] ?? {};
  const line = kind === 'copy' ? `copy ${body.src} ${body.dest}` : `${kind ?? 'action'} ${body.path ?? ''}`;
  return { input, from, output, line };
}

function mountOf({ dest, selector, readonly, mountType, cacheOpt, input, output }, inputs) {
  const seed = inputs[input];
  return {
    dest, selector, input, output, isReadonly: readonly, isCache: mountType === CACHE, id: cacheOpt?.ID ?? '',
    mode: MODES[cacheOpt?.sharing ?? 0], seed: seed ? `${seed.digest}.${seed.index}` : '-',
  };
}

// What is between two commands of a script: a separator is a word of its own.
const SEPARATOR = /(?:^|(?<= ))(?:;|&&|\|\|)(?= |$)/;

function execWords({ meta, mounts }, inputs) {
  const words = meta?.args ?? [];
  const isShell = words[1] === '-c';
  const script = isShell ? words[2] ?? '' : words.join(' ');
  const commands = isShell ? script.split(SEPARATOR).map((command) => command.trim()).filter(Boolean) : [script];
  return { ...NOTHING, line: script, commands, mounts: mounts.map((one) => mountOf(one, inputs)) };
}

function opInWords({ kind, inputs, ...op }) {
  if (kind === 'exec') return execWords(op.exec, inputs);
  if (kind === 'source') return { ...NOTHING, line: op.source.identifier };
  if (kind === 'merge') return { ...NOTHING, line: `merge of ${op.merge.inputs.length}` };
  if (kind !== 'file') return NOTHING;
  const actions = op.file.actions.map(actionOf);
  return { ...NOTHING, line: actions.map((action) => action.line).join('; '), actions };
}

/** An entry of a definition. All of it is read when it is asked for. */
class Entry {
  constructor(row, digest, about, ops) {
    this.row = row;
    this.digest = digest;
    this.about = about;
    this.ops = ops;
    this.word = null;
    this.read = null;
    this.words = null;
  }

  /** The op, or null where it can't be read. */
  get op() {
    this.read ??= { op: this.ops.read(this.row) };
    return this.read.op;
  }

  get inWords() {
    this.words ??= this.op ? opInWords(this.op) : NOTHING;
    return this.words;
  }

  /** The kind of the op, which is known without reading all of it. */
  get kind() {
    this.word ??= this.ops.kindOf(this.row);
    return this.word;
  }

  get isSource() { return this.kind === 'source'; }

  get line() { return this.inWords.line; }

  get actions() { return this.inWords.actions; }

  get commands() { return this.inWords.commands; }

  get mounts() { return this.kind === 'exec' ? this.inWords.mounts : []; }

  get metadata() { return this.about.of(this.digest); }

  get name() { return this.metadata ? namesIn(this.metadata).name : ''; }

  get group() { return this.metadata ? namesIn(this.metadata).group : ''; }

  /** The lines that it was made from, in words; empty where they are not known. */
  get place() {
    const place = this.about.placeOf(this.digest);
    return place ? placeInWords(place) : '';
  }
}

const known = new WeakMap();
const kept = new WeakMap();

/** Keeps what a machine said of a definition's entries elsewhere, as `saidOf` returns it. */
export function keepSaid(definition, said) {
  kept.set(definition, said);
}

// Returns the text of a definition's ops, and where each entry ends in it; no text if it can't be read.
function opsOf(machine, definition) {
  const handle = machine.handle();
  const text = handle.ops(definition) === STATUS.done ? handle.output() : new Uint8Array(0);
  return { text, ends: endsOf(text) };
}

/** Returns what the machine says of a definition's entries: their digests and their ops, which are kept. */
export function saidOf(machine, definition) {
  if (!kept.has(definition)) {
    const digests = optional(() => digestsOf(machine.handle(), entriesIn(definition)), []);
    keepSaid(definition, { digests, ops: opsOf(machine, definition) });
  }
  return kept.get(definition);
}

/** Returns the text of a definition's ops. */
export function opsText(machine, definition) {
  return new TextDecoder().decode(saidOf(machine, definition).ops.text);
}

/** Returns what `entriesOf` does, when the generator ends. */
export function* readingEntries(machine, definition) {
  if (known.has(definition)) return known.get(definition);
  const { digests, ops: said } = saidOf(machine, definition);
  const about = yield* new Metadata().reading(definition);
  const ops = new Ops(said, digests);
  const [rows, first] = [[], new Map()];
  for (const [row, digest] of digests.entries()) {
    rows.push(new Entry(row, digest, about, ops));
    if (!first.has(digest)) first.set(digest, rows[row]);
    if (row % MOST_AT_ONCE === 0) yield;
  }
  const found = { rows, first };
  known.set(definition, found);
  return found;
}

/** Returns the entries of a definition by row, and the first one of each digest; they are kept with its bytes. */
export function entriesOf(machine, definition) {
  return atOnce(readingEntries(machine, definition));
}

/** Returns the entries that are vertices, given the digests of the vertices by number. */
export function verticesOf(machine, definition, digests) {
  const { first } = entriesOf(machine, definition);
  return digests.map((digest) => first.get(digest));
}

/** Returns what the entry of a row is for a person: its name and what it does; empty where it can't be read. */
export function rowInWords(machine, definition, row) {
  const entry = entriesOf(machine, definition).rows[row];
  return entry ? [...new Set([entry.name, entry.line])].filter(Boolean).join(': ') : '';
}

/** Returns the names of the local sources among vertices, in the order of rows. */
export function localsOf(vertices) {
  const sources = vertices.filter((entry) => entry.isSource).sort((a, b) => a.row - b.row);
  return [...new Set(sources.map(({ line }) => line.slice(LOCAL.length)))];
}

// The first line of a text that is neither empty nor a comment, without spaces around it. A long text is not split.
function firstLine(text) {
  for (let at = 0; at < text.length;) {
    const next = text.indexOf('\n', at);
    const end = next < 0 ? text.length : next;
    const line = text.slice(at, end).trim();
    if (line !== '' && !line.startsWith('#')) return line;
    at = end + 1;
  }
  return '';
}

/** Returns whether bytes are the text of entries, and no definition. */
export function isText(bytes) {
  if (bytes.includes(0)) return false;
  const line = firstLine(optional(() => new TextDecoder('utf-8', { fatal: true }).decode(bytes), ''));
  return line === 'op {' || line.startsWith('raw ');
}
