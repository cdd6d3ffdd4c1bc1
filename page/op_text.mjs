/**
 * The ops of a definition, from the text that the machine writes of them (`ops`): the entries are found at once, and an
 * op is read when it is asked for, into fields by the tools' table of messages. Of an op that was changed the same text
 * is written, which the machine assembles.
 */

import { tables } from './tables.mjs';
import { bytesOfHex, hexOf } from './tree_text.mjs';

const [LINE_END, LETTER_R, BRACE] = [10, 114, 125];
const MEMBER = /^ {2}(exec|source|file|build|merge|diff) /m;
const ESCAPE = /\\(?:x([0-9a-f]{2})|(.))/g;
const ESCAPED = /["\\\u0000-\u001f\u007f]/g;
const EXTRA = 'extra ';
const NO_BYTES = new Uint8Array(0);
const DEFAULTS = { string: '', bytes: NO_BYTES, bool: false, int64: 0, int32: 0, enum: 0, uint32: 0 };

const decoder = new TextDecoder('utf-8', { ignoreBOM: true });
const known = new Map();

// Returns the fields of a message by name.
function fieldsOf(name) {
  if (!known.has(name)) known.set(name, new Map(tables.messages[name].map((field) => [field.name, field])));
  return known.get(name);
}

function emptyOf(fields) {
  const message = { kind: null, extra: NO_BYTES };
  for (const { name, kind, repeated, member, isMessage } of fields.values()) {
    if (repeated) message[name] = [];
    else message[name] = member || isMessage ? null : DEFAULTS[kind];
  }
  return message;
}

function stringIn(text) {
  const inner = text.slice(1, -1);
  if (!inner.includes('\\')) return inner;
  return inner.replace(ESCAPE, (_, code, letter) => letter ?? String.fromCharCode(parseInt(code, 16)));
}

// Returns the value that a text spells; a label is the digest of an earlier entry.
function valueIn(kind, text, digests) {
  if (text.startsWith('%')) return digests[Number(text.slice(1))];
  if (kind === 'string') return stringIn(text);
  if (kind === 'bytes') return bytesOfHex(text === '-' ? '' : text);
  if (kind === 'bool') return text === 'true';
  const number = Number(text);
  return Number.isSafeInteger(number) ? number : BigInt(text);
}

// Returns the message whose lines follow, up to the one that closes it. Extra records are kept as bytes.
function messageIn(name, lines, digests) {
  const fields = fieldsOf(name);
  const message = emptyOf(fields);
  for (let line = lines.next().value; line !== '}'; line = lines.next().value) {
    if (line.startsWith(EXTRA)) {
      message.extra = bytesOfHex(line.slice(EXTRA.length));
      continue;
    }
    const cut = line.indexOf(' ');
    const field = fields.get(line.slice(0, cut));
    const { kind, isMessage, repeated, member } = field;
    const value = isMessage ? messageIn(kind, lines, digests) : valueIn(kind, line.slice(cut + 1), digests);
    if (repeated) message[field.name].push(value);
    else message[field.name] = value;
    if (member) message.kind = field.name;
  }
  return message;
}

// Returns the text of a value; that of a digest with a label is the label.
function spelled({ name, kind }, value, labels) {
  if (name === 'digest' && labels.has(value)) return `%${labels.get(value)}`;
  if (kind === 'bytes') return hexOf(value) || '-';
  if (kind !== 'string') return `${value}`;
  const escaped = (letter) => (`"\\`.includes(letter) ? `\\${letter}` : `\\x${hexOf([letter.charCodeAt(0)])}`);
  return `"${value.replace(ESCAPED, escaped)}"`;
}

function* linesOf(name, message, labels) {
  for (const field of tables.messages[name]) {
    const value = message[field.name];
    for (const one of field.repeated ? value : value === null ? [] : [value]) {
      if (field.isMessage) yield* [`${field.name} {`, ...linesOf(field.kind, one, labels), '}'];
      else yield `${field.name} ${spelled(field, one, labels)}`;
    }
  }
  if (message.extra.length) yield EXTRA + hexOf(message.extra);
}

/** Returns the text of an op, in which a digest that has one of these labels is that: the place of an earlier entry. */
export function textOfOp(op, labels) {
  return ['op {', ...linesOf('Op', op, labels), '}\n'].join('\n');
}

/** Returns where each entry of a text ends: after a line `raw ..`, or after the line that closes an op. */
export function endsOf(text) {
  const ends = [];
  for (let at = 0; at < text.length;) {
    const end = text.indexOf(LINE_END, at) + 1;
    if (text[at] === LETTER_R || text[at] === BRACE) ends.push(end);
    at = end;
  }
  return Uint32Array.from(ends);
}

/** The ops of a definition, given their text, where each entry ends in it, and the digests of the entries. */
export class Ops {
  constructor({ text, ends }, digests) {
    this.text = text;
    this.ends = ends;
    this.digests = digests;
  }

  // Returns the text of an entry.
  entry(row) {
    return decoder.decode(this.text.subarray(row ? this.ends[row - 1] : 0, this.ends[row]));
  }

  /** Returns the kind of the op of a row; empty if it has none, or can't be read. */
  kindOf(row) {
    return MEMBER.exec(this.entry(row))?.[1] ?? '';
  }

  /** Returns the op of a row, or null where it can't be read. */
  read(row) {
    const lines = this.entry(row).split('\n').map((line) => line.trimStart()).values();
    return lines.next().value === 'op {' ? messageIn('Op', lines, this.digests) : null;
  }
}
