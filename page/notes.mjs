/**
 * Notes of what has an effect in BuildKit and none here, by the table that `llbm-tools lint` has, and of what a build
 * ends otherwise in BuildKit, by `llbm-tools explain buildkit`. docs/BUILDKIT.md lists them.
 */

import { joined, recordsOf } from './records.mjs';
import { tables } from './tables.mjs';

// Returns the values of a field of a message, and the type of these if the machine reads them as messages. A message
// is what the machine read of it, with the bytes of its other records, or its bytes.
function fieldOf(message, type, number) {
  const field = type && tables.messages[type].find((one) => one.number === number);
  if (!field) {
    const records = recordsOf(type ? message.extra : message);
    return { values: records.filter((record) => record.field === number).map(({ held }) => held), type: null };
  }
  const value = message[field.name];
  return { values: field.repeated ? value : value === null ? [] : [value], type: field.isMessage ? field.kind : null };
}

function isSet(values, unset) {
  const last = values.at(-1);
  if (values.length === 0 || typeof last === 'boolean') return Boolean(last);
  if (typeof last !== 'number' && typeof last !== 'bigint') return values.some(({ length }) => length > 0);
  return !unset.includes(Number(BigInt.asIntN(64, BigInt(last))));
}

// The index of each part of a message that has a field set; 0 if the field is in no part.
function partsWith(message, type, row, path) {
  const [number, ...rest] = path;
  if (Array.isArray(number)) {
    const parts = fieldOf(message, type, number[0]);
    return [...parts.values.keys()].filter((index) => partsWith(parts.values[index], parts.type, row, rest).length);
  }
  const { values, type: inner } = fieldOf(message, type, number);
  if (!rest.length) return isSet(values, row.unset ?? [0]) ? [0] : [];
  if (!values.length) return [];
  const one = inner ? values[0] : joined(values.filter((held) => held instanceof Uint8Array));
  return partsWith(one, inner, row, rest);
}

function notesBy(rows, message, type) {
  return rows.flatMap((row) => partsWith(message, type, row, row.numbers).map((index) => ({
    name: row.name, part: row.part ? `${row.part} ${index}` : '', effect: row.effect,
  })));
}

function notesOfAttributes(given) {
  const { attributes, attributes_without_effect: known } = tables.notes;
  const last = new Map(given.map((one) => [one.key, one.value]));
  return [...last].filter(([key]) => !known.includes(key)).flatMap(([key, value]) => {
    const row = attributes.find((one) => one.key === key);
    if (!row) return [{ name: 'Attribute', part: key, effect: 'an attribute that llbm does not know' }];
    return row.unset.includes(value) ? [] : [{ name: row.name, part: '', effect: row.effect }];
  });
}

/** Returns the notes of an entry: the name of each, the part of the op that it is about, and its effect in BuildKit. */
export function notesOf(entry) {
  const { fields, metadata } = tables.notes;
  return [
    ...(entry?.op ? notesBy(fields, entry.op, 'Op') : []), ...notesOfAttributes(entry?.op?.source?.attrs ?? []),
    ...(entry?.metadata ? notesBy(metadata, entry.metadata, null) : []),
  ];
}

/** Returns a note in words. */
export function noteInWords({ name, part, effect }) {
  return `${[name, part].filter(Boolean).join(' ')} has no effect here; in BuildKit: ${effect}.`;
}

/** The notes of a session's vertices: those of fields, and those that a server of builds has. */
export class VertexNotes {
  constructor(entries) {
    this.entries = entries;
    this.served = new Map();
    this.known = new Map();
  }

  /** Adds what ends otherwise in BuildKit: the vertex, the action or null, and words. */
  add(served) {
    for (const { vertex, action, words } of served) {
      const part = action === null ? 'settle' : `action ${action}`;
      this.served.set(vertex, [...(this.served.get(vertex) ?? []), { part, words: `BuildKit: ${words}` }]);
    }
    this.known.clear();
  }

  /** Returns the notes of a vertex, each with the part of its run that it is about, and in words. */
  of(vertex) {
    if (!this.known.has(vertex)) {
      const fields = notesOf(this.entries[vertex]).map((note) => ({ part: note.part, words: noteInWords(note) }));
      this.known.set(vertex, [...fields, ...(this.served.get(vertex) ?? [])]);
    }
    return this.known.get(vertex);
  }

  /** Returns the notes of an event: of its action, of its settle, or at a claim those of the whole vertex. */
  at(event) {
    const action = /^(?:acted|fault) ([0-9]+)/.exec(event.kind === 'step' ? event.reply : '')?.[1];
    const isOf = ({ part }) => {
      if (action !== undefined) return part === `action ${action}`;
      return event.kind === 'claim' ? !/^(?:action|settle)/.test(part) : event.kind === part;
    };
    return this.of(event.vertex).filter(isOf);
  }
}
