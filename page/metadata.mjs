/**
 * What a definition says of its entries for people, which the machine skips: their names, the groups of them, and the
 * lines of the files that they were made from. `metadata` (2) is a map from digests to messages with `description` (2),
 * a map of texts, and `progress_group` (6), whose name (2) is that of a group; `Source` (3) has `locations` (1), a map
 * from digests to places, and `infos` (2), the files. What can't be read is left out, since nothing depends on it.
 */

import { bytesIn, joined, recordsOf } from './records.mjs';

const CUSTOM_NAME = 'llb.customname';
const CUSTOM_GROUP = 'llb.customnamegroup';
const COMMAND = 'com.docker.dockerfile.v1.command';
const decoder = new TextDecoder();
const encoder = new TextEncoder();

function partsIn(bytes, field) {
  return recordsOf(bytes).filter((record) => record.field === field && typeof record.held === 'object').map(bytesIn);
}

function messageIn(bytes, field) {
  return joined(partsIn(bytes, field));
}

/** Returns the last text in a field of a message; empty if there is none. */
export function textIn(bytes, field) {
  return decoder.decode(partsIn(bytes, field).at(-1) ?? new Uint8Array(0));
}

function numberIn(bytes, field) {
  const last = recordsOf(bytes).findLast((record) => record.field === field && typeof record.held !== 'object');
  return Number(BigInt.asIntN(31, BigInt(last?.held ?? 0)));
}

// A map of Protocol Buffers: entries with a key (1) and a value (2).
function mapIn(bytes, field) {
  return new Map(partsIn(bytes, field).map((entry) => [textIn(entry, 1), messageIn(entry, 2)]));
}

/** Returns the name and the group in the metadata of an entry, empty where there are none. */
export function namesIn(metadata) {
  const described = mapIn(metadata, 2);
  const [custom, command, group] = [CUSTOM_NAME, COMMAND, CUSTOM_GROUP].map((key) => (
    decoder.decode(described.get(key) ?? new Uint8Array(0))));
  return { name: custom || command, group: group || textIn(messageIn(metadata, 6), 2) };
}

function placeOf(location, files) {
  const file = files[numberIn(location, 1)];
  const range = partsIn(location, 2)[0];
  if (!file || !range) return null;
  const first = numberIn(messageIn(range, 1), 1);
  const last = Math.max(first, numberIn(messageIn(range, 2), 1));
  return first > 0 ? { file: file.name, first, last, text: file.lines.slice(first - 1, last).join('\n') } : null;
}

function filesIn(source) {
  return partsIn(source, 2).map((info) => ({ name: textIn(info, 1), lines: textIn(info, 2).split('\n') }));
}

// So many entries are gone over before the next turn.
const MOST_AT_ONCE = 500;

/** The metadata and the places of a definition, by the digests of entries. Each is read when it is asked for. */
export class Metadata {
  /** Finds them, when the generator ends. */
  * reading(definition) {
    const source = messageIn(definition, 3);
    yield;
    this.described = new Map();
    for (const [number, entry] of partsIn(definition, 2).entries()) {
      this.described.set(textIn(entry, 1), messageIn(entry, 2));
      if (number % MOST_AT_ONCE === 0) yield;
    }
    this.locations = mapIn(source, 1);
    this.files = filesIn(source);
    return this;
  }

  /** Returns the metadata of an entry as bytes, or null. */
  of(digest) {
    return this.described.get(digest) ?? null;
  }

  /** Returns the first place of an entry: the name of a file, the first and the last line, and their text; or null. */
  placeOf(digest) {
    const locations = this.locations.get(digest);
    if (!locations) return null;
    return partsIn(locations, 1).map((one) => placeOf(one, this.files)).find(Boolean) ?? null;
  }
}

/** Puts new digests in the place of old ones in what a definition says of its entries; they have the same length. */
export function renameEntries(definition, fresh) {
  const said = [...partsIn(definition, 2), ...partsIn(definition, 3).flatMap((source) => partsIn(source, 1))];
  for (const one of said) {
    const key = partsIn(one, 1).at(-1);
    const now = key && fresh.get(decoder.decode(key));
    if (now) key.set(encoder.encode(now));
  }
}

/** Returns a place in words, as `Dockerfile:3: RUN make`, with the first line of its text. */
export function placeInWords({ file, first, last, text }) {
  const lines = first === last ? first : `${first}-${last}`;
  const [line, ...more] = text.trim().split('\n');
  return `${file}:${lines}${line ? `: ${line.trim()}` : ''}${more.length ? ' …' : ''}`;
}
