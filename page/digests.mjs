/** The digests of entries, which the machine makes: it assembles a text in which an op names each of them. */

import { STATUS } from './machine.mjs';
import { textIn } from './metadata.mjs';
import { bytesIn, recordsIn } from './records.mjs';
import { hexOf } from './tree_text.mjs';

// An op has at most so many inputs. A text of so many bytes more than the largest entry is within the machine's limits.
const MOST = 1024;
const MOST_BYTES = 8 << 20;

/** Returns the entries of a definition. */
export function entriesIn(definition) {
  return [...recordsIn(definition)].filter((record) => record.field === 1).map(bytesIn);
}

function digestsOfPart(handle, entries) {
  const lines = entries.map((bytes) => `raw ${hexOf(bytes) || '-'}\n`);
  const inputs = entries.map((_, i) => `inputs {\ndigest %${i}\n}\n`);
  const status = handle.asm(`${lines.join('')}op {\n${inputs.join('')}}\n`);
  if (status !== STATUS.done) throw new Error(handle.messages().trim() || 'no memory');
  return [...recordsIn(entriesIn(handle.output()).at(-1))].map((input) => textIn(bytesIn(input), 1));
}

/** Returns the digests of entries, given as bytes. The handle is one that has no session. */
export function digestsOf(handle, entries) {
  const found = [];
  for (let at = 0; at < entries.length;) {
    let [end, size] = [at, 0];
    while (end < entries.length && end - at < MOST && size < MOST_BYTES) {
      size += entries[end].length;
      end += 1;
    }
    found.push(...digestsOfPart(handle, entries.slice(at, end)));
    at = end;
  }
  return found;
}
