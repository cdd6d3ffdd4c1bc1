/**
 * The records of which messages of Protocol Buffers consist: the page's one reader of them, for what the machine does
 * not read. The machine says what is wrong with bytes that can't be read, and it alone writes messages.
 */

const FORMS = { varint: 0, eight: 1, length: 2, four: 5 };
const MOST_FIELDS = 536870911;

/** The bytes are no such message. */
export class Unreadable extends Error {
  constructor() {
    super('the bytes are not a message');
  }
}

// Returns the number at a place and the place after it: a Number if it is a safe integer, else a BigInt.
function varintAt(data, place) {
  let low = 0;
  for (let count = 0; count < 10; count += 1) {
    const byte = data[place + count];
    if (byte === undefined) break;
    if (count >= 7) return longVarintAt(data, place);
    low += (byte & 127) * 2 ** (7 * count);
    if (byte < 128) return [low, place + count + 1];
  }
  throw new Unreadable();
}

function longVarintAt(data, place) {
  let number = 0n;
  for (let count = 0; count < 10 && place + count < data.length; count += 1) {
    const byte = data[place + count];
    if (count === 9 && byte > 1) break;
    number |= BigInt(byte & 127) << BigInt(7 * count);
    if (byte < 128) return [number <= Number.MAX_SAFE_INTEGER ? Number(number) : number, place + count + 1];
  }
  throw new Unreadable();
}

function recordAt(data, place) {
  const [tag, after] = varintAt(data, place);
  const [field, form] = [Math.floor(Number(tag) / 8), Number(tag) % 8];
  if (field < 1 || field > MOST_FIELDS) throw new Unreadable();
  if (form === FORMS.varint) {
    const [held, end] = varintAt(data, after);
    return [{ field, form, held, text: data.subarray(place, end) }, end];
  }
  const [length, start] = form === FORMS.length ? varintAt(data, after) : [form === FORMS.eight ? 8 : 4, after];
  if (start + Number(length) > data.length) throw new Unreadable();
  const end = start + length;
  return [{ field, form, held: data.subarray(start, end), text: data.subarray(place, end) }, end];
}

/** Yields the records in these bytes, up to the first fault. */
export function* recordsIn(data) {
  for (let place = 0; place < data.length;) {
    let record;
    [record, place] = recordAt(data, place);
    yield record;
  }
}

/** Returns the records in these bytes; none where they can't be read. */
export function recordsOf(data) {
  try {
    return [...recordsIn(data)];
  } catch {
    return [];
  }
}

/** Returns the value of a record as bytes; empty if it is a number. */
export function bytesIn(record) {
  return record.held instanceof Uint8Array ? record.held : new Uint8Array(0);
}

/** Returns bytes that are joined. */
export function joined(parts) {
  if (parts.length === 1) return parts[0];
  const all = new Uint8Array(parts.reduce((sum, part) => sum + part.length, 0));
  let at = 0;
  for (const part of parts) {
    all.set(part, at);
    at += part.length;
  }
  return all;
}
