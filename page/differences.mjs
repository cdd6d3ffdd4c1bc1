/** Two contents of a file compared: as lines of text or in hexadecimal, side by side, without most that is the same. */

const MOST_COMPARED = 1500;
const MOST_ROWS = 400;
const MOST_BYTES = 1 << 20;
const AROUND = 3;
const WIDTH = 16;
const PICTURES = [
  ['image/png', [0x89, 0x50, 0x4e, 0x47, 13, 10, 26, 10]], ['image/jpeg', [0xff, 0xd8, 0xff]],
  ['image/gif', [0x47, 0x49, 0x46, 0x38]],
  ['image/webp', [0x52, 0x49, 0x46, 0x46, null, null, null, null, 0x57, 0x45, 0x42, 0x50]],
];

/** Returns the text of bytes, or null where they are not text. */
export function textOf(bytes) {
  try {
    const text = new TextDecoder('utf-8', { fatal: true }).decode(bytes);
    return /[\u0000-\u0008\u000e-\u001f]/.test(text) ? null : text;
  } catch {
    return null;
  }
}

/** Returns bytes as lines of hexadecimal: a place, sixteen bytes, and what can be printed of them. */
export function hexLines(bytes) {
  const lines = [];
  for (let at = 0; at < bytes.length; at += WIDTH) {
    const part = [...bytes.subarray(at, at + WIDTH)];
    const digits = part.map((byte) => byte.toString(16).padStart(2, '0')).join(' ').padEnd(3 * WIDTH - 1);
    const printed = part.map((byte) => (byte >= 32 && byte < 127 ? String.fromCharCode(byte) : '.')).join('');
    lines.push(`${at.toString(16).padStart(6, '0')}  ${digits}  ${printed}`);
  }
  return lines;
}

/**
 * Returns rows of two lists of lines, [old, new], with null where a side has none. Lines in common are found by the
 * longest common subsequence; of lists that are too long for it, those at both ends.
 */
export function sideBySide(old, fresh) {
  let start = 0;
  while (start < old.length && start < fresh.length && old[start] === fresh[start]) start += 1;
  let end = 0;
  while (end < Math.min(old.length, fresh.length) - start && old.at(-1 - end) === fresh.at(-1 - end)) end += 1;
  const same = (lines) => lines.map((line) => [line, line]);
  const [a, b] = [old.slice(start, old.length - end), fresh.slice(start, fresh.length - end)];
  const middle = a.length * b.length > MOST_COMPARED ** 2 ? apart(a, b) : matched(a, b);
  return [...same(old.slice(0, start)), ...middle, ...same(old.slice(old.length - end))];
}

// Lines that are at the same place on both sides are put into one row.
function apart(a, b) {
  return Array.from({ length: Math.max(a.length, b.length) }, (_, i) => [a[i] ?? null, b[i] ?? null]);
}

function matched(a, b) {
  const most = Array.from({ length: a.length + 1 }, () => new Uint16Array(b.length + 1));
  for (let i = a.length - 1; i >= 0; i -= 1) {
    for (let j = b.length - 1; j >= 0; j -= 1) {
      most[i][j] = a[i] === b[j] ? most[i + 1][j + 1] + 1 : Math.max(most[i + 1][j], most[i][j + 1]);
    }
  }
  const rows = [];
  let [i, j, from, to] = [0, 0, 0, 0];
  while (i < a.length && j < b.length) {
    if (a[i] === b[j]) {
      rows.push(...apart(a.slice(from, i), b.slice(to, j)), [a[i++], b[j++]]);
      [from, to] = [i, j];
    } else if (most[i + 1][j] >= most[i][j + 1]) i += 1;
    else j += 1;
  }
  return [...rows, ...apart(a.slice(from), b.slice(to))];
}

function linesIn(bytes, isHex) {
  if (!bytes) return [];
  if (isHex) return hexLines(bytes);
  const lines = textOf(bytes).split('\n');
  if (lines.at(-1) === '') lines.pop();
  return lines;
}

/** Returns the type of the picture that bytes begin like, or an empty text. */
export function pictureType(bytes) {
  const isLike = (start) => start.every((byte, i) => byte === null || bytes[i] === byte);
  return PICTURES.find(([, start]) => isLike(start))?.[0] ?? '';
}

// Rows of lines with their numbers on both sides; in the place of many that are the same, how many they are.
function shortened(rows) {
  const found = [];
  const number = [0, 0];
  const isSame = ([before, after]) => before === after;
  const isNear = (at) => rows.slice(Math.max(0, at - AROUND), at + AROUND + 1).some((row) => !isSame(row));
  const hasChange = rows.some((row) => !isSame(row));
  let left = 0;
  rows.forEach((row, at) => {
    row.forEach((line, side) => { number[side] += line === null ? 0 : 1; });
    if (hasChange && isSame(row) && !isNear(at)) left += 1;
    else {
      if (left) found.push({ same: left });
      left = 0;
      const numbers = row.map((line, side) => (line === null ? null : number[side]));
      found.push({ lines: row, numbers });
    }
  });
  return left ? [...found, { same: left }] : found;
}

/**
 * Returns two contents, each bytes or null, as rows: `lines` and `numbers` of both sides, or `same`, the number of
 * lines that are left out; how many rows there are more; and whether they are text and whether they are cut.
 */
export function rowsOf(before, after, wantsHex = false) {
  const given = [before, after].map((bytes) => bytes && bytes.subarray(0, MOST_BYTES));
  const isText = given.every((bytes) => bytes === null || textOf(bytes) !== null);
  const isHex = wantsHex || !isText;
  const rows = shortened(sideBySide(...given.map((bytes) => linesIn(bytes, isHex))));
  const isCut = [before, after].some((bytes) => bytes && bytes.length > MOST_BYTES);
  return { rows: rows.slice(0, MOST_ROWS), more: Math.max(0, rows.length - MOST_ROWS), isText, isHex, isCut };
}
