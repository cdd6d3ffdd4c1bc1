/**
 * The text of a tree: a line for each directory and file in path order, `d MODE UID GID PATH` or
 * `f MODE UID GID CONTENT PATH`, as docs/FORMATS.md has it.
 */

const DIRECTORY = /^d ([0-7]{4}) ([0-9]+) ([0-9]+) (\/.*)$/;
const FILE = /^f ([0-7]{4}) ([0-9]+) ([0-9]+) (-|[0-9a-f]+) (\/.*)$/;
const HEX = Array.from({ length: 256 }, (_, i) => i.toString(16).padStart(2, '0'));

/** Returns bytes in hexadecimal. */
export function hexOf(bytes) {
  const digits = new Array(bytes.length);
  for (let i = 0; i < bytes.length; i += 1) digits[i] = HEX[bytes[i]];
  return digits.join('');
}

/** Returns the bytes that hexadecimal digits spell. */
export function bytesOfHex(digits) {
  const bytes = new Uint8Array(digits.length / 2);
  for (let i = 0; i < bytes.length; i += 1) bytes[i] = parseInt(digits.substr(2 * i, 2), 16);
  return bytes;
}

/** Returns whether a text begins as that of a tree does. */
export function isTreeText(text) {
  return DIRECTORY.test(text.slice(0, text.indexOf('\n')));
}

/** Returns the entry of a line: its path, kind, mode, owner and content in hexadecimal. Throws on any other line. */
export function entryOf(line) {
  const directory = DIRECTORY.exec(line);
  if (directory) {
    const [, mode, user, group, path] = directory;
    return { path, kind: 'd', mode, owner: `${user}:${group}`, content: null };
  }
  const file = FILE.exec(line);
  if (!file) throw new Error(`not a line of a tree's text: ${line.slice(0, 80)}`);
  const [, mode, user, group, content, path] = file;
  return { path, kind: 'f', mode, owner: `${user}:${group}`, content: content === '-' ? '' : content };
}

/** Returns the lines of a text, without their ends. */
export function linesOf(text) {
  const lines = text.split('\n');
  if (lines[lines.length - 1] === '') lines.pop();
  return lines;
}

/** Returns the path of a line, which is not checked: a path can have spaces, and begins at the first `/`. */
export function pathOf(line) {
  return line.slice(line.indexOf('/'));
}

/** Returns the entries of a text by path, in the order of the text, each still as its line. */
export function linesByPath(text) {
  const found = new Map();
  for (const line of linesOf(text)) found.set(pathOf(line), line);
  return found;
}

const encoder = new TextEncoder();

function isBefore(a, b) {
  const length = Math.min(a.length, b.length);
  for (let i = 0; i < length; i += 1) if (a[i] !== b[i]) return a[i] - b[i];
  return a.length - b.length;
}

// Paths are in the order of their names' bytes, so that a directory comes right before what is in it.
function inPathOrder(a, b) {
  for (let i = 0; i < a.names.length && i < b.names.length; i += 1) {
    const order = isBefore(a.names[i], b.names[i]);
    if (order) return order;
  }
  return a.names.length - b.names.length;
}

/**
 * Returns the text of a tree with these files and directories, each with its path (`a/b`, no `/` in front) and, for a
 * file, its bytes. Directories that are not given, the root too, have the mode 0755 and the owner 0:0.
 */
export function textOfEntries(entries) {
  /** @type {Map<string, any>} */
  const all = new Map([['', { path: '', mode: 0o755, user: 0, group: 0 }]]);
  for (const entry of entries) {
    const names = entry.path.split('/');
    for (let n = 1; n < names.length; n += 1) {
      const above = names.slice(0, n).join('/');
      if (!all.has(above)) all.set(above, { path: above, mode: 0o755, user: 0, group: 0 });
      else if (all.get(above).bytes) throw new Error(`/${above}: a file with entries below it`);
    }
    all.set(entry.path, entry);
  }
  const rows = [...all.values()].map((entry) => ({
    entry, names: entry.path === '' ? [] : entry.path.split('/').map((name) => encoder.encode(name)),
  }));
  rows.sort(inPathOrder);
  return rows.map(({ entry }) => lineOf(entry)).join('');
}

function lineOf(entry) {
  const start = `${(entry.mode & 0o7777).toString(8).padStart(4, '0')} ${entry.user} ${entry.group}`;
  if (!entry.bytes) return `d ${start} /${entry.path}\n`;
  return `f ${start} ${entry.bytes.length ? hexOf(entry.bytes) : '-'} /${entry.path}\n`;
}
