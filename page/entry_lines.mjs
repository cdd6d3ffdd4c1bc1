/** Which lines of a text of entries each entry has. Lines and entries are counted from 0. */

/** Returns the first and the last line of each entry: what is between two lines without an open brace. */
export function entryLines(text) {
  const found = [];
  let depth = 0;
  let first = 0;
  text.split('\n').forEach((whole, number) => {
    const line = whole.trim();
    if (line === '' || line.startsWith('#')) return;
    if (depth === 0) first = number;
    if (line.endsWith(' {')) depth += 1;
    else if (line === '}') depth -= 1;
    if (depth === 0) found.push([first, number]);
  });
  return found;
}

/** Returns the entry that has a line, or null. */
export function entryAt(lines, line) {
  const found = lines.findIndex(([first, last]) => first <= line && line <= last);
  return found < 0 ? null : found;
}
