/** The text of a tree folder by folder, without an object for each entry: only where each line begins is kept. */

import { hexLines, textOf } from './differences.mjs';
import { bytesOfHex, entryOf } from './tree_text.mjs';

const MOST_ENTRIES = 300;
const MOST_BYTES = 65536;

/** A tree's text, and where its lines begin. */
export class FolderIndex {
  constructor(text) {
    this.text = text;
    const starts = [];
    for (let at = 0; at < text.length;) {
      starts.push(at);
      const end = text.indexOf('\n', at);
      at = end < 0 ? text.length : end + 1;
    }
    this.starts = starts;
  }

  line(number) {
    return this.text.slice(this.starts[number], this.end(number));
  }

  // Each line has an end, also the last one.
  end(number) {
    return (this.starts[number + 1] ?? this.text.length) - 1;
  }

  path(number) {
    return this.text.slice(this.text.indexOf('/', this.starts[number]), this.end(number));
  }

  // The number of the line of a path, or -1. All that is in a folder comes right after it.
  find(path, from = 0) {
    if (path === '/') return 0;
    for (let number = from; number < this.starts.length; number += 1) if (this.path(number) === path) return number;
    return -1;
  }

  /** Returns the entries in a folder from a number on, at most 300, and how many there are in all. */
  folder(path, from = 0) {
    const at = this.find(path);
    if (at < 0) return null;
    const prefix = path === '/' ? '/' : `${path}/`;
    const inside = [];
    let count = 0;
    for (let number = at + 1; number < this.starts.length; number += 1) {
      const one = this.path(number);
      if (!one.startsWith(prefix)) break;
      if (one.includes('/', prefix.length)) continue;
      if (count >= from && inside.length < MOST_ENTRIES) inside.push(this.about(number));
      count += 1;
    }
    return { entry: this.about(at), inside, count };
  }

  about(number) {
    const { path, kind, mode, owner, content } = entryOf(this.line(number));
    return { path, kind, mode, owner, size: content === null ? 0 : content.length / 2 };
  }

  /** Returns the content of a file, as text or in hexadecimal, up to 65,536 bytes, and its size. */
  content(path) {
    const at = this.find(path);
    if (at < 0) return null;
    const { content } = entryOf(this.line(at));
    const bytes = bytesOfHex(content.slice(0, 2 * MOST_BYTES));
    const size = content.length / 2;
    return { text: textOf(bytes) ?? hexLines(bytes).join('\n'), size, isCut: bytes.length < size };
  }
}
