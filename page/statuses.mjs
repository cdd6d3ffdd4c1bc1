/**
 * The statuses of a session's vertices, as the text that the machine answers to `status`: a line for each vertex. Only
 * the lines that are asked for are read, since a step changes a few of up to 65,536.
 */

const LINE = /^[0-9]+ ([a-z]+) ?(.*)$/;
const SPACE = 32;

/** Statuses by vertex. */
export class Statuses {
  constructor(text) {
    this.text = text;
    this.starts = null;
  }

  // Where each line begins.
  lines() {
    if (!this.starts) {
      this.starts = [];
      for (let at = 0; at < this.text.length; at = this.text.indexOf('\n', at) + 1) this.starts.push(at);
    }
    return this.starts;
  }

  /** Returns the status of a vertex: a word, the rest of its line, and the worker that runs it or null. */
  of(vertex) {
    const start = this.lines()[vertex];
    const line = start === undefined ? '' : this.text.slice(start, this.text.indexOf('\n', start));
    const [, word, rest] = LINE.exec(line) ?? ['', 'waiting', ''];
    return { word, rest, worker: word === 'running' ? Number(rest) : null };
  }

  /** Returns the word of a vertex's status. */
  wordOf(vertex) {
    const start = this.lines()[vertex];
    if (start === undefined) return 'waiting';
    const word = this.text.indexOf(' ', start) + 1;
    let end = word;
    for (let code = this.text.charCodeAt(end); code > SPACE; code = this.text.charCodeAt(end)) end += 1;
    return this.text.slice(word, end);
  }

  /** Returns the vertices with a status of a word. */
  * all(word) {
    const mark = ` ${word}`;
    for (let at = this.text.indexOf(mark); at >= 0; at = this.text.indexOf(mark, at + 1)) {
      const line = LINE.exec(this.text.slice(this.text.lastIndexOf('\n', at) + 1, this.text.indexOf('\n', at)));
      if (line?.[1] === word) yield Number.parseInt(line[0], 10);
    }
  }

  /** Returns the vertices that run, each with its worker. */
  running() {
    return [...this.all('running')].map((vertex) => ({ vertex, worker: this.of(vertex).worker }));
  }

  /** Returns how many vertices have a status of a word. */
  count(word) {
    return [...this.all(word)].length;
  }
}
