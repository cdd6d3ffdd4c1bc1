/** The rows of a definition that the machine refuses, and which of them lead to its result. */

const NO_OP = 82;

/** Returns rows with their inputs before them, as far as there is no cycle, given the rows that each one names. */
export function inputsFirst(rows, linksOf) {
  const order = [];
  const seen = new Set();
  for (const start of rows) {
    const waiting = [[start, false]];
    while (waiting.length) {
      const [row, isDone] = waiting.pop();
      if (isDone) order.push(row);
      else if (!seen.has(row)) {
        seen.add(row);
        waiting.push([row, true], ...linksOf(row).map((one) => [one, false]));
      }
    }
  }
  return order;
}

/** The rows by digest, and the ops among them. A row that is equal to an earlier one is left out. */
export class Rows {
  constructor(entries, findings) {
    const none = new Set(findings.filter(({ number }) => number === NO_OP).map(({ row }) => row));
    this.entries = entries;
    this.named = new Map();
    this.ops = new Map();
    for (const { row, digest, op } of entries) {
      if (this.named.has(digest)) continue;
      this.named.set(digest, row);
      if (op && !none.has(row)) this.ops.set(row, op);
    }
    this.terminal = this.named.get(entries.at(-1)?.digest) ?? -1;
  }

  /** Returns the rows that a row names, without itself and without rows that are not there. */
  linksOf(row) {
    const inputs = this.ops.get(row)?.inputs ?? [];
    return inputs.map(({ digest }) => this.named.get(digest)).filter((one) => one !== undefined && one !== row);
  }

  /** Returns the rows that lead to the result and are ops, and the terminal. */
  reached() {
    const found = new Set();
    const result = this.ops.get(this.terminal)?.inputs[0];
    const left = result ? [this.named.get(result.digest)] : [];
    while (left.length) {
      const row = left.pop();
      if (row === this.terminal || found.has(row) || !this.ops.has(row)) continue;
      found.add(row);
      left.push(...this.linksOf(row));
    }
    return found.add(this.terminal);
  }
}
