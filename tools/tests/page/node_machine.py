"""A machine of Node in the place of the page's, for tests of modules that ask it for digests, findings and ops."""

# Gives `from`, which imports a module of the page, and `machineOf`, which makes a machine that finds the lines and has
# the ops that are given. A text that is only to be digested it digests by Node, any other is assembled by the program.
# The words of the command line are the page's folder, its tables and the program.
MACHINE = """
import { createHash } from 'node:crypto';
import { spawnSync } from 'node:child_process';
import fs from 'node:fs';
const [page, tables, program] = process.argv.slice(1);
const from = (name) => import(`${page}/${name}`);
(await from('tables.mjs')).fill(JSON.parse(fs.readFileSync(tables)));
const MOST = 1 << 26;
const record = (bytes) => Buffer.concat([Buffer.from([10, bytes.length & 127 | 128, bytes.length >> 7 & 127 | 128,
  bytes.length >> 14]), bytes]);
function digested(text) {
  const raw = [...text.matchAll(/^raw (.*)$/gm)].map(([, hex]) => Buffer.from(hex === '-' ? '' : hex, 'hex'));
  const digests = raw.map((bytes) => `sha256:${createHash('sha256').update(bytes).digest('hex')}`);
  return record(Buffer.concat(digests.map((digest) => record(record(Buffer.from(digest))))));
}
class Handle {
  constructor(lines, ops) { Object.assign(this, { lines, given: ops }); }
  findings() { this.out = this.lines; return this.lines ? 2 : 0; }
  ops() { this.out = Buffer.from(this.given); return 0; }
  asm(text) {
    if (text.startsWith('raw ')) return this.done({ status: 0, stdout: digested(text), stderr: '' });
    return this.done(spawnSync(program, ['asm'], { input: text, maxBuffer: MOST }));
  }
  done({ status, stdout, stderr }) {
    [this.out, this.said] = [stdout, String(stderr)];
    return status;
  }
  output() { return this.out; }
  text() { return this.out; }
  messages() { return this.said; }
}
const machineOf = (lines, ops = '') => ({ handle: () => new Handle(lines, ops) });
"""
