/**
 * Answers cases by the module of WebAssembly, as the program would: `node module_answers.mjs MACHINE MODULE < CASES`.
 *
 * MACHINE is machine.mjs of the page. CASES has a line of JSON for each case: the command, its definition or text, the
 * trees of local sources by name, a number of workers and the session's commands, bytes in base64. A line for each
 * answer: the status, what is written, and the messages, or why the module stopped.
 */

import fs from 'node:fs';
import path from 'node:path';
import { pathToFileURL } from 'node:url';

const [from, module] = process.argv.slice(2);
const { Machine, Trap } = await import(pathToFileURL(path.resolve(from)));
const machine = await Machine.from(fs.readFileSync(module));

const decoder = new TextDecoder();
const bytesOf = (text) => new Uint8Array(Buffer.from(text, 'base64'));
const told = (handle, status) => ({ status, out: handle.output(), err: handle.messages() });

// The lines of commands, as texts: the last one counts without an end, and nothing after the last end is a line.
function* linesOf(commands) {
  for (let at = 0; at < commands.length;) {
    const found = commands.indexOf(10, at);
    const end = found < 0 ? commands.length : found;
    yield decoder.decode(commands.subarray(at, end));
    at = end + 1;
  }
}

function stepped(handle, given) {
  const status = handle.open(bytesOf(given.definition), given.workers);
  if (status) return told(handle, status);
  const parts = [];
  for (const line of linesOf(bytesOf(given.commands))) {
    const after = handle.line(line);
    parts.push(handle.output());
    if (after === 1) break;
    if (after) return { status: after, out: Buffer.concat(parts), err: handle.messages() };
  }
  return { status: 0, out: Buffer.concat(parts), err: '' };
}

function answered(given) {
  const handle = machine.handle();
  for (const [name, text] of given.locals) {
    const status = handle.local(name, bytesOf(text));
    if (status) return told(handle, status);
  }
  if (given.command === 'step') return stepped(handle, given);
  return told(handle, handle[given.command](bytesOf(given.definition)));
}

for (const line of fs.readFileSync(0, 'utf8').split('\n')) {
  if (line === '') continue;
  let answer;
  try {
    const { status, out, err } = answered(JSON.parse(line));
    answer = { status, out: Buffer.from(out).toString('base64'), err };
  } catch (fault) {
    if (!(fault instanceof Trap)) throw fault;
    answer = { trap: fault.message };
  }
  process.stdout.write(`${JSON.stringify(answer)}\n`);
}
