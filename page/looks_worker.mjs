/** The worker that makes the page's looks: one call after another, but for searches, each with its answer. */

import { answer } from './answering.mjs';
import { Looks } from './shown_trees.mjs';
import { Machine } from './machine.mjs';
import { loadTables } from './tables.mjs';

let looks = null;
const given = {};
let last = Promise.resolve();

async function answered(call, args) {
  if (call === 'give') return void Object.assign(given, args[0]);
  if (call === 'open') {
    await loadTables('tables.json');
    looks = new Looks(new Machine(args[0].module), { ...given, ...args[0] });
    return null;
  }
  return looks[call](...args);
}

// What has a session of its own and goes on in slices: nothing waits for it.
const IN_SLICES = new Set(['search', 'touched']);

addEventListener('message', ({ data }) => {
  const done = last.then(() => answer(data, answered));
  if (!IN_SLICES.has(data.call)) last = done;
});
