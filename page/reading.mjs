/** Reading of what a person gives, by workers: files for a local source, and definitions. */

import { Calls } from './calls.mjs';
import { disassembled, keepRead, readDefinition } from './session.mjs';

// A definition of so many bytes is read at once, and its text made, and that of a larger one by a worker.
const MOST_AT_ONCE = 10000;
const texts = new WeakMap();

// Returns a promise of the one answer of a worker.
async function answerOf(worker, ...call) {
  const calls = new Calls(worker);
  try {
    return await calls.call(...call);
  } finally {
    calls.end();
  }
}

function readByWorker(machine, call, ...args) {
  return answerOf(new Worker('definition_worker.mjs', { type: 'module' }), call, machine.module, ...args);
}

/** Returns a promise of the tree text of a file (a tar, also packed, or a tree's text), and what was left out. */
export function treeOfFile(file) {
  return answerOf(new Worker('sources_worker.mjs', { type: 'module' }), 'tree', file);
}

/**
 * Returns a promise of a definition, given by its bytes or by the text of its entries, with the names of its local
 * sources. What a machine says of it is kept.
 */
export async function definitionOf(machine, bytes, isWritten) {
  if (bytes.length <= MOST_AT_ONCE) return readDefinition(machine, bytes, isWritten);
  const { definition, names, ...read } = await readByWorker(machine, 'read', bytes, isWritten);
  keepRead(definition, read);
  return { definition, names };
}

/** Returns a promise of the text of the entries of a definition, which is kept with its bytes. */
export function textOf(machine, definition) {
  const made = async () => {
    if (definition.length <= MOST_AT_ONCE) return disassembled(machine, definition);
    return readByWorker(machine, 'text', definition);
  };
  if (!texts.has(definition)) texts.set(definition, made());
  return texts.get(definition);
}
