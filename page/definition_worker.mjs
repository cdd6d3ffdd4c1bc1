/** The worker that reads a definition or a text of entries, or makes that text, so that a long one stops no page. */

import { answer } from './answering.mjs';
import { Machine } from './machine.mjs';
import { disassembled, readDefinition } from './session.mjs';
import { loadTables } from './tables.mjs';

const CALLS = {
  text: (machine, definition) => disassembled(machine, definition),
  read: async (machine, bytes, isWritten) => {
    await loadTables('tables.json');
    return readDefinition(machine, bytes, isWritten);
  },
};

addEventListener('message', ({ data }) => answer(data, (call, [module, ...args]) => (
  CALLS[call](new Machine(module), ...args))));
