/**
 * Two orders of one run, compared: which worker claimed each vertex, and when; and whether each vertex ended in the
 * same way with equal outputs. By the laws of the machine those do that have no cache mount at or before them.
 */

import { eventOf } from './record.mjs';

// Does the commands of a record in a new session, and goes on to the end as the machine chooses.
function ended(session, commands) {
  for (const command of commands) session.event(command);
  session.end();
  return session;
}

function claimsOf(session) {
  const claims = new Map();
  for (const { event } of session.ways.path()) {
    if (event?.kind === 'claim') claims.set(event.vertex, { worker: event.worker, number: event.number });
    else if (event?.kind === 'cancel') claims.delete(event.vertex);
  }
  return claims;
}

// Whether a cache mount is at or before each vertex. Inputs have smaller numbers than their users.
function cachedIn(vertices, entries) {
  const found = [];
  for (const { number, inputs } of vertices) {
    const mounts = entries[number]?.mounts ?? [];
    found.push(mounts.some((mount) => mount.isCache) || inputs.some(({ vertex }) => found[vertex]));
  }
  return found;
}

function isSame(first, second, vertex, outputs) {
  for (let output = 0; output < outputs; output += 1) {
    const line = `tree ${vertex} ${output}`;
    if (first.tree(line) !== second.tree(line)) return false;
  }
  return true;
}

/** Returns the lines of a record as commands. */
export function commandsOf(lines) {
  return lines.map((line) => eventOf(line).command);
}

/**
 * Returns for each vertex its claims in two orders, its status in both, whether it ended the same, and whether a cache
 * mount is at or before it. The sessions are new ones.
 */
export function compareOrders([one, other], [firstCommands, secondCommands], entries) {
  const first = ended(one, firstCommands);
  const second = ended(other, secondCommands);
  const statuses = [first.statuses(), second.statuses()];
  const claims = [claimsOf(first), claimsOf(second)];
  const { vertices } = first.graph;
  const cached = cachedIn(vertices, entries);
  return vertices.map(({ number, outputs }) => {
    const words = statuses.map((each) => `${each.of(number).word} ${each.of(number).rest}`.trim());
    return {
      vertex: number, claims: claims.map((each) => each.get(number) ?? null), statuses: words, isCached: cached[number],
      isSame: words[0] === words[1] && isSame(first, second, number, outputs),
    };
  });
}

/** Returns what two orders have in common, in words. */
export function ordersInWords(rows) {
  const count = (is) => rows.filter(is).length;
  const [same, plain] = [count((row) => row.isSame), count((row) => !row.isCached)];
  const samePlain = count((row) => row.isSame && !row.isCached);
  const moved = count(({ claims: [a, b] }) => a?.worker !== b?.worker || a?.number !== b?.number);
  const words = `${same} of ${rows.length} vertices ended the same in both orders, with equal trees, and ${moved} were `
    + 'claimed by another worker or at another event.';
  const law = samePlain === plain ? 'all' : `only ${samePlain}`;
  return `${words} Of the ${plain} without a cache mount at or before them, ${law} ended the same.`;
}
