/** Why a worker can do nothing now. */

function keyOf({ id, mode, seed }) {
  return JSON.stringify([id, mode, seed]);
}

// The locked caches that running vertices hold, each with who holds it in words.
function heldKeys(statuses, entries) {
  const held = new Map();
  for (const { vertex, worker } of statuses.running()) {
    for (const mount of entries[vertex]?.mounts ?? []) {
      if (mount.isCache && mount.mode === 'locked') {
        held.set(keyOf(mount), `the locked cache ${mount.id}, which worker ${worker} holds for vertex ${vertex}`);
      }
    }
  }
  return held;
}

/** Returns in words why an idle worker finds no vertex to claim, given the statuses and the entries of the vertices. */
export function whyIdle(worker, statuses, entries) {
  const held = heldKeys(statuses, entries);
  const ready = [...statuses.all('ready')];
  const waits = ready.map((vertex) => {
    const holders = (entries[vertex]?.mounts ?? []).map((mount) => held.get(keyOf(mount))).filter(Boolean);
    return `vertex ${vertex} waits for ${[...new Set(holders)].join(' and ') || 'what another worker holds'}`;
  });
  const idle = `Worker ${worker} can do nothing now`;
  if (waits.length) return `${idle}: ${waits.join('; ')}.`;
  const running = statuses.running().map((one) => `vertex ${one.vertex} (worker ${one.worker})`);
  if (running.length) return `${idle}: no vertex is ready before ${running.join(' or ')} is settled.`;
  return `${idle}: no vertex is left.`;
}
