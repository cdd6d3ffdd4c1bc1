/** What a session shows of its trees: those that a worker works on, the outputs of vertices, and caches. */

import { isFailure } from './record.mjs';
import { BEFORE, GIVEN } from './session.mjs';

const PART = /^([0-9]+) (local|input|result [0-9]+|laid|mount \/.*)$/;
const KEY = /^([0-9]+) (shared|locked|private) ([0-9]+) (\S+) (.*)$/;

/** Returns the trees that a worker works on: each with its role in words and the line that asks for it. */
export function partsOf(session, worker) {
  const found = [];
  for (const line of session.lines(`work ${worker}`)) {
    const part = PART.exec(line);
    if (part) {
      const name = part[2] === 'input' ? `input ${part[1]}` : part[2];
      found.push({ number: Number(part[1]), role: part[2], name, line: `work ${worker} ${part[1]}` });
    }
  }
  return found;
}

/** Returns the keys of the caches: number, mode, count of instances, seed and ID. An ID can have line ends. */
export function keysOf(session) {
  const found = [];
  for (const line of session.lines('caches')) {
    const key = KEY.exec(line);
    if (key && Number(key[1]) === found.length) {
      const [, number, mode, instances, seed, id] = key;
      found.push({ number: Number(number), mode, instances: Number(instances), seed, id });
    } else if (found.length) found.at(-1).id += `\n${line}`;
  }
  return found;
}

/** Returns the workers whose vertices mount a key, as `worker 0 (vertex 2, at /cache)`. */
export function holdersOf(key, statuses, vertices) {
  const found = [];
  for (const { vertex, worker } of statuses.running()) {
    const isOf = (mount) => mount.isCache && mount.id === key.id && mount.mode === key.mode && mount.seed === key.seed;
    for (const mount of vertices[vertex]?.mounts.filter(isOf) ?? []) {
      found.push(`worker ${worker} (vertex ${vertex}, at ${mount.dest})`);
    }
  }
  return found;
}

const MOST_OUTPUTS = 200;

// The trees of the vertices that are done: the first ones, and the result's.
function outputsOf(session, statuses) {
  const found = [];
  const add = (vertex) => {
    const { outputs } = session.graph.vertices[vertex];
    for (let i = 0; i < outputs; i += 1) found.push({ name: `output ${vertex}.${i}`, line: `tree ${vertex} ${i}` });
  };
  for (const vertex of statuses.all('done')) {
    if (found.length >= MOST_OUTPUTS) break;
    add(vertex);
  }
  const result = Number.parseInt(session.graph.result, 10);
  const hasResult = found.some(({ line }) => line.startsWith(`tree ${result} `));
  if (!hasResult && statuses.of(result).word === 'done') add(result);
  return found;
}

/** Returns the trees that a vertex had when it failed, if the last event settled it. */
export function partsLeft(session) {
  const { event } = session.ways.at;
  if (!event || !isFailure(event)) return [];
  const parts = session.before(() => partsOf(session, event.worker));
  return parts.map(({ name, line }) => ({ name: `${name}, when it failed`, line: BEFORE + line }));
}

/** Returns the trees that can be chosen: of local sources, running workers, caches, and of up to 200 vertices. */
export function allTrees(session) {
  const found = [...session.locals.keys()].map((name) => ({ name: `local source ${name}`, line: GIVEN + name }));
  const statuses = session.statuses();
  const workers = statuses.running().map(({ worker }) => worker);
  for (const worker of workers.sort((a, b) => a - b)) {
    for (const { name, line } of partsOf(session, worker)) found.push({ name: `worker ${worker}, ${name}`, line });
  }
  for (const key of keysOf(session)) {
    for (let i = 0; i < key.instances; i += 1) {
      found.push({ name: `cache ${key.id}, instance ${i} (${key.mode})`, line: `cache ${key.number} ${i}` });
    }
  }
  return [...found, ...partsLeft(session), ...outputsOf(session, statuses)];
}
