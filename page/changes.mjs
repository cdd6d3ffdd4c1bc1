/** What an event changed: trees before and after it, compared path by path. */

import { keysOf, partsLeft, partsOf } from './looks.mjs';
import { entryOf, linesByPath } from './tree_text.mjs';

const EMPTY = 'd 0755 0 0 /\n';
const MOST_SPOKEN = 3;

/** Returns the paths that differ between two texts of trees, in path order, each with its entry before and after. */
export function compared(before, after) {
  if (before === after) return [];
  const old = linesByPath(before);
  const found = [];
  for (const [path, line] of linesByPath(after)) {
    const was = old.get(path);
    if (was !== line) found.push({ path, before: was ? entryOf(was) : null, after: entryOf(line) });
    old.delete(path);
  }
  for (const [path, line] of old) found.push({ path, before: entryOf(line), after: null });
  return found.map((change) => ({ ...change, kind: kindOf(change) }));
}

function kindOf({ before, after }) {
  if (!before) return 'added';
  return after ? 'changed' : 'removed';
}

/** Returns what differs between two entries of one path, in words. */
export function wordsOf({ before, after }) {
  if (!before || !after) {
    const one = before ?? after;
    return `${one.kind === 'd' ? 'directory' : `file, ${one.content.length / 2} bytes`}, ${one.mode} ${one.owner}`;
  }
  const found = [];
  if (before.kind !== after.kind) found.push(before.kind === 'd' ? 'a file now' : 'a directory now');
  if (before.content !== after.content && before.kind === after.kind) {
    found.push(`${before.content.length / 2} to ${after.content.length / 2} bytes`);
  }
  if (before.mode !== after.mode) found.push(`mode ${before.mode} to ${after.mode}`);
  if (before.owner !== after.owner) found.push(`owner ${before.owner} to ${after.owner}`);
  return found.join(', ');
}

function workTexts(session, worker) {
  return new Map(partsOf(session, worker).map(({ name, line }) => [name, { line, text: session.tree(line) }]));
}

function cacheTexts(session) {
  const found = new Map();
  for (const key of keysOf(session)) {
    for (let i = 0; i < key.instances; i += 1) {
      const line = `cache ${key.number} ${i}`;
      found.set(`cache ${key.id}, instance ${i}`, { line, text: session.tree(line) });
    }
  }
  return found;
}

function textsOf(session, worker) {
  return { work: workTexts(session, worker), caches: cacheTexts(session) };
}

// An action's result is compared with the tree that the action was done on.
function baseOf(name, session, event, entry, texts) {
  const result = /^result ([0-9]+)$/.exec(name);
  const input = entry?.actions[Number(result?.[1])]?.input ?? -1;
  if (!result || input < 0) return EMPTY;
  const inputs = session.graph.vertices[event.vertex].inputs.length;
  return texts.get(input < inputs ? `input ${input}` : `result ${input - inputs}`)?.text ?? EMPTY;
}

function pairsOfStep(session, event, entry, before, after) {
  const pairs = [];
  for (const [name, { line, text }] of after.work) {
    const old = before.work.get(name)?.text ?? baseOf(name, session, event, entry, after.work);
    if (text !== null && old !== text) pairs.push({ name, line, before: old, after: text });
  }
  for (const [name, { line, text }] of after.caches) {
    const old = before.caches.get(name)?.text ?? EMPTY;
    if (text !== null && old !== text) pairs.push({ name, line, before: old, after: text });
  }
  return pairs;
}

function treesOf(session, event) {
  if (event.kind === 'claim') {
    return partsOf(session, event.worker).map(({ name, line }) => ({ name, line }));
  }
  if (event.kind !== 'settle') return [];
  if (!event.reply.endsWith(' done')) return partsLeft(session);
  const { outputs } = session.graph.vertices[event.vertex];
  return Array.from({ length: outputs }, (_, i) => ({ name: `output ${i}`, line: `tree ${event.vertex} ${i}` }));
}

/**
 * Returns what the event at a session's place did: the trees that it changed, compared, and the trees that it brought
 * as a whole. The trees before it are asked for after an exact step back, and then it is done again. `entry` is what
 * the definition says of the event's vertex.
 */
export function changesOf(session, entry) {
  const { event } = session.ways.at;
  if (!event) return { event: null, compared: [], trees: [] };
  const trees = treesOf(session, event);
  if (event.kind === 'claim' || event.kind === 'settle') {
    const after = cacheTexts(session);
    if (!after.size) return { event, compared: [], trees };
    const before = session.before(() => cacheTexts(session));
    const [old, now] = [before, after].map((caches) => ({ work: new Map(), caches }));
    return { event, trees, compared: shown(pairsOfStep(session, event, entry, old, now)) };
  }
  const after = textsOf(session, event.worker);
  const before = session.before(() => textsOf(session, event.worker));
  return { event, trees, compared: shown(pairsOfStep(session, event, entry, before, after)) };
}

function shown(pairs) {
  return pairs.map(({ name, line, before, after }) => ({ name, line, changes: compared(before, after) }));
}

/** Returns what an event changed in a few words, as `added /a; changed /b, /c`; empty where it changed nothing. */
export function changesInWords(parts) {
  const changes = parts.flatMap((part) => part.changes);
  return ['added', 'removed', 'changed'].flatMap((kind) => {
    const paths = [...new Set(changes.filter((change) => change.kind === kind).map(({ path }) => path))];
    const more = paths.length > MOST_SPOKEN ? ` and ${paths.length - MOST_SPOKEN} more` : '';
    return paths.length ? [`${kind} ${paths.slice(0, MOST_SPOKEN).join(', ')}${more}`] : [];
  }).join('; ');
}
