/** Why the event of a place failed, as the machine says it, and which event last changed the path in its cause. */

import { namesOf } from './names.mjs';
import { failedPlace, isFailure, isFault } from './record.mjs';

const WITH_A_PATH = [
  /^(?:nothing is at|there is no (?:file|directory)) (\/.*)$/s,
  /^(\/.*) (?:is a directory|is a file|is there already|is where a mount is)$/s,
];
const OF_THE_SOURCE = ' in the tree that it copies from';
// In place of the name of a tree: all trees of a vertex.
const ALL = '';

// The place after the step that failed, if the event of a place is one or settled its vertex.
function placeOfFailure(place) {
  if (!place.event) return null;
  if (isFailure(place.event)) return failedPlace(place);
  return isFault(place.event) ? place : null;
}

// The number of the command or action that failed, by the reply to its step.
function partIn(reply) {
  const [, kind, number] = /^(ran|fault) ([0-9]+) /.exec(reply ?? '') ?? [];
  return number === undefined ? null : { isAction: kind === 'fault', number: Number(number) };
}

// The path of a view in the tree of its mount, which is the one with the longest dest that the path begins with.
function inMount(path, mounts) {
  const names = namesOf(path);
  const around = mounts.map((mount) => ({ mount, dest: namesOf(mount.dest) }))
    .filter(({ dest }) => dest.every((name, i) => name === names[i]));
  const nearest = around.sort((a, b) => b.dest.length - a.dest.length)[0];
  if (!nearest) return null;
  const all = [...namesOf(nearest.mount.selector), ...names.slice(nearest.dest.length)];
  return { tree: { mount: nearest.mount }, path: `/${all.join('/')}` };
}

// The tree that an action works on, or copies from: an input of its op by its number, or the result of an action.
function inAction(words, path, action) {
  return action ? { tree: { input: words.endsWith(OF_THE_SOURCE) ? action.from : action.input }, path } : null;
}

/** Returns why the step failed by which the session's place is a failure: words, and a path if they name one. */
export function causeOf(session) {
  const { at } = session.ways;
  const failed = placeOfFailure(at);
  const part = partIn(failed?.event.reply);
  if (part === null) return null;
  const { worker, vertex } = failed.event;
  session.to(failed);
  const [words] = session.lines(`why ${worker} ${part.number}`);
  session.to(at);
  if (!words || words === 'none' || words.startsWith('fault ')) return null;
  const named = words.endsWith(OF_THE_SOURCE) ? words.slice(0, -OF_THE_SOURCE.length) : words;
  const path = WITH_A_PATH.map((form) => form.exec(named)?.[1]).find(Boolean) ?? null;
  const entry = session.entries[vertex];
  const find = () => (part.isAction
    ? inAction(words, path, entry?.actions[part.number]) : inMount(path, entry?.mounts ?? []));
  return { words, number: failed.event.number, vertex, shown: path, ...(path === null ? null : find()) };
}

/** Which steps can have made a tree: the trees of each vertex by their names, or all of them. */
class Makers {
  constructor(session) {
    this.session = session;
    this.parts = new Map();
    this.left = [];
  }

  add(vertex, part) {
    if (!this.parts.has(vertex)) this.parts.set(vertex, new Set());
    this.parts.get(vertex).add(part);
  }

  // An input of a vertex is the output of another one.
  addInput(vertex, number) {
    const input = this.session.graph.vertices[vertex].inputs[number];
    if (input) this.left.push(input);
  }

  addMount(vertex, { dest, input }) {
    this.add(vertex, `mount /${namesOf(dest).join('/')}`);
    this.addInput(vertex, input);
  }

  // What an action works on: an input, or the result of an action before it, which began with one, and so on.
  addWorkedOn(vertex, number) {
    const inputs = this.session.graph.vertices[vertex].inputs.length;
    let one = number;
    while (one >= inputs) {
      this.add(vertex, `result ${one - inputs}`);
      one = this.session.entries[vertex].actions[one - inputs]?.input ?? -1;
    }
    this.addInput(vertex, one);
  }

  // An output of an exec is a mount, and that of a file op the result of an action.
  addOutput({ vertex, output }) {
    const { inputs } = this.session.graph.vertices[vertex];
    const isMade = (one) => one.output === output;
    const { actions, mounts } = this.session.entries[vertex] ?? { actions: [], mounts: [] };
    const mount = mounts.find(isMade);
    if (mount) this.addMount(vertex, mount);
    else if (actions.some(isMade)) this.addWorkedOn(vertex, inputs.length + actions.findIndex(isMade));
    else {
      this.add(vertex, ALL);
      this.left.push(...inputs);
    }
  }

  // Follows all inputs that are left; each output once.
  complete() {
    const seen = new Set();
    while (this.left.length) {
      const one = this.left.pop();
      const key = `${one.vertex}.${one.output}`;
      if (!seen.has(key)) this.addOutput(one);
      seen.add(key);
    }
    return this.parts;
  }
}

/**
 * Returns what tells whether a change of the path in a cause, by an event and the name of a tree, was one of the tree
 * that failed: of the vertex's own, or of what was made of it at and before its input. A cache is everybody's.
 */
export function makersOf(session, { vertex, tree }) {
  const makers = new Makers(session);
  if (tree.mount?.isCache) return (event, name) => name.startsWith(`cache ${tree.mount.id}, instance `);
  if (tree.mount) makers.addMount(vertex, tree.mount);
  else makers.addWorkedOn(vertex, tree.input);
  const parts = makers.complete();
  return ({ vertex: one }, name) => {
    const names = parts.get(one);
    return Boolean(names?.has(name) || names?.has(ALL));
  };
}
