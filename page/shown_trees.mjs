/**
 * What the page shows of trees, made from a session of its own: a worker does this, so that a step never waits for it.
 * The session goes to the place of the page's own session by the same events, and each line has to be the same.
 */

import { causeOf, makersOf } from './causes.mjs';
import { changesInWords, changesOf, wordsOf } from './changes.mjs';
import { keepSaid } from './definition.mjs';
import { pictureType, rowsOf } from './differences.mjs';
import { FolderIndex } from './folder_index.mjs';
import { allTrees, holdersOf, keysOf } from './looks.mjs';
import { commandsOf, compareOrders } from './orders.mjs';
import { eventOf } from './record.mjs';
import { PathIndex } from './search.mjs';
import { Session } from './session.mjs';
import { summaryOf, summaryOfTree } from './summary.mjs';
import { bytesOfHex, linesOf } from './tree_text.mjs';

const MOST_CHANGES = 200;
const MOST_EVENTS = 1000;
const MOST_OF_A_PICTURE = 4 << 20;

// The line of the tree that an event is about: one that it changed or brought, or else one of its worker's.
function treeOfEvent({ event, compared, trees }, all) {
  const line = compared[0]?.line ?? trees[0]?.line;
  if (line) return line;
  const ofWorker = event ? all.filter((tree) => tree.line.startsWith(`work ${event.worker} `)) : [];
  return (ofWorker.at(-1) ?? (event ? all.at(-1) : all[0]))?.line ?? '';
}

function shown({ name, line, changes }) {
  const count = (kind) => changes.filter((change) => change.kind === kind).length;
  return {
    name, line, counts: Object.fromEntries(['added', 'removed', 'changed'].map((kind) => [kind, count(kind)])),
    summary: summaryOf(changes), more: Math.max(0, changes.length - MOST_CHANGES),
    changes: changes.slice(0, MOST_CHANGES).map((change) => ({
      path: change.path, kind: change.kind, words: wordsOf(change),
      hasContent: [change.before, change.after].some((entry) => entry?.kind === 'f'),
    })),
  };
}

/** A session for looks, and what it showed last. */
export class Looks {
  constructor(machine, { definition, digests, ops, locals, workers, isKept }) {
    keepSaid(definition, { digests, ops });
    this.given = [machine, definition, locals, workers];
    if (isKept) globalThis.llbmTranscript = [];
    this.session = new Session(...this.given);
    this.entries = this.session.entries;
    this.last = [];
    this.indexes = new Map();
    this.paths = null;
    this.cause = null;
  }

  // Goes to a place: back over a number of events, and forth by lines of a record, which have to be the machine's.
  go(back, lines) {
    for (let n = 0; n < back; n += 1) this.session.back();
    for (const line of linesOf(lines)) {
      const event = this.session.event(eventOf(line).command);
      if (event?.line !== line) throw new Error(`the machine says "${event?.line}", and before "${line}"`);
    }
  }

  /** Goes back and forth to a place, and returns what its event did, all trees that can be shown, and the caches. */
  look(back, lines, chosen) {
    this.go(back, lines);
    this.indexes.clear();
    const { session } = this;
    const { event } = session.ways.at;
    const found = changesOf(session, event ? this.entries[event.vertex] : null);
    const compared = found.compared.filter(({ changes }) => changes.length);
    this.last = compared;
    const trees = allTrees(session);
    const statuses = session.statuses();
    this.cause = causeOf(session);
    return {
      cause: this.cause && { words: this.cause.words, path: this.cause.path ? this.cause.shown : null },
      compared: compared.map(shown), trees, usual: treeOfEvent({ ...found, compared }, trees),
      spoken: changesInWords(compared), hasChosen: chosen !== '' && session.tree(chosen) !== null,
      caches: keysOf(session).map((key) => ({ ...key, holders: holdersOf(key, statuses, this.entries) })),
    };
  }

  /** Returns the contents of a changed path before and after: rows, and pictures where they are some. */
  contents(part, path, wantsHex) {
    const change = this.last[part].changes.find((one) => one.path === path);
    const bytesOf = (entry) => (entry?.kind === 'f' ? bytesOfHex(entry.content) : null);
    const bytes = [change.before, change.after].map(bytesOf);
    const types = bytes.map((one) => (one && one.length <= MOST_OF_A_PICTURE ? pictureType(one) : ''));
    const arePictures = bytes.every((one, i) => one === null || types[i]);
    const pictures = arePictures ? bytes.map((one, i) => one && { type: types[i], bytes: one }) : null;
    return { ...rowsOf(...bytes, wantsHex), pictures };
  }

  indexOf(line) {
    if (!this.indexes.has(line)) {
      const text = this.session.tree(line);
      this.indexes.set(line, text === null ? null : new FolderIndex(text));
    }
    return this.indexes.get(line);
  }

  /** Returns the entries of a folder of a tree, from a number on, with the entry itself; null if there is no tree. */
  folder(line, path, from) {
    return this.indexOf(line)?.folder(path, from) ?? null;
  }

  /** Returns the content of a file of a tree: its text or its bytes in hexadecimal, and whether it is cut. */
  file(line, path) {
    return this.indexOf(line)?.content(path) ?? null;
  }

  /** Returns the summary of a whole tree. */
  summary(line) {
    const text = this.session.tree(line);
    return text === null ? [] : summaryOfTree(text);
  }

  /** Returns the events that made, changed or removed paths with a text in them, in the order of the run. */
  async search(text, lines) {
    if (this.paths?.lines !== lines) {
      this.paths = { lines, index: new PathIndex(new Session(...this.given, false), this.entries) };
    }
    return this.paths.index.find(text, linesOf(lines).map(eventOf));
  }

  /** Returns the event before the failure that changed the path in its cause last, or null; none of very many. */
  async touched() {
    const { cause, session } = this;
    const events = session.ways.path().map(({ event }) => event).filter((one) => one && one.number < cause.number);
    if (events.length > MOST_EVENTS) return { more: MOST_EVENTS };
    const index = new PathIndex(new Session(...this.given, false), this.entries);
    return index.lastChange(events, cause.path, makersOf(session, cause));
  }

  /** Returns how two orders of the run, given by their records, compare vertex by vertex. */
  orders(first, second) {
    const session = () => new Session(...this.given, false);
    const commands = (lines) => commandsOf(linesOf(lines));
    return compareOrders([session(), session()], [commands(first), commands(second)], this.entries);
  }

  /** Returns all lines that the session for looks was asked, with their answers. */
  transcript() {
    return globalThis.llbmTranscript ?? [];
  }
}
