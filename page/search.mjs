/** Which events of a run made, changed or removed a path: the changes of each event, found by a session of its own. */

import { changesOf } from './changes.mjs';

const MOST_FOUND = 100;
const SLICE = 12;

const pause = () => new Promise((done) => { setTimeout(done, 0); });

/** The paths that the events of a run changed. After the events that are given the machine chooses. */
export class PathIndex {
  constructor(session, entries) {
    this.session = session;
    this.entries = entries;
    this.found = [];
    this.isComplete = false;
  }

  // Does the next event and keeps what it changed; returns whether there was one.
  step(given) {
    const event = given ? this.session.event(given.command) : this.session.event('next');
    if (!event) return false;
    const { vertex } = this.session.ways.at.event;
    const changes = new Map();
    for (const { name, changes: changed } of changesOf(this.session, this.entries[vertex]).compared) {
      for (const { path, kind } of changed) {
        if (!changes.has(path)) changes.set(path, { kind, names: [] });
        changes.get(path).names.push(name);
      }
    }
    this.found.push({ event: this.session.ways.at.event, changes });
    return true;
  }

  /** Goes over all events, in slices, so that other calls are answered in between. */
  async complete(events) {
    let since = performance.now();
    while (!this.isComplete) {
      this.isComplete = !this.step(events[this.found.length]);
      if (performance.now() - since > SLICE) {
        await pause();
        since = performance.now();
      }
    }
  }

  /** Returns the last of these events that changed a path in a tree of which `isMaker` is true, or null. */
  async lastChange(events, path, isMaker) {
    let since = performance.now();
    for (const event of events) {
      this.step(event);
      if (performance.now() - since > SLICE) {
        await pause();
        since = performance.now();
      }
    }
    const isOne = ({ event, changes }) => changes.get(path)?.names.some((name) => isMaker(event, name));
    const found = this.found.findLast(isOne);
    return found ? { event: found.event, kind: found.changes.get(path).kind } : null;
  }

  /** Returns the events that changed paths with a text in them, and how many changes are left out. */
  async find(text, events) {
    await this.complete(events);
    const found = [];
    let more = 0;
    for (const { event, changes } of this.found) {
      for (const [path, { kind }] of changes) {
        if (!path.includes(text)) continue;
        if (found.length < MOST_FOUND) found.push({ event, path, kind });
        else more += 1;
      }
    }
    return { found, more, events: this.found.length };
  }
}
