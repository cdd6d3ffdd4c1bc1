/** The page's session: a worker has the machine's and does each move. The ways that it went are here as well. */

import { Breaks } from './breaks.mjs';
import { Calls } from './calls.mjs';
import { Ways } from './event_tree.mjs';
import { unpacking } from './graph_arrays.mjs';
import { readingVertices } from './session.mjs';
import { Statuses } from './statuses.mjs';
import { inTurns } from './turns.mjs';

/** A session, and where it is. */
export class SessionClient {
  /** Keeps what a worker that was opened says. */
  constructor(calls, { workers }, { graph, entries, news, statuses, memory }) {
    this.calls = calls;
    this.workers = workers;
    this.graph = graph;
    this.entries = entries;
    this.memory = memory;
    this.breaks = new Breaks();
    this.ways = new Ways();
    this.statuses = new Statuses(statuses);
    this.take(news);
  }

  /**
   * Returns a promise of a session: on a definition with local trees, for a number of workers, after the events of
   * `lines` and then so many `steps` of each worker; `record` is one that it follows. The promise is refused if the
   * machine refuses what is given, or if the signal says so.
   */
  static async open(machine, given, stopsAtFailures, signal) {
    const calls = new Calls(new Worker('session_worker.mjs', { type: 'module' }));
    const end = () => calls.end(new Error('Another definition is opened.'));
    signal.addEventListener('abort', end);
    try {
      const { definition, locals, workers, lines = [], record = '', steps = 0 } = given;
      const isKept = Array.isArray(globalThis.llbmTranscript);
      const asked = { definition, locals, workers, lines, record, steps, stopsAtFailures, isKept };
      const found = await calls.call('open', { module: machine.module, ...asked });
      const graph = await inTurns(unpacking(found.graph));
      const entries = await inTurns(readingVertices(machine, definition));
      const session = new SessionClient(calls, given, { ...found, graph, entries });
      session.breaks.fail = stopsAtFailures;
      if (record) await inTurns(session.ways.laying(record));
      // Whoever compares answers with those of `llbm step` needs those of the worker.
      if (isKept) globalThis.llbmSession = () => calls.call('transcript');
      return session;
    } catch (fault) {
      end();
      throw fault;
    } finally {
      signal.removeEventListener('abort', end);
    }
  }

  // Goes where the worker's session is.
  take({ back, lines }) {
    this.ways.back(this.ways.at.number - back);
    this.ways.take(lines);
    // Whoever wants to know how many events each slice has sets this list.
    globalThis.llbmSlices?.push(back + lines.length);
  }

  /**
   * Does a move of the worker, and returns a promise of what it returned, or of its fault. `onSlice` is called after
   * each slice of a long one.
   */
  async move(onSlice, move, ...args) {
    const onPart = (news) => {
      this.take(news);
      onSlice();
      this.tell('goOn');
    };
    const { value, fault, news, statuses } = await this.calls.inParts(onPart, move, ...args);
    this.take(news);
    if (statuses !== null) this.statuses = new Statuses(statuses);
    return { value, fault };
  }

  // Says something to the worker. If that has ended, the next move says so.
  tell(...call) {
    this.calls.call(...call).catch(() => {});
  }

  /** Stops a long move that goes on. */
  stop() {
    this.tell('stop');
  }

  /** Sets the breakpoint of a vertex: `claim`, `settle` or none. */
  setBreak(vertex, kind) {
    this.breaks.set(vertex, kind);
    this.tell('setBreak', vertex, kind);
  }

  /** Sets whether a long move stops at a vertex that failed. */
  setBreakAtFailures(is) {
    this.breaks.fail = is;
    this.tell('setBreakAtFailures', is);
  }

  /** Ends the worker. A move that goes on gets no answer. */
  end() {
    this.calls.end();
  }
}
