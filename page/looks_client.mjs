/** The page's side of the worker that makes its looks. */

import { Calls } from './calls.mjs';
import { saidOf } from './definition.mjs';
import { nextTurn } from './turns.mjs';

// The lines of so many events are sent at once.
const MOST_LINES = 5000;

const textOf = (places) => places.map(({ event }) => event.line).join('\n');

/** Sends calls to a worker, and returns promises of their answers. */
export class Looker {
  constructor() {
    this.calls = null;
    this.session = null;
  }

  /** Begins anew with a session of a machine, at its beginning. What was asked before gets no answer. */
  open(machine, session, given) {
    this.calls?.end();
    this.calls = new Calls(new Worker('looks_worker.mjs', { type: 'module' }));
    this.session = session;
    this.place = session.ways.root;
    const isKept = Array.isArray(globalThis.llbmTranscript);
    // Whoever compares answers with those of `llbm step` needs those of the worker too.
    if (isKept) globalThis.llbmLooks = () => this.call('transcript');
    const { definition, locals, workers } = given;
    const { digests, ops } = saidOf(machine, definition);
    this.given = this.give(this.calls, [{ definition }, { digests }, { ops }, { locals }]);
    return this.call('open', { module: machine.module, workers, isKept });
  }

  // Gives a worker what can be large, in turns, since all of it is copied.
  async give(calls, parts) {
    for (const part of parts) {
      calls.call('give', part).catch(() => {});
      await nextTurn();
    }
  }

  /** Returns a promise of the answer to a call. */
  async call(...call) {
    const { calls } = this;
    await this.given;
    return calls.call(...call);
  }

  /**
   * Returns a promise of what the event at the session's place did, and of whether the tree of a line is there; null if
   * another session was opened meanwhile. A long way there is sent in pieces, between which the page goes on.
   */
  async look(chosen) {
    const { session } = this;
    const { ways } = session;
    const { back, forth } = ways.route(ways.at, this.place);
    this.place = ways.at;
    let sent = 0;
    for (; forth.length - sent > MOST_LINES; sent += MOST_LINES) {
      const lines = textOf(forth.slice(sent, sent + MOST_LINES));
      this.call('go', sent ? 0 : back, lines).catch(() => {});
      await nextTurn();
      if (this.session !== session) return null;
    }
    return this.call('look', sent ? 0 : back, textOf(forth.slice(sent)), chosen);
  }
}
