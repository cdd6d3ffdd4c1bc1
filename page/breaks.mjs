/** Breakpoints: vertices at whose claim or settle a long move stops, and whether it stops at failures. */

import { isFailure } from './record.mjs';

/** The breakpoints of a session. */
export class Breaks {
  constructor() {
    this.claim = new Set();
    this.settle = new Set();
    this.fail = false;
  }

  /** Sets the breakpoint of a vertex: `claim`, `settle` or none. */
  set(vertex, kind) {
    this.claim.delete(vertex);
    this.settle.delete(vertex);
    if (kind) this[kind].add(vertex);
  }

  /** Returns whether a move stops after an event. */
  stopsAfter(event) {
    return (this.fail && isFailure(event)) || Boolean(this[event.kind]?.has?.(event.vertex));
  }
}
