/**
 * The moves of a session, one after another. Short ones wait for their turn, and are left out while a long one goes on.
 * A long one stops another that goes on, and begins where that stopped.
 */

// A key that is held asks for more short moves than are done meanwhile: only so many wait.
const MOST_WAITING = 20;

/**
 * Does moves. `view` has `begin`, called before each of them, `progress`, called after each slice of a long one, and
 * `arrive`, called at its end with what it returned, its fault, and the function that was given with it.
 */
export class Moves {
  constructor(view) {
    this.view = view;
    this.open(null);
  }

  /** Begins anew with another session, or none. What was asked for before is not done. */
  open(session) {
    this.session = session;
    this.now = null;
    this.waiting = [];
  }

  /** Does a short move, such as a step. */
  step(atEnd, ...move) {
    if (this.now?.isLong || this.waiting.length >= MOST_WAITING) return;
    this.put({ atEnd, move, isLong: false });
  }

  /** Does a move that can be long. */
  travel(atEnd, ...move) {
    this.waiting = this.waiting.filter(({ isLong }) => !isLong);
    this.stop();
    this.put({ atEnd, move, isLong: true });
  }

  /** Stops a long move that goes on. */
  stop() {
    if (this.now?.isLong) this.session.stop();
  }

  put(move) {
    if (!this.session) return;
    this.waiting.push(move);
    this.view.begin();
    if (!this.now) this.run();
  }

  async run() {
    const { session } = this;
    try {
      while (this.session === session && this.waiting.length) {
        this.now = this.waiting.shift();
        await this.do(session, this.now);
      }
    } finally {
      if (this.session === session) this.now = null;
    }
  }

  async do(session, { atEnd, move }) {
    const start = performance.now();
    const onSlice = () => this.session === session && this.view.progress();
    const { value, fault } = await session.move(onSlice, ...move).catch((found) => ({ fault: found }));
    if (this.session === session) this.view.arrive({ value, fault, atEnd, spent: performance.now() - start });
  }
}
