/** Long work in turns, between which a page draws and a worker takes messages. */

// A turn ends after so many milliseconds.
const TURN = 10;

/** Returns a promise that is kept after frames and what a person did meanwhile, but without the pause of a timer. */
export function nextTurn() {
  return new Promise((done) => {
    const { port1, port2 } = new MessageChannel();
    port1.onmessage = () => {
      port1.close();
      done();
    };
    port2.postMessage(null);
  });
}

/**
 * Goes on with a generator in turns until it ends, or `isAsked` is false. Returns what the generator returns, and
 * nothing if it does not end.
 */
export async function inTurns(work, isAsked = () => true) {
  while (isAsked()) {
    const end = performance.now() + TURN;
    let one = work.next();
    while (!one.done && performance.now() < end) one = work.next();
    if (one.done) return one.value;
    await nextTurn();
  }
  return undefined;
}

/** Goes on with a generator to its end at once, and returns what it returns. */
export function atOnce(work) {
  let one = work.next();
  while (!one.done) one = work.next();
  return one.value;
}
