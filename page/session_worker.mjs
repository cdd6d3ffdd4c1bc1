/** The worker that has the page's session. A long move goes on in slices, and says what each slice did. */

import { answer } from './answering.mjs';
import { packed } from './graph_arrays.mjs';
import { Machine } from './machine.mjs';
import { Session } from './session.mjs';

// So many events, or milliseconds, are a slice.
const MOST_EVENTS = 500;
const SLICE = 25;

let session = null;
// The place that the page knows.
let known = null;
let isStopped = false;
let goOn = null;

// What happened since the page was last told: how many events back, and the lines of those after them.
function news() {
  const { ways } = session;
  const { back, forth } = ways.route(ways.at, known);
  known = ways.at;
  return { back, lines: forth.map(({ event }) => event.line) };
}

// What each move returns, or a generator that goes on by an event in each turn.
const MOVES = {
  next: () => session.next() !== null,
  back: () => session.back(),
  step: (worker) => session.step(worker) !== null,
  all: () => session.stepAll() > 0,
  cancel: (worker) => session.event(`cancel ${worker}`) !== null,
  place: (way, number) => session.going(session.ways.placeAt(way, number)),
  number: (number) => session.goingTo(number),
  go: () => session.goingOn(),
  shuffle: (seed) => session.goingAtRandom(seed),
};

async function inSlices(moves, say) {
  for (;;) {
    const end = performance.now() + SLICE;
    let one = moves.next();
    for (let count = 1; !one.done && count < MOST_EVENTS && performance.now() < end; count += 1) one = moves.next();
    if (one.done) return one.value;
    say(news());
    // The page says when it has taken that: so it is never far behind, and a stop is one.
    await new Promise((done) => { goOn = done; });
    if (isStopped) return 'stopped';
  }
}

// Returns what a call returns, or its fault.
async function tried(call) {
  try {
    return { value: await call() };
  } catch ({ name, message }) {
    return { fault: { name, message } };
  }
}

async function moved(move, args, say) {
  isStopped = false;
  const done = await tried(() => {
    const made = MOVES[move](...args);
    return made instanceof Object ? inSlices(made, say) : made;
  });
  const statuses = await tried(() => session.text('status'));
  return { ...statuses.fault && { fault: statuses.fault }, ...done, news: news(), statuses: statuses.value ?? null };
}

function opened({ module, definition, locals, workers, lines, record, steps, stopsAtFailures, isKept }) {
  if (isKept) globalThis.llbmTranscript = [];
  session = new Session(new Machine(module), definition, locals, workers);
  known = session.ways.root;
  lines.every((line) => session.event(line));
  if (record) session.follow(record);
  for (let n = 0; n < steps; n += 1) session.stepAll();
  session.breaks.fail = stopsAtFailures;
  const memory = session.handle.memory();
  return { graph: packed(session.graph), news: news(), statuses: session.text('status'), memory };
}

const CALLS = {
  open: opened,
  stop: () => { isStopped = true; },
  goOn: () => goOn?.(),
  setBreak: (vertex, kind) => session.breaks.set(vertex, kind),
  setBreakAtFailures: (is) => { session.breaks.fail = is; },
  transcript: () => globalThis.llbmTranscript ?? [],
};

addEventListener('message', ({ data }) => answer(data, (call, args, say) => (
  call in CALLS ? CALLS[call](...args) : moved(call, args, say))));
