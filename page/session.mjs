/**
 * A session of the machine: each answer is the machine's own, and each move is by its own events and steps back.
 *
 * docs/FORMATS.md, "A stepping session", has the lines that a session takes and what it answers.
 */

import { keepSaid, localsOf, readingEntries, saidOf, verticesOf } from './definition.mjs';
import { diceOf, shuffled } from './seeded_order.mjs';
import { STATUS } from './machine.mjs';
import { graphOf } from './record.mjs';
import { Statuses } from './statuses.mjs';
import { linesOf } from './tree_text.mjs';
import { atOnce } from './turns.mjs';
import { Breaks } from './breaks.mjs';
import { Ways } from './event_tree.mjs';

/** What is before the name of a local source in the line for its tree, which the page has and no line of a session. */
export const GIVEN = 'given ';

/** What is before the line of a tree as it was before the last event: a settle takes the trees of a failed vertex. */
export const BEFORE = 'before ';

/** The machine refused what it was given; the message has its line, as `fault 121 source`. */
export class Refused extends Error {
  constructor(message, what) {
    super(message.trim() || `${what} was refused`);
    this.name = 'Refused';
    this.what = what;
  }
}

/** The machine's answer differs from the one that the page wrote down for the same events. */
export class Differs extends Error {}

function checked(handle, status, what) {
  if (status === STATUS.done) return;
  throw new Refused(handle.messages() || (status === STATUS.failed ? 'no memory' : ''), what);
}

/** Returns the definition of a text of entries. */
export function assembled(machine, text) {
  const handle = machine.handle();
  checked(handle, handle.asm(text), 'the text of entries');
  return handle.output();
}

/** Returns the text of the entries of a definition. */
export function disassembled(machine, definition) {
  const handle = machine.handle();
  checked(handle, handle.dis(definition), 'the definition');
  return handle.text();
}

const planned = new WeakMap();

// The rows of a definition's vertices, or the line of the fault for which it is refused; they are kept with its bytes.
function plannedBy(machine, definition) {
  if (!planned.has(definition)) {
    const handle = machine.handle();
    const isDone = handle.plan(definition) === STATUS.done;
    const fault = isDone ? '' : handle.messages().trim() || 'no memory';
    const vertices = isDone ? verticesOf(machine, definition, digestsIn(linesOf(handle.text()))) : [];
    planned.set(definition, { fault, rows: Uint32Array.from(vertices.map(({ row }) => row)) });
  }
  return planned.get(definition);
}

/** Returns what a definition that the machine takes says of its vertices, when the generator ends. */
export function* readingVertices(machine, definition) {
  const { rows } = yield* readingEntries(machine, definition);
  return [...plannedBy(machine, definition).rows].map((row) => rows[row]);
}

/** Returns a definition, given by its bytes or by the text of its entries, and what a machine says of it. */
export function readDefinition(machine, bytes, isWritten) {
  const definition = isWritten ? assembled(machine, bytes) : bytes;
  const { rows, fault } = plannedBy(machine, definition);
  const names = localsOf(atOnce(readingVertices(machine, definition)));
  return { definition, fault, rows, names, said: saidOf(machine, definition) };
}

/** Keeps what a machine said of a definition: of its entries, which are vertices, and the fault that it has. */
export function keepRead(definition, { fault, rows, said }) {
  planned.set(definition, { fault, rows });
  keepSaid(definition, said);
}

/** Returns the line of the fault for which the machine refuses a definition; empty if it takes it. */
export function refusalOf(machine, definition) {
  return plannedBy(machine, definition).fault;
}

// The digests on lines of vertices, which have the number of the vertex and its digest before all else.
function digestsIn(lines) {
  return lines.filter((line) => /^[0-9]/.test(line)).map((line) => line.split(' ')[1]);
}

/** A session over a definition, and where it is. */
export class Session {
  /** Opens a session. `locals` has the tree text of each local source by its name; `isKept`: its answers are kept. */
  constructor(machine, definition, locals, workers, isKept = true) {
    this.isKept = isKept;
    this.handle = machine.handle();
    for (const [name, text] of locals) {
      checked(this.handle, this.handle.local(name, text), `the tree of ${name}`);
    }
    checked(this.handle, this.handle.open(definition, workers), 'the session');
    this.given = { machine, definition };
    this.found = null;
    this.graph = graphOf(this.lines('graph'));
    this.workers = workers;
    this.locals = new Map(locals);
    this.follows = false;
    this.ways = new Ways();
    this.breaks = new Breaks();
  }

  /** What the definition says of each vertex. It is read when it is asked for. */
  get entries() {
    const { machine, definition } = this.given;
    this.found ??= verticesOf(machine, definition, digestsIn(this.lines('digests')));
    return this.found;
  }

  /** Returns the text that the machine answers to a line. */
  text(line) {
    const status = this.handle.line(line);
    const answer = this.handle.text();
    // Whoever wants to compare answers with those of `llbm step` sets this list.
    if (this.isKept) globalThis.llbmTranscript?.push([line, answer]);
    if (status === STATUS.failed) throw new Refused('no memory', 'the line');
    return answer;
  }

  /** Returns the lines that the machine answers to a line. */
  lines(line) {
    return linesOf(this.text(line));
  }

  /**
   * Returns the text of a tree that a line asks for, or null where there is none; `given NAME` is a source's tree, and
   * `before LINE` a tree before the last event.
   */
  tree(line) {
    if (line.startsWith(GIVEN)) return this.locals.get(line.slice(GIVEN.length)) ?? null;
    if (line.startsWith(BEFORE)) return this.before(() => this.tree(line.slice(BEFORE.length)));
    const text = this.text(line);
    return text === 'none\n' || text.startsWith('fault ') ? null : text;
  }

  /** Returns the statuses of the vertices. */
  statuses() {
    return new Statuses(this.text('status'));
  }

  /** Does the event of a line such as `next` or `claim 0 1`; returns the event, or null where it is refused. */
  event(line) {
    return this.ways.take(this.lines(line))[0] ?? null;
  }

  /** Goes on to the end, as the machine chooses. */
  end() {
    this.ways.take(this.lines('go'));
  }

  /** Takes the text of a record: `next` and `goingOn` follow it, and the machine has to say each line again. */
  follow(record) {
    atOnce(this.ways.laying(record));
    this.follows = this.ways.end().number > 0;
  }

  /** Does the next event: of the record that is followed, or the one that the machine chooses; null at the end. */
  next() {
    const place = this.follows ? this.ways.ahead() : null;
    if (!place) return this.event('next');
    this.to(place);
    return place.event;
  }

  /** Goes on to a breakpoint or to the end, an event for each turn of the generator; returns `stop` or `end`. */
  * goingOn() {
    while (this.next()) {
      if (this.breaks.stopsAfter(this.ways.at.event)) return 'stop';
      yield;
    }
    return 'end';
  }

  /**
   * Does what a worker can do: its next micro-step, or else the settle of its vertex, or else a claim of the first
   * vertex that it may take, in an order of the ready ones. Returns the event, or null where there is none.
   */
  step(worker, ordered = (vertices) => vertices) {
    const event = this.event(`step ${worker}`) ?? this.event(`settle ${worker}`);
    if (event) return event;
    for (const vertex of ordered(this.statuses().all('ready'))) {
      const claim = this.event(`claim ${worker} ${vertex}`);
      if (claim) return claim;
    }
    return null;
  }

  /** Does what each worker can do, one after another; returns how many events there were. */
  stepAll() {
    let count = 0;
    for (let worker = 0; worker < this.workers; worker += 1) if (this.step(worker)) count += 1;
    return count;
  }

  /**
   * Goes on to a breakpoint or to the end in an order at random by a seed: of the workers that can do something one is
   * next, and it claims one of the ready vertices. Returns `stop` or `end`.
   */
  * goingAtRandom(seed) {
    const dice = diceOf(seed);
    const workers = Array.from({ length: this.workers }, (_, worker) => worker);
    const any = () => shuffled(workers, dice).some((worker) => this.step(worker, (ready) => shuffled(ready, dice)));
    while (any()) {
      if (this.breaks.stopsAfter(this.ways.at.event)) return 'stop';
      yield;
    }
    return 'end';
  }

  /** Takes back the last event; returns whether there was one. */
  back() {
    const found = /^back ([0-9]+)$/.exec(this.lines('back')[0] ?? '');
    if (found) this.ways.back(Number(found[1]));
    return Boolean(found);
  }

  // Does the event of a place again; the machine has to say the same of it.
  again(place) {
    const line = this.event(place.event.command)?.line ?? 'nothing';
    const wanted = place.event.line;
    if (line !== wanted) throw new Differs(`The record has "${wanted}", and the machine says "${line}".`);
  }

  /** Goes to a place on any way, by steps back and by the events from there: one for each turn of the generator. */
  * going(place) {
    const { back, forth } = this.ways.route(place);
    for (let n = 0; n < back; n += 1) {
      this.back();
      yield;
    }
    for (const next of forth) {
      this.again(next);
      yield;
    }
  }

  /** Goes to a place on any way, at once. */
  to(place) {
    atOnce(this.going(place));
  }

  /** Goes to the event of a number, on the way that the session is on, or on as the machine chooses. */
  * goingTo(number) {
    const found = this.ways.path(this.ways.end()).find(({ event }) => event?.number === number);
    yield* this.going(found ?? this.ways.end());
    while (!found && this.ways.at.event?.number !== number && this.event('next')) yield;
  }

  /** Does something at the place before the present one, and comes back; returns what it returned. */
  before(look) {
    const place = this.ways.at;
    if (!place.event) return look();
    this.back();
    try {
      return look();
    } finally {
      this.to(place);
    }
  }
}
