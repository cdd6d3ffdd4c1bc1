/** The page: its views over one session. */

import { Breaks } from './breaks.mjs';
import { ChangesView } from './changes_view.mjs';
import { DefinitionView } from './definition_view.mjs';
import { by, make, oncePerFrame } from './dom.mjs';
import { explained } from './faults.mjs';
import { whyIdle } from './idle_workers.mjs';
import { foreignOf, foreignStatuses } from './foreign.mjs';
import { showForeign } from './foreign_view.mjs';
import { GraphView } from './graph_view.mjs';
import { canBeKept, KeptState } from './kept_state.mjs';
import { listen } from './keyboard.mjs';
import { openLink } from './links.mjs';
import { Looker } from './looks_client.mjs';
import { Machine } from './machine.mjs';
import { Moves } from './moves.mjs';
import { VertexNotes } from './notes.mjs';
import { OpenView } from './open_view.mjs';
import { textOf } from './reading.mjs';
import { SessionClient } from './session_client.mjs';
import { OrdersView } from './orders_view.mjs';
import { SearchView } from './search_view.mjs';
import { shareView } from './share_view.mjs';
import { loadTables } from './tables.mjs';
import { listenToSplitters } from './splitters.mjs';
import { TimeView } from './time_view.mjs';
import { inTurns } from './turns.mjs';
import { foreignDetails, notesElement, vertexDetails } from './vertex_details.mjs';

const MODULE = 'llbm.wasm';

// This is said of an opening that takes more milliseconds than that.
const OPENING = 'The machine opens the definition …';
const PAUSE = 300;

class Page {
  constructor(machine) {
    this.machine = machine;
    this.session = null;
    this.selected = null;
    this.foreign = null;
    this.openView = new OpenView(machine, (given) => this.open(given), (definition) => this.openForeign(definition));
    this.text = new DefinitionView(
      machine, (definition, text) => this.edit(definition, text), (row) => this.selectRow(row),
    );
    this.graph = new GraphView(
      (vertex, focus) => this.select(vertex, focus), (vertex, kind) => this.setBreak(vertex, kind),
    );
    this.moves = new Moves({
      begin: () => this.begin(), progress: () => this.progress(), arrive: (found) => this.arrive(found),
    });
    this.time = new TimeView((place) => this.goTo(place));
    this.looker = new Looker();
    this.changes = new ChangesView(this.looker);
    this.search = new SearchView(this.looker, ({ number }) => this.moves.travel(null, 'number', number));
    this.orders = new OrdersView(this.looker);
    this.share = shareView();
    this.kept = new KeptState();
    /** @type {any} */
    this.statuses = null;
    this.asked = null;
    this.isLooking = false;
    this.lookLater = oncePerFrame(() => setTimeout(() => this.look()));
  }

  // Does what opens something, unless something else is asked for meanwhile; that is what the signal says.
  async opening(work) {
    this.asked?.abort();
    const asked = new AbortController();
    this.asked = asked;
    const waits = setTimeout(() => this.say(OPENING), PAUSE);
    try {
      await work(asked.signal);
    } catch (fault) {
      if (!asked.signal.aborted) throw fault;
    } finally {
      clearTimeout(waits);
      if (this.asked === asked) this.asked = null;
      if (!this.asked && by('said').textContent === OPENING) this.say('');
    }
  }

  /** Opens a session. The promise is refused where the machine refuses what is given. */
  open(given) {
    return this.opening(async (signal) => {
      const session = await SessionClient.open(this.machine, given, by('break-fail').checked, signal);
      try {
        const placed = await inTurns(this.graph.placing(session.graph, session.entries), () => !signal.aborted);
        if (!signal.aborted) this.show(session, given, placed);
      } finally {
        if (this.session !== session) session.end();
      }
    });
  }

  // Shows a session that was opened.
  show(session, given, placed) {
    this.close();
    this.session = session;
    this.given = given;
    this.entries = session.entries;
    this.moves.open(session);
    by('views').classList.remove('empty', 'foreign');
    by('to-share').disabled = false;
    const { vertices, result } = session.graph;
    const word = vertices.length === 1 ? 'vertex' : 'vertices';
    const memory = Math.ceil(session.memory / 2 ** 20);
    by('graph-size').textContent = `${vertices.length} ${word}, result ${result}; the machine has ${memory} MiB`;
    const workers = Array.from({ length: given.workers }, (_, worker) => worker);
    by('worker').replaceChildren(...workers.map((worker) => make('option', { value: worker, text: worker })));
    // A person can have changed it meanwhile.
    session.setBreakAtFailures(by('break-fail').checked);
    this.notes = new VertexNotes(this.entries);
    this.looker.open(this.machine, session, given).catch((fault) => this.say(fault.message));
    this.search.open(this.entries);
    this.orders.open(session);
    this.isLooking = false;
    this.graph.open(placed, session.graph, this.entries, this.notes);
    this.time.open(session, this.entries);
    this.text.open(given.definition, given.written ?? null, given.isEdited);
    this.changes.open(session, this.entries, this.notes);
    this.say('');
    this.update();
  }

  // Ends the session that is shown.
  close() {
    this.moves.open(null);
    this.session?.end();
    this.session = null;
    this.foreign = null;
    this.selected = null;
    by('stop').hidden = true;
  }

  // A promise of what a link of the session carries. Its text is that of the machine, or what a person wrote.
  async carried(isWritten) {
    const { definition, written, locals, workers } = this.given;
    const lines = this.session.ways.commands();
    const text = isWritten && written ? written : await textOf(this.machine, definition);
    return { text, locals, workers, lines };
  }

  // Opens what was written beside the graph, with the trees and as far along the record as before.
  edit(definition, written) {
    const { locals, workers } = this.given;
    const lines = this.session?.ways.commands();
    return this.open({ definition, written, locals, workers, lines, isEdited: true });
  }

  // A build of a server has a link of its own.
  keepLater() {
    const { session } = this;
    if (!session || this.given.name) return;
    const isKept = () => this.session === session && canBeKept(session.ways.at.number, this.given.definition.length);
    this.kept.later(async () => (isKept() ? this.carried(true) : null));
  }

  /** Opens a build of the page's server: at the beginning of its record, which *Next* follows. */
  async openBuild(build) {
    await this.open(build);
    const { session } = this;
    if (this.given !== build) return;
    if (build.error) this.say(`This build failed: ${build.error}`);
    build.notes().then((served) => {
      if (this.session !== session) return;
      this.notes.add(served);
      this.update();
    }, () => {});
  }

  /** Draws a definition that the machine refuses. The promise is refused where it can't be read into rows. */
  openForeign(definition) {
    return this.opening(async (signal) => {
      const foreign = foreignOf(this.machine, definition);
      const placed = await inTurns(this.graph.placing(foreign.graph, foreign.entries), () => !signal.aborted);
      if (!signal.aborted) this.showForeign(foreign, definition, placed);
    });
  }

  showForeign(foreign, definition, placed) {
    this.close();
    this.foreign = foreign;
    this.entries = foreign.entries;
    by('views').classList.remove('empty');
    by('views').classList.add('foreign');
    this.given = { locals: this.openView.allTrees(), workers: Number(by('workers').value) };
    by('to-share').disabled = true;
    by('graph-size').textContent = `${foreign.graph.vertices.length} entries, inputs above`;
    by('vertex-details').replaceChildren();
    this.statuses = foreignStatuses(foreign);
    this.notes = new VertexNotes(this.entries);
    this.graph.open(placed, foreign.graph, this.entries, this.notes);
    this.graph.update(this.statuses, new Breaks());
    this.text.open(definition);
    showForeign(foreign, (vertex) => this.select(vertex, true), () => this.openView.takeAdopted(foreign.adoption));
    this.say('');
    document.body.dataset.looked = 'yes';
  }

  /** Shows a message; none where the text is empty. */
  say(text) {
    by('said').textContent = text;
    by('said').hidden = text === '';
  }

  guarded(call) {
    try {
      return call();
    } catch (fault) {
      this.sayFault(fault);
      return null;
    }
  }

  sayFault(fault) {
    this.say(`${fault.message} ${explained(fault.message)}`.trim()
      + (fault.name === 'Trap' ? ' Open the definition again: nothing that was shown before is wrong.' : ''));
  }

  // What follows is called before each move, after each slice of a long one, and at its end.
  begin() {
    this.say('');
    document.body.dataset.looked = 'no';
  }

  progress() {
    by('stop').hidden = false;
    this.time.progress();
  }

  arrive({ value, fault, atEnd, spent }) {
    by('stop').hidden = true;
    document.body.dataset.spent = spent.toFixed(3);
    if (fault) this.sayFault(fault);
    else if (value !== 'stopped') atEnd?.(value);
    this.update();
  }

  /** Goes to a place on any way of the session. */
  goTo({ way, number }) {
    this.moves.travel(null, 'place', way, number);
  }

  /** Shows where the session is. */
  update() {
    this.guarded(() => {
      this.statuses = this.session.statuses;
      const { event } = this.session.ways.at;
      if (event) this.selected = event.vertex;
      this.graph.update(this.statuses, this.session.breaks);
      this.graph.select(this.selected);
      this.time.update();
      this.orders.update();
      this.showVertex();
      const focused = /** @type {HTMLButtonElement} */ (document.activeElement);
      by('back').disabled = by('first').disabled = !event;
      this.updateWorker();
      // A button that is disabled loses the focus, and the keys would begin at the top of the page.
      if (focused?.disabled) by('next').focus();
    });
    this.keepLater();
    document.body.dataset.looked = 'no';
    this.changes.happened();
    this.lookLater();
  }

  /** Enables what the chosen worker can do. */
  updateWorker() {
    const runs = this.statuses.running().some(({ worker }) => worker === this.worker());
    by('cancel').disabled = !runs;
    by('step').disabled = !runs && this.statuses.all('ready').next().done === true;
  }

  /** Shows what the event at the present place did. A look that is not ended is waited for, since places may change. */
  async look() {
    const { session } = this;
    if (this.isLooking || !session) return;
    this.isLooking = true;
    try {
      const { at } = session.ways;
      const spoken = await this.changes.update();
      if (this.session !== session) return;
      this.isLooking = false;
      // A move that goes on looks at its end.
      if (this.moves.now) return;
      if (at !== session.ways.at) {
        this.lookLater();
        return;
      }
      if (spoken !== null) by('spoken').textContent = spoken;
    } catch (fault) {
      if (this.session !== session) return;
      this.isLooking = false;
      this.say(`What changed can't be shown: ${fault.message}`);
    }
    document.body.dataset.looked = 'yes';
  }

  select(vertex, focus = false) {
    if (vertex >= this.graph.graph.vertices.length) return;
    this.selected = vertex;
    this.graph.select(vertex, focus);
    this.showVertex();
  }

  // Selects the vertex of a row of the definition, if it has one.
  selectRow(row) {
    const vertex = this.entries.findIndex((entry) => entry?.row === row);
    if (vertex >= 0) this.select(vertex);
  }

  showVertex() {
    const vertex = this.selected;
    this.text.mark(vertex === null ? null : this.entries[vertex]?.row ?? null);
    if (vertex === null) {
      by('vertex-details').replaceChildren();
      return;
    }
    const notes = this.notes.of(vertex);
    const words = this.foreign
      ? foreignDetails(this.foreign, vertex, this.graph.labelOf(vertex))
      : vertexDetails(this.session.graph.vertices[vertex], this.entries[vertex], this.statuses.of(vertex),
        (output) => this.changes.choose(vertex, output));
    by('vertex-details').replaceChildren(...words, notesElement(notes));
  }

  setBreak(vertex, kind) {
    if (!this.session) return;
    this.session.setBreak(vertex, kind);
    this.graph.update(this.statuses, this.session.breaks);
  }

  worker() {
    return Number(by('worker').value);
  }

  step() {
    const worker = this.worker();
    this.moves.step((did) => did || this.say(whyIdle(worker, this.session.statuses, this.entries)), 'step', worker);
  }

  /** Goes on in an order at random, and takes the next seed for the next time. */
  shuffle() {
    const seed = Number(by('seed').value) || 0;
    by('seed').value = seed + 1;
    this.moves.travel((how) => this.sayEnd(how !== 'end'), 'shuffle', seed);
  }

  // Says that the run is complete, unless something was done.
  sayEnd(did) {
    if (did) return;
    const failed = this.session.statuses.count('failed');
    this.say(failed ? `The run is complete: ${failed} failed.` : 'The run is complete.');
  }

  cancel() {
    const worker = this.worker();
    this.moves.step((did) => did || this.say(`Worker ${worker} runs nothing.`), 'cancel', worker);
  }

  // From the way before the last fork to the next one there: the first event of each is beside that of the present way.
  fork() {
    const forks = this.session?.ways.path().filter((place) => place.before?.after.length > 1) ?? [];
    const at = forks.at(-1);
    if (!at) return;
    const beside = at.before.after;
    this.goTo(beside[(beside.indexOf(at) + 1) % beside.length]);
  }

  async showShare() {
    if (!this.session) return;
    await this.share.update(await this.carried(false));
    by('share-view').showModal();
  }

  listen() {
    listenToSplitters();
    const moves = {
      next: () => this.moves.step((did) => this.sayEnd(did), 'next'), back: () => this.moves.step(null, 'back'),
      go: () => this.moves.travel((how) => this.sayEnd(how !== 'end'), 'go'),
      step: () => this.step(), cancel: () => this.cancel(),
      first: () => this.session && this.goTo(this.session.ways.root),
      last: () => this.session && this.goTo(this.session.ways.end()), stop: () => this.moves.stop(),
      all: () => this.moves.step((did) => this.sayEnd(did), 'all'), shuffle: () => this.shuffle(),
    };
    const buttons = ['next', 'back', 'go', 'step', 'cancel', 'first', 'stop', 'all', 'shuffle'];
    for (const id of buttons) by(id).addEventListener('click', moves[id]);
    by('worker').addEventListener('change', () => this.updateWorker());
    by('break-fail').addEventListener('change', (event) => {
      this.session?.setBreakAtFailures(event.target.checked);
    });
    by('to-open').addEventListener('click', () => this.openView.show());
    by('to-share').addEventListener('click', () => this.showShare());
    by('to-keys').addEventListener('click', () => by('keys-view').showModal());
    listen({
      ArrowRight: moves.next, n: moves.next, ArrowLeft: moves.back, b: moves.back, g: moves.go, s: moves.step,
      c: moves.cancel, Home: moves.first, End: moves.last, Escape: moves.stop, f: () => this.fork(),
      o: () => this.openView.show(), a: moves.all, r: moves.shuffle,
      '/': () => by('search').focus(), w: () => by('find').focus(),
      '+': () => this.graph.window.zoom(1.25), '-': () => this.graph.window.zoom(0.8),
      e: () => this.text.toggle(),
      z: () => this.graph.window.fit(), Z: () => this.graph.window.setScale(1),
      h: () => this.showShare(), '?': () => by('keys-view').showModal(),
      v: () => (this.session || this.foreign) && this.select(this.selected ?? 0, true),
      digit: (n) => {
        if (n >= (this.session?.workers ?? 0)) return;
        by('worker').value = n;
        this.updateWorker();
      },
    });
  }
}

/** Says what the module says of its proof, unless it is proved. */
function sayProof(proof) {
  const words = proof === 'not proved'
    ? 'Not proved: the machine of this page was compiled without proof. Where rt ci has run, dev/dev wasm makes one '
      + 'with proof.'
    : 'Whether the machine of this page is proved is not known: its module does not say it.';
  by('unproved').textContent = words;
  by('unproved').hidden = proof === 'proved';
}

async function start() {
  const began = performance.now();
  const machine = await Machine.from(fetch(MODULE));
  machine.handle();
  document.body.dataset.module = (performance.now() - began).toFixed(1);
  sayProof(machine.proof());
  const page = new Page(machine);
  page.listen();
  await Promise.all([loadTables('tables.json'), page.openView.loadExamples('examples/list.json')]);
  const open = () => page.openView.reading(() => openLink(page, machine));
  await open();
  addEventListener('hashchange', open);
  document.body.dataset.ready = 'yes';
}

start().catch((fault) => {
  by('said').hidden = false;
  by('said').textContent = `The machine could not be loaded: ${fault.message}. It is the file ${MODULE}. dev/dev wasm `
    + 'makes it, where rt ci has proved the library, and dev/dev wasm --unproved makes one without proof. Then load '
    + 'this page again.';
  document.body.dataset.ready = 'no';
});
