/** The view *What changed*: what the event at the session's place did, whole trees folder by folder, and caches. */

import { contentsOf } from './contents.mjs';
import { by, make } from './dom.mjs';
import { explained } from './faults.mjs';
import { FolderView } from './folder_view.mjs';
import { failedStep, faultOf, isFailure, wordsOf as eventWords } from './record.mjs';
import { counted } from './summary.mjs';

const SIGNS = { added: '+', removed: '−', changed: '~' };

function summaryElement(words) {
  return make('ul', { class: 'summary', 'aria-label': 'summary' }, ...words.map((text) => make('li', { text })));
}

/** The view of what the event at a session's place did. `looker` asks for what is shown. */
export class ChangesView {
  constructor(looker) {
    this.looker = looker;
    this.choice = by('tree-choice');
    this.choice.addEventListener('change', () => {
      this.chosen = this.choice.value;
      this.showTree();
    });
  }

  /** Shows another session. `entries` has what the definition says of each vertex, `notes` what BuildKit does. */
  open(session, entries, notes) {
    this.session = session;
    this.entries = entries;
    this.notes = notes;
    this.chosen = null;
  }

  /** Shows what happened at the session's place, at once. */
  happened() {
    const { at } = this.session.ways;
    const { event } = at;
    const entry = event ? this.entries[event.vertex] : null;
    const failed = event && isFailure(event) ? failedStep(at) : null;
    const why = failed ? ` by ${eventWords(failed, entry)}. ${explained(faultOf(failed))}` : '.';
    const done = event ? `${eventWords(event, entry)}${why} ${explained(faultOf(event))}`.trim() : '';
    const words = done || 'Nothing has happened yet.';
    by('happened').textContent = words;
    by('cause').textContent = '';
    const notes = event ? this.notes.at(event) : [];
    by('step-notes').replaceChildren(...notes.map(({ words: said }) => make('li', { text: said })));
    return words;
  }

  /** Shows what the event at the session's place did, once that is known, and returns it in words. */
  async update() {
    const words = this.happened();
    const { event } = this.session.ways.at;
    const found = await this.looker.look(this.chosen ?? '');
    if (!found || event !== this.session.ways.at.event) return null;
    const parts = found.compared.map((part, number) => this.compared(part, number));
    const nothing = make('p', { class: 'note', text: event ? 'It changed no path of a tree.' : '' });
    by('changes').replaceChildren(...(parts.length ? parts : [nothing]));
    this.showCaches(found.caches);
    const cause = found.cause ? `The cause: ${found.cause.words}.` : '';
    by('cause').textContent = cause;
    // It is shown once it is known: nothing waits for it.
    if (found.cause?.path) this.showTouched(cause, found.cause.path).catch(() => {});
    await this.chooseTree(found);
    return [words, cause, found.spoken ? `It ${found.spoken}.` : ''].filter(Boolean).join(' ');
  }

  // Adds to the cause of a failure which event last changed the path in it, once that is known.
  async showTouched(cause, path) {
    const found = await this.looker.call('touched');
    if (by('cause').textContent !== cause) return;
    by('cause').textContent = `${cause} ${this.touchedInWords(path, found)}`;
  }

  touchedInWords(path, found) {
    if (!found) return `No step before it changed ${path} there.`;
    if (found.more) return `Which step changed ${path} is looked for in at most ${found.more} events.`;
    const { kind, event } = found;
    return `${path} was ${kind} last by ${eventWords(event, this.entries[event.vertex])}.`;
  }

  compared({ name, counts, summary, changes, more }, part) {
    const kinds = Object.keys(counts).filter((kind) => counts[kind]);
    const shown = kinds.map((kind) => `${counts[kind]} ${kind}`).join(', ');
    return make('section', { class: 'compared' },
      make('h4', {}, name, make('span', { class: 'note', text: ` ${shown}` })), summaryElement(summary),
      ...changes.map((change) => this.change(change, part)),
      ...(more > 0 ? [make('p', { class: 'note', text: `and ${counted(more, 'more path')}` })] : []));
  }

  change({ path, kind, words, hasContent }, part) {
    const summary = make('summary', {},
      make('span', { class: 'sign', 'aria-hidden': 'true', text: SIGNS[kind] }),
      make('span', { class: 'hidden', text: `${kind} ` }),
      make('span', { class: 'path', text: path }), make('span', { class: 'note', text: ` ${words}` }));
    const details = make('details', { class: `change ${kind}` }, summary);
    if (!hasContent) details.append(make('p', { class: 'note', text: 'a directory has no content' }));
    else {
      details.addEventListener('toggle', () => {
        if (!details.open || details.children.length > 1) return;
        details.append(contentsOf((wantsHex) => this.looker.call('contents', part, path, wantsHex)));
      });
    }
    return details;
  }

  /** Shows the tree of an output of a vertex that is done, and keeps showing it. */
  choose(vertex, output) {
    this.chosen = `tree ${vertex} ${output}`;
    this.addOption({ name: `output ${vertex}.${output}`, line: this.chosen });
    this.choice.value = this.chosen;
    return this.showTree();
  }

  addOption({ name, line }) {
    const isThere = [...this.choice.options].some((option) => option.value === line);
    if (!isThere) this.choice.append(make('option', { value: line, text: name }));
    this.choice.disabled = false;
  }

  // The tree that was chosen by hand stays while it is there; else the event's own is shown.
  chooseTree({ trees, usual, hasChosen }) {
    if (!hasChosen) this.chosen = null;
    const none = [make('option', { value: '', text: 'no tree is there yet' })];
    const options = trees.map(({ name, line }) => make('option', { value: line, text: name }));
    this.choice.replaceChildren(...(options.length ? options : none));
    this.choice.disabled = !options.length;
    const line = this.chosen ?? usual;
    const output = /^tree ([0-9]+) ([0-9]+)$/.exec(line);
    if (output) this.addOption({ name: `output ${output[1]}.${output[2]}`, line });
    this.choice.value = line;
    return this.showTree();
  }

  async showTree() {
    const line = this.choice.value;
    const ask = (...call) => this.looker.call(...call);
    const [root, summary] = line
      ? await Promise.all([new FolderView(line, ask).root(), ask('summary', line)]) : [null, []];
    if (this.choice.value !== line) return;
    by('tree').replaceChildren(...(root ? [summaryElement(summary), root] : []));
  }

  showCaches(caches) {
    const rows = caches.map((key) => {
      const seed = key.seed === '-' ? 'none' : key.seed;
      const cells = [key.id, key.mode, key.instances, seed, key.holders.join('; ') || 'nobody'];
      return make('tr', {}, ...cells.map((text) => make('td', { text })));
    });
    by('caches').replaceChildren(...rows);
    by('caches-none').hidden = rows.length > 0;
    by('caches-table').hidden = rows.length === 0;
  }
}
