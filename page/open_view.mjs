/** The view *Open*: a definition, the trees of its local sources, and the number of workers. */

import { fragmentFor, servedBuilds } from './build_link.mjs';
import { isText, rowInWords } from './definition.mjs';
import { by, make } from './dom.mjs';
import { explained } from './faults.mjs';
import { definitionOf, treeOfFile } from './reading.mjs';
import { refusalOf } from './session.mjs';
import { treeOfFiles } from './sources.mjs';

const EMPTY = 'd 0755 0 0 /\n';
const MOST_SHOWN = 200000;
const MOST_LEFT_OUT = 3;
const NO_DEFINITION = 'Give a definition first.';

/**
 * The view by which a definition is opened. `onOpen` is called with a definition, trees and workers, `onForeign` with a
 * definition that the machine refuses but that can be drawn.
 */
export class OpenView {
  constructor(machine, onOpen, onForeign) {
    this.machine = machine;
    this.onOpen = onOpen;
    this.onForeign = onForeign;
    this.origins = new Map();
    this.given = null;
    this.trees = new Map();
    this.readings = 0;
    this.dialog = by('open-view');
    by('definition-file').addEventListener('change', (event) => this.takeFile(event.target.files[0]));
    by('definition').addEventListener('input', () => this.wrote());
    this.takeDrops(by('definition'), (files) => this.takeFile(files[0]));
    by('open-close').addEventListener('click', () => this.dialog.close());
    by('build').addEventListener('change', (event) => {
      if (!event.target.value) return;
      this.dialog.close();
      const fragment = fragmentFor(event.target.value);
      if (location.hash === fragment) dispatchEvent(new HashChangeEvent('hashchange'));
      location.hash = fragment;
    });
    by('example').addEventListener('change', (event) => this.takeExample(event.target.value));
    by('open-form').addEventListener('submit', (event) => {
      event.preventDefault();
      this.reading(() => this.submit());
    });
  }

  /** Shows the view. */
  show() {
    this.clearFault();
    this.showDefinition();
    this.loadBuilds();
    this.dialog.showModal();
  }

  /** Lists the builds that the page's server has, if it is one of builds. */
  async loadBuilds() {
    const builds = await servedBuilds();
    by('builds').hidden = !builds.length;
    by('build').replaceChildren(make('option', { value: '', text: 'choose one' }), ...buildOptions(builds));
  }

  /** Puts what a build has into the view, where it can't be opened as it is. */
  takeBuild({ definition, locals, name }) {
    this.trees = new Map(locals.map(([local, text]) => [local, { text, from: name }]));
    this.take(definition, name);
  }

  /** Lists the examples of the page in its menu. */
  async loadExamples(url) {
    try {
      this.examples = await (await fetch(url)).json();
    } catch {
      this.examples = [];
    }
    by('example').append(...this.examples.map(({ name, title }) => make('option', { value: name, text: title })));
  }

  takeDrops(element, take) {
    element.addEventListener('dragover', (event) => event.preventDefault());
    element.addEventListener('drop', (event) => {
      if (!event.dataTransfer.files.length) return;
      event.preventDefault();
      take(event.dataTransfer.files);
    });
  }

  /** Takes an example by its name. Until its files are there, nothing can be opened. */
  async takeExample(name) {
    const example = this.examples.find((one) => one.name === name);
    if (!example) return;
    by('open-now').disabled = true;
    try {
      const { definition, trees } = await loadedExample(example);
      this.trees = new Map(trees);
      by('workers').value = example.workers;
      this.take(definition, example.title);
      by('definition-file').value = '';
      this.dialog.dataset.example = name;
    } catch (fault) {
      this.showFault(new Error(`the example can't be loaded: ${fault.message}`));
    } finally {
      by('open-now').disabled = false;
    }
  }

  /** Returns whether the page has an example. */
  hasExample(name) {
    return this.examples.some((one) => one.name === name);
  }

  /** Returns what a session on an example is opened with. Throws if it can't be loaded. */
  async exampleGiven(name) {
    const example = this.examples.find((one) => one.name === name);
    const { definition: bytes, trees } = await loadedExample(example);
    const written = isText(bytes) ? new TextDecoder().decode(bytes) : null;
    const { definition } = await definitionOf(this.machine, bytes, written !== null);
    return { definition, written, locals: trees.map(([local, { text }]) => [local, text]), workers: example.workers };
  }

  /** Returns the trees that the view has, by the names of local sources. */
  allTrees() {
    return [...this.trees].filter(([, { bad }]) => !bad).map(([local, { text }]) => [local, text]);
  }

  async takeFile(file) {
    if (!file) return;
    by('example').value = '';
    try {
      this.take(new Uint8Array(await file.arrayBuffer()), file.name);
    } catch (fault) {
      // What was there before must not be opened in its place.
      this.take(new Uint8Array(0));
      by('definition-file').value = '';
      this.showFault(new Error(`${file.name} can't be read: ${fault.message}`));
    }
  }

  /** Takes the bytes of a definition, or of its text. */
  take(bytes, name = '') {
    const text = isText(bytes) ? new TextDecoder().decode(bytes) : '';
    this.given = bytes.length && (text === '' || text.length > MOST_SHOWN) ? bytes : null;
    by('definition').value = this.given ? '' : text;
    this.name = this.given ? `${name || 'A definition'}: ${bytes.length} bytes` : '';
    this.origins.clear();
    this.showDefinition();
  }

  /** Takes a definition that was adopted. `sources` has its local sources with what they were before. */
  takeAdopted({ data, changes, sources }) {
    this.take(data, `The adopted definition, after ${changes.length} changes`);
    this.origins = new Map(sources.map(({ name, identifier }) => [name, identifier]));
    this.show();
  }

  wrote() {
    by('example').value = '';
    by('definition-file').value = '';
    this.given = null;
    this.name = '';
    this.clearFault();
    clearTimeout(this.waits);
    this.waits = setTimeout(() => this.showDefinition(), 300);
  }

  // A promise of the definition and the names of its sources, which a worker reads, once.
  read() {
    const given = this.given ?? by('definition').value;
    if (this.made?.given !== given) {
      const bytes = this.given ?? new TextEncoder().encode(given);
      this.made = { given, read: definitionOf(this.machine, bytes, isText(bytes) || !this.given) };
    }
    return this.made.read;
  }

  // Does what waits for a worker; meanwhile the page says so to whoever watches it.
  async reading(work) {
    this.readings += 1;
    document.body.dataset.reading = 'yes';
    try {
      await work();
    } finally {
      this.readings -= 1;
      if (!this.readings) document.body.dataset.reading = 'no';
    }
  }

  /** Shows what is known of the definition, and a row for each local source that it needs. */
  showDefinition() {
    this.clearFault();
    return this.reading(() => this.showWhatIsRead());
  }

  async showWhatIsRead() {
    if (this.isEmpty) {
      this.made = null;
      this.showRead('', [], NO_DEFINITION);
      return;
    }
    const read = this.read();
    const isAsked = () => this.made?.read === read;
    try {
      const { definition, names } = await read;
      if (!isAsked()) return;
      const refusal = refusalOf(this.machine, definition);
      const none = refusal ? 'Which trees it needs is not known, since the definition is refused.' : 'It needs none.';
      this.showRead(refusal, names, none, placeOf(this.machine, definition, refusal));
    } catch (fault) {
      if (!isAsked()) return;
      this.showRead(fault.message, [], 'Which trees it needs is not known, since the definition is refused.');
    }
  }

  // Shows why the definition is refused, if it is, and its local sources, or a sentence in their place.
  showRead(refusal, names, none, place = '') {
    const why = refusal ? `llbm refuses it: ${refusal}. ${explained(refusal)}` : '';
    const draw = canBeDrawn(refusal) ? 'Open draws it, with all that is refused and what adopting would change' : '';
    by('definition-said').textContent = [this.name, why, place, draw].filter(Boolean).join('. ');
    by('definition-said').classList.toggle('fault', Boolean(refusal));
    const rows = names.map((name) => this.row(name));
    by('locals').replaceChildren(...(rows.length ? rows : [make('p', { class: 'note', text: none })]));
  }

  row(name) {
    const said = make('span', { class: 'note' });
    const take = async (read, from) => {
      this.trees.set(name, { bad: `${from} is being read`, isRead: true });
      this.clearFault();
      this.tell(said, name);
      try {
        const { text, leftOut } = await read();
        this.trees.set(name, { text, from, leftOut });
      } catch (fault) {
        this.trees.set(name, { bad: `${from}: ${fault.message}` });
      }
      this.tell(said, name);
    };
    const file = make('input', { type: 'file', 'aria-label': `tar or tree text for ${name}` });
    file.addEventListener('change', () => file.files[0] && take(() => treeOfFile(file.files[0]), file.files[0].name));
    const folder = make('input', { type: 'file', webkitdirectory: true, 'aria-label': `folder for ${name}` });
    folder.addEventListener('change', () => {
      if (folder.files.length) take(() => treeOfFiles([...folder.files]), 'a folder');
    });
    const canFolder = 'webkitdirectory' in folder;
    const empty = make('button', { type: 'button', text: 'empty tree', 'aria-label': `the empty tree for ${name}` });
    empty.addEventListener('click', () => take(() => ({ text: EMPTY, leftOut: [] }), 'the empty tree'));
    const origin = this.origins.get(name);
    const was = origin && origin !== `local://${name}` ? [make('span', { class: 'note', text: `was ${origin}` })] : [];
    const row = make('div', { class: 'local', 'data-name': name }, make('strong', { text: name }), ...was, said,
      make('label', {}, 'file ', file), canFolder ? make('label', {}, 'folder ', folder) : '', empty);
    this.takeDrops(row, (files) => take(() => treeOfFile(files[0]), files[0].name));
    this.tell(said, name);
    return row;
  }

  // Says which tree a source has, or why what was given is none.
  tell(said, name) {
    const tree = this.trees.get(name);
    const isBad = Boolean(tree?.bad) && !tree.isRead;
    said.className = isBad ? 'fault' : 'note';
    if (tree?.isRead) said.textContent = `${tree.bad} …`;
    else if (isBad) said.textContent = `not taken: ${tree.bad}. It has no tree now.`;
    else said.textContent = tree ? `${tree.from}: ${count(tree.text)}${leftWords(tree.leftOut ?? [])}` : 'no tree yet';
  }

  // The trees of the sources that a definition needs; those without one are left to the machine to refuse.
  givenTrees(names) {
    const bad = names.find((name) => this.trees.get(name)?.bad);
    if (bad !== undefined) throw new Error(`The tree of ${bad} was not taken: ${this.trees.get(bad).bad}.`);
    return names.filter((name) => this.trees.has(name)).map((name) => [name, this.trees.get(name).text]);
  }

  // Whether there is no definition, neither in the field nor of a file.
  get isEmpty() {
    return !this.given && by('definition').value.trim() === '';
  }

  /** Opens what the view has, or shows why that is refused. */
  async submit() {
    try {
      if (this.isEmpty) throw new Error(NO_DEFINITION);
      const { definition, names } = await this.read();
      if (canBeDrawn(refusalOf(this.machine, definition))) await this.onForeign(definition);
      else {
        const written = this.given ? null : by('definition').value;
        const locals = this.givenTrees(names);
        await this.onOpen({ definition, written, locals, workers: Number(by('workers').value) });
      }
      this.dialog.close();
    } catch (fault) {
      this.showFault(fault);
    }
  }

  clearFault() {
    by('open-said').replaceChildren();
  }

  /** Shows why something was refused. */
  showFault(fault) {
    const why = explained(fault.message);
    const what = fault.what ? `${fault.what}: ` : '';
    const line = make('p', { class: 'fault', text: what + fault.message });
    by('open-said').replaceChildren(line, ...(why ? [make('p', { text: why })] : []));
    const faulty = /^fault 16[12] ([0-9]+)/.exec(fault.message);
    if (faulty) selectLine(by('definition'), Number(faulty[1]));
  }
}

/**
 * Returns the definition of an example and the trees of its sources.
 *
 * @returns {Promise<{ definition: Uint8Array, trees: [string, { text: string, from: string }][] }>}
 */
async function loadedExample(example) {
  const given = async (path) => {
    const response = await fetch(`examples/${path}`);
    if (!response.ok) throw new Error(`${path}: ${response.status}`);
    return new Uint8Array(await response.arrayBuffer());
  };
  const definition = await given(example.definition);
  /** @type {[string, { text: string, from: string }][]} */
  const trees = [];
  for (const [local, from] of Object.entries(example.locals)) {
    trees.push([local, { text: new TextDecoder().decode(await given(from)), from }]);
  }
  return { definition, trees };
}

// A menu of builds: the definitions of one build are a group, which has its name and when it was kept.
function buildOptions(builds) {
  const groups = new Map();
  for (const build of builds) {
    const cut = build.name.indexOf('/');
    const group = cut < 0 ? '' : build.name.slice(0, cut);
    groups.set(group, [...groups.get(group) ?? [], { ...build, part: build.name.slice(cut + 1) }]);
  }
  const option = ({ name, part, title, error, time }, isIn) => {
    const words = [title ? `${part}: ${title}` : part, error ? 'failed' : '', isIn ? '' : timeOf(time)];
    return make('option', { value: name, text: words.filter(Boolean).join(', ') });
  };
  return [...groups].flatMap(([group, all]) => {
    if (group === '') return all.map((build) => option(build, false));
    const label = [group, timeOf(all[0].time)].filter(Boolean).join(', ');
    return [make('optgroup', { label }, ...all.map((build) => option(build, true)))];
  });
}

function timeOf(seconds) {
  const options = /** @type {Intl.DateTimeFormatOptions} */ ({ dateStyle: 'medium', timeStyle: 'short' });
  return seconds ? new Date(seconds * 1000).toLocaleString(undefined, options) : '';
}

/** Returns whether a definition is refused for what is in its rows. */
export function canBeDrawn(refusal) {
  return /^fault (?:8[2-9]|90)\b/.test(refusal);
}

// The entry that the line of a fault names.
function placeOf(machine, definition, refusal) {
  const row = /^fault (?:82|8[4-9]|90) ([0-9]+)/.exec(refusal)?.[1];
  const words = row === undefined ? '' : rowInWords(machine, definition, Number(row));
  return words ? `Row ${row} is ${words}` : '';
}

function leftWords(leftOut) {
  if (!leftOut.length) return '';
  const more = leftOut.length > MOST_LEFT_OUT ? ` and ${leftOut.length - MOST_LEFT_OUT} more` : '';
  return `, left out: ${leftOut.slice(0, MOST_LEFT_OUT).join('; ')}${more}`;
}

function count(text) {
  let lines = 0;
  for (let at = text.indexOf('\n'); at >= 0; at = text.indexOf('\n', at + 1)) lines += 1;
  return `${lines} ${lines === 1 ? 'entry' : 'entries'}`;
}

function selectLine(field, number) {
  const lines = field.value.split('\n');
  const start = lines.slice(0, number - 1).reduce((sum, line) => sum + line.length + 1, 0);
  field.focus();
  field.setSelectionRange(start, start + (lines[number - 1]?.length ?? 0));
}
