/**
 * The view *Definition*: the text of the entries beside the graph, which a person can edit. What the machine takes is
 * opened at once, as far along the record as it goes; of what it refuses the line is marked, and the graph stays.
 */

import { opsText } from './definition.mjs';
import { by } from './dom.mjs';
import { entryAt, entryLines } from './entry_lines.mjs';
import { explained } from './faults.mjs';
import { definitionOf } from './reading.mjs';
import { refusalOf } from './session.mjs';

const NAME = 'llbm-text';
const PAUSE = 400;
// The text of a larger definition is not made, and one that is longer is not shown.
const MOST_BYTES = 300000;
const MOST_LETTERS = 400000;
const LEAST_WINDOW = 1100;

function wanted() {
  try {
    return localStorage.getItem(NAME) ?? '';
  } catch {
    return '';
  }
}

function keep(is) {
  try {
    localStorage.setItem(NAME, is ? 'shown' : 'hidden');
  } catch {
    // The browser keeps nothing for this page: it is as usual the next time.
  }
}

/** The view. `onEdit` is called with a definition and its text, `onRow` with the row of the entry that is pressed. */
export class DefinitionView {
  constructor(machine, onEdit, onRow) {
    this.machine = machine;
    this.onEdit = onEdit;
    this.field = by('text');
    this.lines = [];
    this.row = null;
    this.asked = 0;
    // Whether the field has something else than what is open.
    this.isEdited = false;
    this.isShown = (wanted() || (innerWidth < LEAST_WINDOW ? 'hidden' : 'shown')) === 'shown';
    this.field.addEventListener('input', () => this.wrote());
    this.field.addEventListener('scroll', () => this.place(), { passive: true });
    this.field.addEventListener('click', () => {
      const line = this.field.value.slice(0, this.field.selectionStart).split('\n').length - 1;
      const row = entryAt(this.lines, line);
      if (row !== null) onRow(row);
    });
    by('to-text').addEventListener('click', () => this.toggle());
    this.show();
  }

  /** Shows or hides the view. */
  toggle() {
    this.isShown = !this.isShown;
    keep(this.isShown);
    this.show();
  }

  show() {
    by('views').classList.toggle('with-text', this.isShown);
    by('to-text').setAttribute('aria-pressed', String(this.isShown));
    if (this.isShown && this.definition && !this.isEdited) this.fill();
  }

  /** Shows another definition. `text` is what a person wrote, and `isOwn` says that it was written in this view. */
  open(definition, text = null, isOwn = false) {
    this.definition = definition;
    this.text = text;
    this.row = null;
    this.say('');
    by('views').classList.toggle('with-text', this.isShown);
    // What a person is writing stays as it is, and is read later if it is more than what was read. Else it is gone.
    this.isEdited = isOwn && text !== this.field.value;
    if (isOwn) {
      this.count();
      return;
    }
    clearTimeout(this.waits);
    this.asked += 1;
    document.body.dataset.edited = 'yes';
    if (this.isShown) this.fill();
  }

  // Puts the text into the field, or says why there is none.
  fill() {
    const isLarge = this.text === null && this.definition.length > MOST_BYTES;
    const text = isLarge ? '' : this.text ??= opsText(this.machine, this.definition);
    const isLong = isLarge || text.length > MOST_LETTERS;
    if (isLong) this.say('This definition is too large to be edited here.');
    this.field.disabled = isLong;
    const shown = isLong ? '' : text;
    if (this.field.value !== shown) this.field.value = shown;
    this.count();
    const { row } = this;
    this.row = null;
    this.mark(row);
  }

  count() {
    this.lines = entryLines(this.field.value);
    this.place();
  }

  say(words, line = null) {
    by('text-said').textContent = words;
    by('text-said').classList.toggle('fault', words !== '');
    this.field.setAttribute('aria-invalid', String(words !== ''));
    this.bad = line;
    this.place();
  }

  wrote() {
    this.isEdited = true;
    this.bad = null;
    this.count();
    clearTimeout(this.waits);
    document.body.dataset.edited = 'no';
    this.waits = setTimeout(() => this.read(), PAUSE);
  }

  // Opens what was written, if the machine takes it.
  async read() {
    this.asked += 1;
    const { asked } = this;
    const text = this.field.value;
    try {
      const { definition } = await definitionOf(this.machine, new TextEncoder().encode(text), true);
      if (asked !== this.asked) return;
      const refusal = refusalOf(this.machine, definition);
      if (refusal) throw new Error(refusal);
      await this.onEdit(definition, text);
      if (asked !== this.asked) return;
    } catch ({ message }) {
      if (asked !== this.asked) return;
      const line = /^fault 16[12] ([0-9]+)/.exec(message);
      const row = /^fault (?:8[2-9]|90) ([0-9]+)/.exec(message);
      const at = line ? Number(line[1]) - 1 : this.lines[row?.[1]]?.[0] ?? null;
      this.say(`${at === null ? '' : `Line ${at + 1}: `}${message}. ${explained(message)}`.trim(), at);
    }
    document.body.dataset.edited = 'yes';
  }

  /** Marks the entry of a row, and moves it into sight; none if the row is null. */
  mark(row) {
    if (row === this.row) return;
    this.row = row;
    const lines = this.lines[row];
    if (lines && document.activeElement !== this.field) {
      const { size, begin } = this.measure();
      const [top, bottom] = [begin + lines[0] * size, begin + (lines[1] + 1) * size];
      const { scrollTop, clientHeight } = this.field;
      const isIn = top >= scrollTop && bottom <= scrollTop + clientHeight;
      if (!isIn) this.field.scrollTop = Math.max(0, top - size * 2);
    }
    this.place();
  }

  measure() {
    const style = getComputedStyle(this.field);
    return { size: Number.parseFloat(style.lineHeight), begin: Number.parseFloat(style.paddingTop) };
  }

  // Puts the marks behind the lines of the selected entry and of the refused line.
  place() {
    const { size, begin } = this.measure();
    const put = (mark, lines) => {
      mark.hidden = !lines;
      if (!lines) return;
      mark.style.top = `${begin + lines[0] * size - this.field.scrollTop}px`;
      mark.style.height = `${(lines[1] - lines[0] + 1) * size}px`;
    };
    put(by('text-mark'), this.lines[this.row] ?? null);
    put(by('text-bad'), this.bad === null || this.bad === undefined ? null : [this.bad, this.bad]);
  }
}
