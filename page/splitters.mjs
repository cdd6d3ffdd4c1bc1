/**
 * The lines between the panels, which a person moves by the mouse or by arrows. How wide the panels are is kept by the
 * browser for the next time.
 */

import { by } from './dom.mjs';

const NAME = 'llbm-panels';
const USUAL = { definition: 0.9, graph: 1.25, changes: 1, time: null };
const LEAST_PART = 0.12;
const STEP_PART = 0.03;
const STEP_HEIGHT = 24;
const LEAST_HEIGHT = 60;

function kept() {
  try {
    return JSON.parse(localStorage.getItem(NAME)) ?? {};
  } catch {
    return {};
  }
}

function keep(sizes) {
  try {
    localStorage.setItem(NAME, JSON.stringify(sizes));
  } catch {
    // The browser keeps nothing for this page: the panels are as usual the next time.
  }
}

const isSize = (size) => Number.isFinite(size) && size > 0;

/** The sizes of the panels: shares of the width, and the height of the events in pixels or null. */
class Panels {
  constructor() {
    const found = kept();
    this.sizes = Object.fromEntries(Object.entries(USUAL).map(([name, usual]) => (
      [name, isSize(found[name]) ? found[name] : usual])));
    this.show();
  }

  show() {
    const { style } = by('views');
    for (const name of ['definition', 'graph', 'changes']) style.setProperty(`--${name}`, `${this.sizes[name]}fr`);
    if (this.sizes.time) style.setProperty('--time-height', `${this.sizes.time}px`);
  }

  // Divides what two panels have together: the first gets a part of it.
  divide(first, second, part) {
    const both = this.sizes[first] + this.sizes[second];
    const limited = Math.min(1 - LEAST_PART, Math.max(LEAST_PART, part));
    this.sizes[first] = both * limited;
    this.sizes[second] = both * (1 - limited);
    this.changed();
  }

  partOf(first, second) {
    return this.sizes[first] / (this.sizes[first] + this.sizes[second]);
  }

  setTime(height) {
    this.sizes.time = Math.max(LEAST_HEIGHT, Math.min(height, innerHeight * 0.7));
    this.changed();
  }

  changed() {
    this.show();
    keep(this.sizes);
  }
}

// Calls `move` while a line is dragged, and `turn` with -1 or 1 for the arrows of its direction.
function listen(line, keys, move, turn) {
  line.addEventListener('pointerdown', (event) => {
    event.preventDefault();
    line.setPointerCapture(event.pointerId);
  });
  line.addEventListener('pointermove', (event) => line.hasPointerCapture(event.pointerId) && move(event));
  line.addEventListener('keydown', (event) => {
    const direction = keys[event.key];
    if (!direction) return;
    event.preventDefault();
    event.stopPropagation();
    turn(direction);
  });
}

function columnLine(panels, id, first, second) {
  const line = by(id);
  const show = () => line.setAttribute('aria-valuenow', Math.round(100 * panels.partOf(first, second)));
  const divide = (part) => {
    panels.divide(first, second, part);
    show();
  };
  const move = ({ clientX }) => {
    const { left } = by(`${first}-view`).getBoundingClientRect();
    const { right } = by(`${second}-view`).getBoundingClientRect();
    divide((clientX - left) / (right - left));
  };
  const turn = (direction) => divide(panels.partOf(first, second) + direction * STEP_PART);
  listen(line, { ArrowLeft: -1, ArrowRight: 1 }, move, turn);
  show();
}

function timeLine(panels) {
  const line = by('split-time');
  const top = () => by('time').getBoundingClientRect().top;
  const set = (height) => {
    panels.setTime(height);
    line.setAttribute('aria-valuenow', Math.round(panels.sizes.time));
  };
  listen(line, { ArrowUp: -1, ArrowDown: 1 }, ({ clientY }) => set(clientY - top()), (direction) => (
    set(by('time').getBoundingClientRect().height + direction * STEP_HEIGHT)));
}

/** Makes the lines between the panels work. */
export function listenToSplitters() {
  const panels = new Panels();
  columnLine(panels, 'split-definition', 'definition', 'graph');
  columnLine(panels, 'split-changes', 'graph', 'changes');
  timeLine(panels);
}
