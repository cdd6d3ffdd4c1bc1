/** The overview of a graph: all of it, small, with the part that is seen. A press or a drag moves the window there. */

import { by } from './dom.mjs';
import { paintingColumns, viewOf } from './graph_paint.mjs';
import { inTurns } from './turns.mjs';

const SIDE = { width: 170, height: 120, least: 28 };
// It is painted again at most so often, in milliseconds, since 65,535 vertices can change at each step.
const PAUSE = 150;
// The window is at least so many times as wide and as high, so that the overview does not cover what it is of.
const LEAST_WINDOW = 2.5;

/** The overview. `onPlace` is called with a place of the layout. */
export class Overview {
  constructor(onPlace) {
    this.canvas = by('overview');
    this.frame = by('graph');
    this.picture = document.createElement('canvas');
    this.waits = null;
    this.canvas.addEventListener('pointerdown', (event) => {
      this.canvas.setPointerCapture(event.pointerId);
      onPlace(this.placeOf(event));
    });
    this.canvas.addEventListener('pointermove', (event) => event.buttons && onPlace(this.placeOf(event)));
  }

  /** Shows another layout. One that is much higher than wide goes on in columns, as a text does in a newspaper. */
  open(placed) {
    this.placed = placed;
    const count = Math.max(1, Math.floor(Math.sqrt((placed.height * SIDE.width) / (placed.width * SIDE.height))));
    this.part = placed.height / count;
    const scale = Math.min(SIDE.width / (placed.width * count), SIDE.height / this.part);
    this.columns = Array.from({ length: count }, (_, column) => column);
    const width = Math.round(Math.max(SIDE.least, placed.width * count * scale));
    const height = Math.round(Math.max(SIDE.least, this.part * scale));
    for (const canvas of [this.canvas, this.picture]) Object.assign(canvas, { width, height });
    this.wide = width / count;
    this.scale = { x: this.wide / placed.width, y: height / this.part };
  }

  // The place of the layout at a place of the picture.
  placeOf({ offsetX, offsetY }) {
    const column = Math.min(this.columns.length - 1, Math.max(0, Math.floor(offsetX / this.wide)));
    return { x: (offsetX - column * this.wide) / this.scale.x, y: column * this.part + offsetY / this.scale.y };
  }

  /** Paints the statuses, a little later and in turns: the last ones that were given win. */
  later(colors, wordOf, seen) {
    this.asked = () => this.paint(colors, wordOf, seen);
    this.waits ??= setTimeout(() => this.paintAsked(), PAUSE);
  }

  async paintAsked() {
    const { asked } = this;
    this.asked = null;
    await asked();
    this.waits = this.asked ? setTimeout(() => this.paintAsked(), PAUSE) : null;
  }

  async paint(colors, wordOf, seen) {
    const { placed } = this;
    const { width, height } = this.picture;
    const picture = Object.assign(document.createElement('canvas'), { width, height });
    const size = { width: this.wide, height };
    const found = this.columns.map((column) => (
      [column * this.wide, viewOf({ left: 0, top: column * this.part }, size, this.scale.x, this.scale.y)]));
    const painting = paintingColumns(picture.getContext('2d'), placed, found, colors, wordOf);
    await inTurns(painting, () => this.placed === placed);
    if (this.placed !== placed) return;
    this.picture = picture;
    this.mark(seen(), colors);
  }

  // Returns whether the window is too small for an overview.
  isCramped() {
    const { clientWidth, clientHeight } = this.frame;
    return clientWidth < LEAST_WINDOW * this.canvas.width || clientHeight < LEAST_WINDOW * this.canvas.height;
  }

  /** Marks the part of the layout that is seen; there is no overview if that is all of it, or in a small window. */
  mark({ left, top, right, bottom }, colors) {
    const { placed, part, scale } = this;
    const isAll = left <= 0 && top <= 0 && right >= placed.width && bottom >= placed.height;
    this.canvas.hidden = isAll || this.isCramped();
    const context = this.canvas.getContext('2d');
    context.clearRect(0, 0, this.canvas.width, this.canvas.height);
    context.drawImage(this.picture, 0, 0);
    context.strokeStyle = colors.near;
    context.lineWidth = 2;
    const [x, end] = [Math.max(0, left) * scale.x, Math.min(placed.width, right) * scale.x];
    const last = Math.min(this.columns.length - 1, Math.floor(bottom / part));
    for (let column = Math.max(0, Math.floor(top / part)); column <= last; column += 1) {
      const [y, low] = [top, bottom].map((at) => Math.min(part, Math.max(0, at - column * part)) * scale.y);
      context.strokeRect(column * this.wide + x, y, Math.max(3, end - x), Math.max(3, low - y));
    }
  }
}
