/**
 * The window over a graph: which part of the layout is seen, and how large. Buttons, keys, the wheel with Ctrl and two
 * fingers change the scale; dragging what is no box moves the window.
 */

import { by } from './dom.mjs';

const MOST = 2;
// At this scale a box is not yet a pixel high. A graph that is still higher is seen as a whole in the overview alone.
const LEAST = 0.013;
const FACTOR = 1.25;
// A fifth more or less for 100 pixels of a wheel.
const BY_WHEEL = 1.2 ** (1 / 100);
const LEAST_DRAG = 4;

/** The window. `onChange` is called when another part is seen, `onPress` with a place of the layout that is pressed. */
export class GraphWindow {
  constructor(onChange, onPress) {
    this.frame = by('graph');
    this.space = by('graph-space');
    this.layer = by('graph-layer');
    this.onChange = onChange;
    this.onPress = onPress;
    this.scale = 1;
    this.placed = { width: 1, height: 1 };
    this.frame.addEventListener('scroll', onChange, { passive: true });
    this.frame.addEventListener('wheel', (event) => this.wheel(event), { passive: false });
    this.frame.addEventListener('pointerdown', (event) => this.press(event));
    new ResizeObserver(onChange).observe(this.frame);
    by('zoom-in').addEventListener('click', () => this.zoom(FACTOR));
    by('zoom-out').addEventListener('click', () => this.zoom(1 / FACTOR));
    by('zoom-fit').addEventListener('click', () => this.fit());
    by('zoom-full').addEventListener('click', () => this.setScale(1));
  }

  /** Shows another layout, at its full size, from the top. */
  open(placed) {
    this.placed = placed;
    this.scale = 1;
    this.size();
    this.frame.scrollTo(Math.max(0, (placed.width - this.frame.clientWidth) / 2), 0);
  }

  size() {
    const { placed, scale } = this;
    this.space.style.width = `${placed.width * scale}px`;
    this.space.style.height = `${placed.height * scale}px`;
    this.layer.style.transform = `scale(${scale})`;
    by('zoom').textContent = `${scale < 0.1 ? (100 * scale).toFixed(1) : Math.round(100 * scale)} %`;
  }

  // The scale at which the whole layout is seen, if it is not too high for that.
  get whole() {
    const { clientWidth, clientHeight } = this.frame;
    return Math.min(1, Math.max(LEAST, Math.min(clientWidth / this.placed.width, clientHeight / this.placed.height)));
  }

  /** Shows the whole layout, or as much of it as can be. */
  fit() {
    this.setScale(this.whole);
  }

  /** Makes all larger by a factor. */
  zoom(factor) {
    this.setScale(this.scale * factor);
  }

  /** Sets the scale. What is at a place of the frame stays there: what is in its middle, if none is given. */
  setScale(scale, at = { x: this.frame.clientWidth / 2, y: this.frame.clientHeight / 2 }) {
    const next = Math.min(MOST, Math.max(this.whole, scale));
    const { x, y } = this.placeOf(at);
    this.scale = Math.abs(next - 1) < 0.02 ? 1 : next;
    this.size();
    this.frame.scrollTo(x * this.scale - at.x + this.space.offsetLeft, y * this.scale - at.y);
    this.onChange();
  }

  /** Returns the place of the layout at a place of the frame. */
  placeOf({ x, y }) {
    const { scrollLeft, scrollTop } = this.frame;
    return { x: (scrollLeft + x - this.space.offsetLeft) / this.scale, y: (scrollTop + y) / this.scale };
  }

  /** Returns the part of the layout that is seen, and `around` pixels more on each side. */
  seen(around = 0) {
    const { clientWidth, clientHeight } = this.frame;
    const { x: left, y: top } = this.placeOf({ x: -around, y: -around });
    const { x: right, y: bottom } = this.placeOf({ x: clientWidth + around, y: clientHeight + around });
    return { left, top, right, bottom };
  }

  /** Moves the middle of the window to a place of the layout. */
  center({ x, y }) {
    const { clientWidth, clientHeight } = this.frame;
    this.frame.scrollTo(x * this.scale - clientWidth / 2, y * this.scale - clientHeight / 2);
  }

  wheel(event) {
    if (!event.ctrlKey && !event.metaKey) return;
    event.preventDefault();
    const frame = this.frame.getBoundingClientRect();
    const at = { x: event.clientX - frame.left, y: event.clientY - frame.top };
    this.setScale(this.scale * BY_WHEEL ** -event.deltaY, at);
  }

  // A press of the mouse beside boxes moves the window until it ends; one that does not move is a press on a place.
  press(event) {
    if (event.button !== 0 || event.pointerType === 'touch' || event.target.closest('.box')) return;
    const { frame } = this;
    const from = { x: event.clientX, y: event.clientY, left: frame.scrollLeft, top: frame.scrollTop };
    let isMoved = false;
    const move = ({ clientX, clientY }) => {
      isMoved ||= Math.hypot(clientX - from.x, clientY - from.y) >= LEAST_DRAG;
      if (isMoved) frame.scrollTo(from.left + from.x - clientX, from.top + from.y - clientY);
    };
    const end = () => {
      for (const [name, call] of Object.entries(calls)) frame.removeEventListener(name, call);
      const { left, top } = frame.getBoundingClientRect();
      if (!isMoved) this.onPress(this.placeOf({ x: from.x - left, y: from.y - top }));
    };
    const calls = { pointermove: move, pointerup: end, pointercancel: end };
    frame.setPointerCapture(event.pointerId);
    for (const [name, call] of Object.entries(calls)) frame.addEventListener(name, call);
  }
}
