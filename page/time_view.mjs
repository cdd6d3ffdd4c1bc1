/**
 * The view *Time*: workers as rows, events as marks in their order, and a row for each cache with who holds it. The way
 * that the session is on is drawn in full, and each other way below it, from the event at which it left. Only marks
 * inside the window are in the page.
 */

import { by, draw, oncePerFrame } from './dom.mjs';
import { isFailure, isFault, wordsOf } from './record.mjs';
import { Track } from './time_track.mjs';
import { inTurns } from './turns.mjs';

const STEP = 24;
const ROW = 24;
const LEFT = 78;
const TOP = 22;
const GAP = 14;
const AROUND = 100;
const MOST_OF_A_LABEL = 11;
const SHAPES = { claim: 'M-6 -6L6 0L-6 6Z', settle: 'M-6 -6H6V6H-6Z', cancel: 'M-6 -6L6 6M6 -6L-6 6' };

function short(text) {
  return text.length > MOST_OF_A_LABEL ? `${text.slice(0, MOST_OF_A_LABEL - 1)}…` : text;
}

function classOf(event) {
  return isFailure(event) || isFault(event) ? `event ${event.kind} bad` : `event ${event.kind}`;
}

/** The view of the ways of a session. `onPlace` is called with a place to go to. */
export class TimeView {
  constructor(onPlace) {
    this.frame = by('time');
    this.svg = by('time-marks');
    this.slider = by('slider');
    this.onPlace = onPlace;
    this.refresh = oncePerFrame(() => this.render());
    this.frame.addEventListener('scroll', this.refresh, { passive: true });
    new ResizeObserver(this.refresh).observe(this.frame);
    this.slider.addEventListener('input', () => this.slid());
  }

  /** Shows another session. `entries` has what the definition says of each vertex. */
  open(session, entries) {
    this.session = session;
    this.track = new Track(entries);
    this.rows = [];
    this.end = session.ways.root;
    this.frame.scrollTo(0, 0);
    this.update();
  }

  /** Shows the place where the session is. What is long is followed in turns, and drawn when it is there. */
  update() {
    const { ways } = this.session;
    this.end = ways.end();
    const following = this.track.following(ways, this.end);
    this.following = following.next().done ? null : following;
    this.slider.max = this.end.number;
    this.slider.value = ways.at.number;
    const { event } = ways.at;
    const words = event ? wordsOf(event, this.track.entries[event.vertex]) : 'the beginning';
    this.slider.setAttribute('aria-valuetext', words);
    by('place').textContent = `${words} (${ways.at.number} of ${this.end.number} events)`;
    this.rows = this.rowsOf();
    this.size();
    this.reveal();
    this.render();
    if (this.following) this.followFurther(following);
  }

  async followFurther(following) {
    await inTurns(following, () => this.following === following);
    if (this.following !== following) return;
    this.following = null;
    this.refresh();
  }

  /** Shows how far the session is while it goes on: only what costs little. */
  progress() {
    const { ways } = this.session;
    this.slider.max = Math.max(Number(this.slider.max), ways.at.number);
    this.slider.value = ways.at.number;
    by('place').textContent = `event ${ways.at.number.toLocaleString('en')} …`;
    if (!this.following && ways.at.number > this.end.number) this.track.following(ways, ways.at).next();
  }

  slid() {
    const number = Number(this.slider.value);
    this.onPlace(this.track.path[number] ?? this.session.ways.between(this.end, this.end.number - number + 1)[0]);
  }

  get lanes() {
    return this.track.lanes;
  }

  // A row for each way that has places beside that of the session. They are found again only where one has more.
  rowsOf() {
    const { ways } = this.session;
    return ways.beside(this.end).map(({ way, last, count }) => {
      const old = this.rows.find((row) => row.way === way && row.places.at(-1) === last && row.places.length === count);
      if (old) return old;
      const places = ways.between(last, count);
      return { way, places, from: places[0].before };
    });
  }

  x(number) {
    return LEFT + number * STEP;
  }

  y(worker) {
    return TOP + worker * ROW + ROW / 2;
  }

  below(row) {
    return TOP + (this.session.workers + this.lanes.length) * ROW + GAP + row * ROW + ROW / 2;
  }

  size() {
    const most = Math.max(this.end.number, ...this.rows.map(({ places }) => places.at(-1).number));
    this.svg.setAttribute('width', this.x(most) + STEP);
    this.svg.setAttribute('height', this.below(this.rows.length) - ROW / 2 + 4);
  }

  // Moves the present event into sight, once all events have their room.
  reveal() {
    const x = this.x(this.session.ways.at.number);
    const { scrollLeft, clientWidth } = this.frame;
    if (x - STEP < scrollLeft + LEFT) this.frame.scrollLeft = x - LEFT - STEP * 2;
    else if (x + STEP > scrollLeft + clientWidth) this.frame.scrollLeft = x - clientWidth + STEP * 3;
  }

  /** Draws what is inside the window. */
  render() {
    if (!this.session) return;
    const { scrollLeft, clientWidth } = this.frame;
    const first = Math.max(0, Math.floor((scrollLeft - LEFT - AROUND) / STEP));
    const last = Math.ceil((scrollLeft + clientWidth - LEFT + AROUND) / STEP);
    this.svg.replaceChildren(
      ...this.spans(first, last), ...this.holds(first, last),
      ...this.track.path.slice(Math.max(1, first), last + 1).map((place) => this.mark(place)),
      ...this.rows.flatMap((row, i) => this.other(row, i, first, last)), this.cursor(), ...this.labels(scrollLeft),
    );
  }

  labels(left) {
    const label = (y, text) => draw('g', { class: 'label' },
      draw('rect', { x: left, y: y - ROW / 2, width: LEFT - 14, height: ROW }),
      draw('text', { x: left + 4, y: y + 4, text }));
    const workers = Array.from({ length: this.session.workers }, (_, worker) => worker);
    const rows = workers.map((worker) => label(this.y(worker), `worker ${worker}`));
    const lanes = this.lanes.map(({ id }, i) => label(this.y(this.session.workers + i), short(id)));
    return [...rows, ...lanes, ...this.rows.map(({ way }, i) => label(this.below(i), `way ${way + 1}`))];
  }

  // A bar for each hold of a cache, in the cache's row, with the worker that holds it.
  holds(first, last) {
    return this.lanes.flatMap(({ id, mode, holds }, i) => {
      const y = this.y(this.session.workers + i);
      return this.track.within(holds, first, last).flatMap(({ worker, vertex, from, to }) => {
        const words = `cache ${id} (${mode}): worker ${worker} holds it for vertex ${vertex}, events ${from} to ${to}`;
        const [x, width] = [this.x(from), Math.max(4, (to - from) * STEP)];
        const title = draw('title', { text: words });
        const bar = draw('rect', { class: `held ${mode}`, x, y: y - 8, width, height: 16 }, title);
        return [bar, draw('text', { class: 'held-by', x: x + 3, y: y + 4, text: `w${worker}` })];
      });
    });
  }

  // A bar from each claim to the settle or cancel of the same worker.
  spans(first, last) {
    return this.track.within(this.track.bars, first, last).map(({ worker, from, to }) => {
      const [y, width] = [this.y(worker) - 4, (to - from) * STEP];
      return draw('rect', { class: 'span', x: this.x(from), y, width, height: 8 });
    });
  }

  mark(place, y = this.y(place.event.worker)) {
    const { event, number } = place;
    const isAt = place === this.session.ways.at;
    const isAhead = number > this.session.ways.at.number;
    const shape = event.kind === 'step' ? draw('circle', { r: 5 }) : draw('path', { d: SHAPES[event.kind] });
    const name = event.kind === 'claim' ? [draw('text', { y: -9, text: event.vertex })] : [];
    const words = wordsOf(event, this.track.entries[event.vertex]);
    return draw('g', {
      class: `${classOf(event)}${isAt ? ' at' : ''}${isAhead ? ' ahead' : ''}`, role: 'button', tabindex: -1,
      'aria-label': words,
      transform: `translate(${this.x(number)} ${y})`, 'data-number': number, onclick: () => this.onPlace(place),
    }, draw('title', { text: words }), draw('rect', { class: 'target', x: -12, y: -12, width: 24, height: 24 }),
    shape, ...name);
  }

  other({ from, places }, row, first, last) {
    const y = this.below(row);
    const x = this.x(from.number);
    const top = from.event ? this.y(from.event.worker) : TOP;
    const begin = places[0].number;
    const seen = places.slice(Math.max(0, first - begin), Math.max(0, last + 1 - begin));
    return [
      draw('path', { class: 'fork', d: `M${x} ${top}V${y}H${this.x(places.at(-1).number)}` }),
      ...seen.map((place) => {
        const mark = this.mark(place, y);
        mark.classList.add('other');
        return mark;
      }),
    ];
  }

  cursor() {
    const x = this.x(this.session.ways.at.number);
    const rows = this.session.workers + this.lanes.length;
    return draw('line', { class: 'cursor', x1: x, x2: x, y1: 2, y2: TOP + rows * ROW + 4 });
  }
}
