/**
 * The ways that a session went: a tree of events, in which each path from the root is a record. Going back and on with
 * another event begins a way of its own; what was done before stays.
 *
 * A record can have 200,000 events, so no call but `path`, `between` and `route` walks over places: whether one place
 * is before another follows from the ways between them, which are few.
 */

import { eventOf } from './record.mjs';
import { linesOf } from './tree_text.mjs';

// So many events of a record are laid before the next turn.
const MOST_AT_ONCE = 1000;

/**
 * A place on a way: the event that leads to it, null at the beginning, and the places after it. The first of these is
 * on the same way; each other one begins a way. `claims` has the vertex that each worker runs here.
 */
class Place {
  constructor(before, event, way) {
    this.before = before;
    this.event = event;
    this.after = [];
    this.number = before ? before.number + 1 : 0;
    this.way = way;
    this.claims = before ? claimsAfter(before.claims, event) : new Map();
  }
}

// What workers run after an event. Most events are steps, which change nothing here: the map is shared then.
function claimsAfter(claims, { kind, worker, vertex }) {
  if (kind === 'step') return claims;
  const next = new Map(claims);
  if (kind === 'claim') next.set(worker, vertex);
  else next.delete(worker);
  return next;
}

/** All ways of a session, and the place where it is. */
export class Ways {
  constructor() {
    this.root = new Place(null, null, 0);
    this.at = this.root;
    this.count = 1;
    // The first place of each way, and the last one on which the session was.
    this.first = [this.root];
    this.newest = [this.root];
    this.last = this.root;
  }

  /** Adds an event after the place where the session is, or finds it there, and goes to it. */
  add(event) {
    const { command, line } = event;
    let next = this.at.after.find((place) => place.event.command === command && place.event.line === line);
    if (!next) {
      const isFork = this.at.after.length > 0;
      next = new Place(this.at, event, isFork ? this.count : this.at.way);
      if (isFork) {
        this.first[this.count] = next;
        this.count += 1;
      }
      this.at.after.push(next);
    }
    this.at = next;
    this.keep(next);
    this.end();
    return next;
  }

  /** Adds the events of lines, and returns them. A step is of the vertex that its worker claimed last. */
  take(lines) {
    const events = lines.map(eventOf).filter(Boolean);
    for (const event of events) {
      event.vertex ??= this.at.claims.get(event.worker);
      this.add(event);
    }
    return events;
  }

  /**
   * Lays the events of a record ahead of the beginning, as a way that was gone already; none of them is done yet. They
   * are there when the generator ends.
   */
  * laying(record) {
    let place = this.root;
    for (const line of linesOf(record)) {
      const event = eventOf(line);
      if (!event) continue;
      event.vertex ??= place.claims.get(event.worker) ?? null;
      const next = new Place(place, event, 0);
      place.after.push(next);
      place = next;
      if (place.number % MOST_AT_ONCE === 0) yield;
    }
    this.keep(place);
    this.last = place;
  }

  /** Returns the next place of the way that the session is on, or null at its end. */
  ahead() {
    const end = this.end();
    return end === this.at ? null : this.towards(end);
  }

  // Returns the place after the present one on the way to a place that comes later.
  towards(end) {
    let one = end;
    while (one.way !== this.at.way) {
      const first = this.first[one.way];
      if (first.before === this.at) return first;
      one = first.before;
    }
    return this.at.after[0];
  }

  // Each way remembers where it was last: the slider goes over the places up to there.
  keep(place) {
    const newest = this.newest[place.way];
    if (!newest || newest.number < place.number) this.newest[place.way] = place;
  }

  /** Goes to the place that has a number of events on the way here. */
  back(number) {
    while (this.at.number > number) this.at = this.at.before;
  }

  /** Returns the places from the root to a place, the root too. */
  path(place = this.at) {
    const found = [];
    for (let one = place; one; one = one.before) found.push(one);
    return found.reverse();
  }

  /** Returns the place of a way that has so many events before it. */
  placeAt(way, number) {
    let one = this.newest[way];
    while (one.number > number) one = one.before;
    return one;
  }

  /** Returns the lines that bring a new session to the present place. */
  commands() {
    return this.path().filter(({ event }) => event).map(({ event }) => event.command);
  }

  // Returns whether the present place is a given one or before it.
  isOn(place) {
    let one = place;
    while (one && one.way !== this.at.way) one = this.first[one.way].before;
    return Boolean(one) && one.number >= this.at.number;
  }

  /** Returns the last place of the way that the session was last on, if the present one is on it, or of its own way. */
  end() {
    if (!this.isOn(this.last)) this.last = this.newest[this.at.way];
    return this.last;
  }

  // Returns the last place that is on the way to both of two places.
  meet(place, other) {
    let [one, two] = [place, other];
    while (one.way !== two.way) {
      // A way begins on one of the ways before it.
      if (one.way > two.way) one = this.first[one.way].before;
      else two = this.first[two.way].before;
    }
    return one.number <= two.number ? one : two;
  }

  /** Returns the parts of ways that are not on the way to a place: each with its way, its last place, and how many. */
  beside(place) {
    const used = new Map();
    for (let one = place; one; one = this.first[one.way].before) used.set(one.way, one.number);
    return this.newest.flatMap((last, way) => {
      const most = used.get(way) ?? this.first[way].number - 1;
      return last.number > most ? [{ way, last, count: last.number - most }] : [];
    });
  }

  /** Returns so many places that end with a given one, in order. */
  between(last, count) {
    const found = [];
    for (let one = last; found.length < count; one = one.before) found.push(one);
    return found.reverse();
  }

  /** Returns how to get to a place from another one: how many events back, and the places from there. */
  route(place, from = this.at) {
    const meet = this.meet(place, from);
    return { back: from.number - meet.number, forth: this.between(place, place.number - meet.number) };
  }
}
