/**
 * The way that a session is on, with bars from each claim to its end, and the holds of each cache. It grows by an event
 * at a time, and by so many in each turn of a generator, since a way can have 200,000 events.
 */

export const MOST_AT_ONCE = 2000;

// How many bars begin at or before a place, by halving.
function begunBy(bars, last) {
  let [low, high] = [0, bars.length];
  while (low < high) {
    const middle = (low + high) >> 1;
    if (bars[middle].from <= last) low = middle + 1;
    else high = middle;
  }
  return low;
}

/** The places of a way, in their order, and what lies between them. */
export class Track {
  constructor(entries) {
    this.entries = entries;
    this.begin();
  }

  begin() {
    this.path = [];
    this.bars = [];
    this.lanes = [];
    this.byKey = new Map();
    this.running = new Map();
    this.workers = new Set();
  }

  /**
   * Follows the way to a place: by the events after those that are known, or anew if it is another way. It is complete
   * when the generator ends.
   */
  * following(ways, end) {
    const known = this.path.at(-1);
    const isFurther = known && ways.meet(known, end) === known;
    if (!isFurther) this.begin();
    const more = ways.between(end, end.number - (isFurther ? known.number : -1));
    for (let i = 0; i < more.length; i += 1) {
      this.add(more[i]);
      if ((i + 1) % MOST_AT_ONCE === 0) yield;
    }
  }

  add(place) {
    const { event, number } = place;
    this.path.push(place);
    if (!event) return;
    if (event.kind === 'claim') this.claim(event, number);
    else if (event.kind !== 'step') {
      for (const open of this.running.get(event.worker) ?? []) open.to = number;
      this.running.delete(event.worker);
    }
  }

  claim({ worker, vertex }, number) {
    const bar = { worker, vertex, from: number, to: null };
    this.workers.add(worker);
    const mounts = this.entries[vertex]?.mounts ?? [];
    const holds = mounts.filter((mount) => mount.isCache).map((mount) => this.hold(mount, { ...bar }));
    this.bars.push(bar);
    this.running.set(worker, [bar, ...holds]);
  }

  hold({ id, mode, seed }, hold) {
    const key = JSON.stringify([id, mode, seed]);
    if (!this.byKey.has(key)) {
      this.byKey.set(key, { id, mode, holds: [] });
      this.lanes.push(this.byKey.get(key));
    }
    this.byKey.get(key).holds.push(hold);
    return hold;
  }

  /**
   * Returns the bars that touch a part of the way; one without an end yet goes to the last event. They are in the order
   * of their beginnings, and of those that begin before the part each worker's last one alone can reach into it.
   */
  within(bars, first, last) {
    const end = this.path.length - 1;
    const found = [];
    const seen = new Set();
    for (let at = begunBy(bars, last) - 1; at >= 0 && seen.size < this.workers.size; at -= 1) {
      const { worker, from, to } = bars[at];
      const isLast = from >= first || !seen.has(worker);
      if (from < first) seen.add(worker);
      if (isLast && (to ?? end) >= first) found.push({ ...bars[at], to: to ?? end });
    }
    return found.reverse();
  }
}
