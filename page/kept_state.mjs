/**
 * What the page keeps of a session, so that a reload of the page shows it again: the part after # of its address, which
 * is sent to no server, or, if that would be too long for an address, the storage of this tab.
 */

import { givenBy, packed } from './share.mjs';

const NAME = 'llbm';
const MOST_IN_ADDRESS = 8000;
const MOST_IN_STORAGE = 4 << 20;
const MOST_LINES = 5000;
const PAUSE = 400;

/** Returns whether a session with so many events, on a definition of so many bytes, can be kept. */
export function canBeKept(events, bytes) {
  return events <= MOST_LINES && bytes <= MOST_IN_STORAGE;
}

function store(fragment) {
  try {
    if (fragment) sessionStorage.setItem(NAME, fragment);
    else sessionStorage.removeItem(NAME);
  } catch {
    // The storage is full, or the browser has none: a reload then begins anew.
  }
}

/** Keeps what a function returns, a little after it is asked for: the last session that was given wins. */
export class KeptState {
  constructor() {
    this.waits = null;
    this.count = 0;
  }

  /**
   * Keeps what `given` returns a promise of: a text of entries, local trees, workers and lines; null, or a promise that
   * is refused, where nothing can be kept.
   */
  later(given) {
    clearTimeout(this.waits);
    this.waits = setTimeout(() => this.keep(given().catch(() => null)), PAUSE);
  }

  async keep(promise) {
    this.count += 1;
    const { count } = this;
    const given = await promise;
    if (count !== this.count) return;
    const size = given ? given.text.length + given.locals.reduce((sum, [, text]) => sum + text.length, 0) : 0;
    const isKept = given && size <= MOST_IN_STORAGE;
    const fragment = isKept ? await packed(given) : '';
    if (count !== this.count) return;
    const isShort = fragment.length <= MOST_IN_ADDRESS;
    store(isShort ? '' : fragment);
    const { pathname, search } = location;
    history.replaceState(null, '', pathname + search + (isShort ? fragment : ''));
    document.body.dataset.kept = isKept ? given.lines.length : 'no';
  }
}

/** Returns what the storage of this tab has, if the page was reloaded; null else, or where it can't be read. */
export async function reloaded() {
  const [load] = /** @type {PerformanceNavigationTiming[]} */ (performance.getEntriesByType('navigation'));
  if (load?.type !== 'reload') return null;
  try {
    return await givenBy(sessionStorage.getItem(NAME) ?? '');
  } catch {
    return null;
  }
}
