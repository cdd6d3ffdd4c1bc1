/** The search over the paths of all steps: which event made, changed or removed a path. */

import { by, make } from './dom.mjs';
import { wordsOf } from './record.mjs';

/** The view of the search. `onEvent` is called with the number of the event to go to, and its commands up to there. */
export class SearchView {
  constructor(looker, onEvent) {
    this.looker = looker;
    this.onEvent = onEvent;
    this.entries = [];
    by('search-form').addEventListener('submit', (event) => {
      event.preventDefault();
      this.search();
    });
    by('search').addEventListener('input', () => {
      if (by('search').value === '') this.clear();
    });
  }

  /** Begins anew with another session. `entries` has what the definition says of each vertex. */
  open(entries) {
    this.entries = entries;
    this.clear();
  }

  /** Shows nothing as found. */
  clear() {
    by('found').replaceChildren();
    by('found-said').textContent = '';
  }

  /** Searches the events of the session's way, and those after it that the machine would choose. */
  async search() {
    const text = by('search').value;
    const { session } = this.looker;
    if (!session || text === '') return;
    by('found-said').textContent = 'searching …';
    const { ways } = session;
    const places = ways.path(ways.end()).filter((place) => place.event);
    const lines = places.map(({ event }) => event.line).join('\n');
    try {
      this.show(text, await this.looker.call('search', text, lines));
    } catch (fault) {
      by('found-said').textContent = fault.message;
    }
  }

  show(text, { found, more, events }) {
    const rest = more ? ` The first ${found.length} are shown.` : '';
    const count = (found.length + more).toLocaleString('en');
    by('found-said').textContent = `${count} changes of paths with “${text}”, in ${events} events.${rest}`;
    by('found').replaceChildren(...found.map(({ event, path, kind }) => make('li', {}, make('button', {
      type: 'button', text: `${kind} ${path}: ${wordsOf(event, this.entries[event.vertex])}`,
      onclick: () => this.onEvent(event),
    }))));
  }
}
