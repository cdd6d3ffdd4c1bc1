/** The view of two orders side by side: the way that the session is on, and another one. */

import { by, make } from './dom.mjs';
import { ordersInWords } from './orders.mjs';

const MOST_ROWS = 200;

function claimWords(claim) {
  return claim ? `worker ${claim.worker}, event ${claim.number}` : 'not claimed';
}

function rowOf({ vertex, claims, statuses, isSame, isCached }) {
  const ends = statuses[0] === statuses[1] ? statuses[0] : statuses.join(' / ');
  const outcome = isSame ? `same: ${ends}` : `differs${isCached ? ', after a cache mount' : ''}: ${ends}`;
  const cells = [vertex, ...claims.map(claimWords), outcome];
  return make('tr', { class: isSame ? '' : 'differs' }, ...cells.map((text) => make('td', { text })));
}

/** Shows how two ways of a session compare. `looker` has a session of its own for each. */
export class OrdersView {
  constructor(looker) {
    this.looker = looker;
    this.session = null;
    by('compare').addEventListener('click', () => this.compare());
  }

  /** Begins anew with another session. */
  open(session) {
    this.session = session;
    this.clear();
    this.update();
  }

  clear() {
    by('orders').replaceChildren();
    by('orders-table').hidden = true;
    by('orders-said').textContent = '';
  }

  /** Lists the ways with which the present one can be compared. */
  update() {
    const { ways } = this.session;
    const isOther = ({ place }) => place !== ways.end() && place.event;
    const others = ways.newest.map((place, way) => ({ place, way })).filter(isOther);
    const key = others.map(({ place, way }) => `${way}.${place.number}`).join(' ');
    if (by('order').dataset.key !== key) {
      const options = others.map(({ way }) => make('option', { value: way, text: `way ${way + 1}` }));
      const none = make('option', { value: '', text: 'there is no other way yet' });
      by('order').replaceChildren(...(options.length ? options : [none]));
      by('order').dataset.key = key;
    }
    by('compare').disabled = by('order').disabled = !others.length;
  }

  /** Compares the way that the session is on with the one that is chosen. */
  async compare() {
    const { session } = this;
    const { ways } = session;
    const linesTo = (place) => ways.path(place).filter(({ event }) => event).map(({ event }) => event.line).join('\n');
    const other = ways.newest[Number(by('order').value)];
    by('orders-said').textContent = 'both orders are gone to their ends …';
    try {
      const rows = await this.looker.call('orders', linesTo(ways.end()), linesTo(other));
      if (this.session === session) this.show(rows);
    } catch (fault) {
      by('orders-said').textContent = fault.message;
    }
  }

  show(rows) {
    by('orders-said').textContent = ordersInWords(rows);
    const isOther = ({ claims: [a, b], isSame }) => !isSame || a?.worker !== b?.worker || a?.number !== b?.number;
    const shown = rows.filter(isOther);
    by('orders').replaceChildren(...shown.slice(0, MOST_ROWS).map(rowOf));
    by('orders-table').hidden = !shown.length;
  }
}
