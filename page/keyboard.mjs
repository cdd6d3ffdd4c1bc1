/** The keys of the page. A field keeps the keys that it needs by itself; all others work wherever the focus is. */

const ONE_LINE = new Set(['text', 'search', 'url', 'email', 'password', 'tel']);
const MOVES = /^(?:Arrow|Home$|End$|Page)/;
// The letters of a number, and all keys that are no letters, such as Backspace.
const OF_NUMBERS = /^(?:[-+.,0-9eE]|..+)$/;

/** Returns whether a field needs a key by itself: all keys where a person writes, those that move in a menu. */
export function isKept(target, key) {
  if (target.isContentEditable || target.tagName === 'TEXTAREA') return true;
  if (target.tagName === 'SELECT') return MOVES.test(key);
  if (target.tagName !== 'INPUT') return false;
  if (target.type === 'number') return OF_NUMBERS.test(key);
  return ONE_LINE.has(target.type) || (target.type === 'range' && MOVES.test(key));
}

/** Does an action for each key; `actions` has a function by key, as `ArrowRight`. */
export function listen(actions) {
  document.addEventListener('keydown', (event) => {
    if (event.ctrlKey || event.altKey || event.metaKey || event.defaultPrevented) return;
    if (isKept(event.target, event.key) || document.querySelector('dialog[open]')) return;
    const action = actions[event.key] ?? (/^[0-9]$/.test(event.key) ? () => actions.digit?.(Number(event.key)) : null);
    if (!action) return;
    event.preventDefault();
    action();
  });
}
