/** The view *Share*: the session's lines and the definition's text to copy, and a link. */

import { by } from './dom.mjs';
import { fragmentOf } from './share.mjs';

// The path of a server of builds begins with a part that must stay secret.
const SECRET = /^\/[\w-]{20,}\//;

async function copy(element) {
  try {
    await navigator.clipboard.writeText(element.value);
    by('share-said').textContent = 'Copied.';
  } catch {
    element.focus();
    element.select();
    by('share-said').textContent = 'The browser did not copy it: it is selected, copy it with the keyboard.';
  }
}

/** Returns a view of what can be shared of a session. */
export function shareView() {
  for (const name of ['lines', 'text', 'link']) {
    by(`copy-${name}`).addEventListener('click', () => copy(by(`share-${name}`)));
  }
  return {
    /** Shows what a session was given, and its lines. */
    async update(given) {
      by('share-lines').value = given.lines.map((line) => `${line}\n`).join('');
      by('share-text').value = given.text;
      by('share-said').textContent = '';
      const fragment = await fragmentOf(given);
      const { origin, pathname } = globalThis.location;
      const isSecret = SECRET.test(pathname);
      by('share-link').value = fragment ? `${isSecret ? '' : `${origin}${pathname}`}${fragment}` : '';
      by('share-secret').hidden = !fragment || !isSecret;
      by('copy-link').disabled = !fragment;
      by('share-none').hidden = Boolean(fragment);
    },
  };
}
