/** Sharing: what a session was given as a link. The part after `#` of a link is not sent to any server. */

const MOST_LINK = 8000;
const MARK = '#s=';

async function through(stream, bytes) {
  const writer = stream.writable.getWriter();
  writer.write(bytes).catch(() => {});
  writer.close().catch(() => {});
  return new Uint8Array(await new Response(stream.readable).arrayBuffer());
}

function base64Of(bytes) {
  let text = '';
  for (const byte of bytes) text += String.fromCharCode(byte);
  return btoa(text).replaceAll('+', '-').replaceAll('/', '_').replace(/=+$/, '');
}

function bytesOf(text) {
  const letters = atob(text.replaceAll('-', '+').replaceAll('_', '/'));
  return Uint8Array.from(letters, (letter) => letter.charCodeAt(0));
}

/**
 * Returns the fragment of a link that carries a text of entries, the trees of local sources, a number of workers and
 * the lines of a session; null where it would be too long for a link.
 */
export async function fragmentOf(given) {
  const fragment = await packed(given);
  return fragment.length > MOST_LINK ? null : fragment;
}

/** Returns the fragment of a link, however long. */
export async function packed(given) {
  const bytes = new TextEncoder().encode(JSON.stringify(given));
  return MARK + base64Of(await through(new CompressionStream('deflate-raw'), bytes));
}

function isText(value) {
  return typeof value === 'string';
}

function checked(given) {
  const { text, locals, workers, lines } = given ?? {};
  const isLocal = (local) => Array.isArray(local) && local.length === 2 && local.every(isText);
  const isGood = isText(text) && Number.isInteger(workers) && Array.isArray(lines) && lines.every(isText)
    && Array.isArray(locals) && locals.every(isLocal);
  if (!isGood) throw new Error('what it carries is not a session');
  return { text, locals, workers, lines };
}

/** Returns what a fragment carries, or null if there is none. Throws where it can't be read, with a cause in words. */
export async function givenBy(fragment) {
  if (fragment === '' || fragment === '#') return null;
  if (!fragment.startsWith(MARK)) throw new Error('what is after # is not a session of this page');
  let given;
  try {
    const bytes = await through(new DecompressionStream('deflate-raw'), bytesOf(fragment.slice(MARK.length)));
    given = JSON.parse(new TextDecoder().decode(bytes));
  } catch (cause) {
    throw new Error('it is cut off or damaged, so that it can\'t be unpacked: ask for the whole link', { cause });
  }
  return checked(given);
}
