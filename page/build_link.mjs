/** Builds that a server, `llbm-tools page --serve`, has: a link of the page opens one, with its trees and record. */

import { definitionOf } from './reading.mjs';

const MARK = '#build=';
const USUAL_WORKERS = 2;

async function loaded(url) {
  const response = await fetch(url);
  if (response.ok) return response;
  // Servers of files answer with a page of HTML, which is nothing to show.
  const isPlain = (response.headers.get('content-type') ?? '').startsWith('text/plain');
  const why = isPlain ? (await response.text()).trim() : '';
  throw new Error(`${why || response.statusText || `status ${response.status}`}: ${url}`);
}

/** Returns the builds that the page's server has, each with its name; none if it is a server of files alone. */
export async function servedBuilds() {
  try {
    return await (await loaded('builds.json')).json();
  } catch {
    return [];
  }
}

/** Returns the name of the build that a fragment is for, or null; one that is not encoded is taken as it is. */
export function buildNamedBy(fragment) {
  if (!fragment.startsWith(MARK)) return null;
  const name = fragment.slice(MARK.length);
  try {
    return decodeURIComponent(name);
  } catch {
    return name;
  }
}

/** Returns the fragment for a build of a name. */
export function fragmentFor(name) {
  return MARK + encodeURIComponent(name);
}

// How many workers a record needs.
function workersIn(record) {
  let most = -1;
  for (const [, worker] of record.matchAll(/^[0-9]+ (?:claim|step|settle|cancel) ([0-9]+)/gm)) {
    most = Math.max(most, Number(worker));
  }
  return most < 0 ? USUAL_WORKERS : most + 1;
}

/**
 * Returns a build: what a session is opened with, the text of its record, why it failed, and a function that loads
 * what ends otherwise in BuildKit. Throws with a cause in words where the server does not have it.
 */
export async function buildOf(machine, name) {
  const at = `build/${encodeURIComponent(name)}`;
  const about = await (await loaded(`${at}/about`)).json();
  const bytes = new Uint8Array(await (await loaded(`${at}/definition`)).arrayBuffer());
  const locals = await Promise.all(about.sources.map(async (source, number) => (
    [source, await (await loaded(`${at}/tree/${number}`)).text()])));
  const record = about.hasRecord ? await (await loaded(`${at}/record`)).text() : '';
  const { definition } = await definitionOf(machine, bytes, about.isText);
  return {
    name, definition, locals, workers: workersIn(record), record, error: about.error,
    notes: async () => (await loaded(`${at}/notes`)).json(),
  };
}
