/**
 * The tables that the page shares with the repository's tools, as `dev/dev wasm` writes them into tables.json: the
 * faults of docs/FAULTS.md, the fields of the messages of a definition, the schemes of sources that `llbm-tools adopt`
 * changes, and the fields that have an effect in BuildKit and none here.
 */

/** The tables by name; each is empty until it is loaded. */
export const tables = {
  faults: { causes: {}, names: {} }, messages: {}, schemes: { all: [], images: [] },
  notes: { fields: [], metadata: [], attributes: [], attributes_without_effect: [] },
};

/** Puts tables in the place of the empty ones. */
export function fill(given) {
  Object.assign(tables, given);
}

/** Loads the tables. Throws where they are not there, since the page is not complete then. */
export async function loadTables(url) {
  const response = await fetch(url);
  if (!response.ok) throw new Error(`${url}: ${response.status} ${response.statusText}`);
  fill(await response.json());
}
