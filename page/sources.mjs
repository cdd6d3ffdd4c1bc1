/** Local sources: the tree text of what a person gives, which is an archive of tar, a tree's text, or a folder. */

import { faultOf, namesOf } from './names.mjs';
import { isTar, textOfTar } from './tar.mjs';
import { isTreeText, textOfEntries } from './tree_text.mjs';

const FILE_MODE = 0o644;

async function unpacked(bytes) {
  if (bytes[0] !== 0x1f || bytes[1] !== 0x8b) return bytes;
  const stream = new Blob([bytes]).stream().pipeThrough(new DecompressionStream('gzip'));
  return new Uint8Array(await new Response(stream).arrayBuffer());
}

/** Returns the tree text of a file's bytes (a tar, also packed by gzip, or a tree's text), and what was left out. */
export async function treeOfBytes(given) {
  const bytes = await unpacked(given);
  if (isTar(bytes)) return textOfTar(bytes);
  const text = new TextDecoder('utf-8', { fatal: true }).decode(bytes);
  if (!isTreeText(text)) throw new Error("neither an archive of tar nor the text of a tree");
  return { text, leftOut: [] };
}

/**
 * Returns the tree text of the files of a folder that a browser handed over. It says nothing of modes and owners, and
 * nothing of folders that are empty: files are 0644, folders 0755, and all are of 0:0.
 */
export async function treeOfFiles(files) {
  const entries = [];
  const leftOut = [];
  for (const file of files) {
    const names = namesOf(file.webkitRelativePath || file.name).slice(file.webkitRelativePath ? 1 : 0);
    const path = names.join('/');
    const fault = faultOf(names);
    if (fault) leftOut.push(`/${path}: ${fault}`);
    else entries.push({ path, mode: FILE_MODE, user: 0, group: 0, bytes: new Uint8Array(await file.arrayBuffer()) });
  }
  return { text: textOfEntries(entries), leftOut };
}
