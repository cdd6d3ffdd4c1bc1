/** What a step did, at a glance: how many files, directories, bytes, modes and owners it added, removed or changed. */

import { linesOf } from './tree_text.mjs';

const KINDS = ['added', 'removed', 'changed'];

/** Returns a number with a word, as `1 file` and `3 files`. */
export function counted(count, word, words = `${word}s`) {
  return `${count.toLocaleString('en')} ${count === 1 ? word : words}`;
}

function sizeOf(entry) {
  return entry?.content ? entry.content.length / 2 : 0;
}

function entriesInWords(changes, kind) {
  const found = changes.filter((change) => change.kind === kind).map(({ before, after }) => (after ?? before).kind);
  const files = found.filter((letter) => letter === 'f').length;
  const directories = found.length - files;
  const words = [
    ...(files ? [counted(files, 'file')] : []),
    ...(directories ? [counted(directories, 'directory', 'directories')] : []),
  ];
  return words.length ? [`${words.join(' and ')} ${kind}`] : [];
}

/** Returns a summary of changes as a list of short texts. */
export function summaryOf(changes) {
  const before = changes.reduce((sum, change) => sum + sizeOf(change.before), 0);
  const after = changes.reduce((sum, change) => sum + sizeOf(change.after), 0);
  const both = changes.filter((change) => change.before && change.after);
  const differ = (field) => both.filter((change) => change.before[field] !== change.after[field]).length;
  const [modes, owners] = [differ('mode'), differ('owner')];
  const bytes = after - before;
  const sign = bytes < 0 ? 'fewer' : 'more';
  return [
    ...KINDS.flatMap((kind) => entriesInWords(changes, kind)),
    bytes === 0 ? 'as many bytes' : `${counted(Math.abs(bytes), 'byte')} ${sign}`,
    ...(modes ? [`${counted(modes, 'mode')} changed`] : []), ...(owners ? [`${counted(owners, 'owner')} changed`] : []),
  ];
}

/** Returns a summary of a whole tree as a list of short texts. */
export function summaryOfTree(text) {
  let [files, directories, bytes] = [0, 0, 0];
  const owners = new Set();
  for (const line of linesOf(text)) {
    const words = line.split(' ', 5);
    owners.add(`${words[2]}:${words[3]}`);
    if (words[0] === 'd') directories += 1;
    else {
      files += 1;
      bytes += words[4] === '-' ? 0 : words[4].length / 2;
    }
  }
  const owner = owners.size === 1 ? `all of ${[...owners][0]}` : counted(owners.size, 'owner');
  return [counted(files, 'file'), counted(directories, 'directory', 'directories'), counted(bytes, 'byte'), owner];
}
