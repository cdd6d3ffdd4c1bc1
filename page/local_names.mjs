/** Short names of local sources, made from the identifiers of other sources. */

import { tables } from './tables.mjs';

export const LOCAL = 'local://';
const MOST_CHARACTERS = 32;
const NO_NAME = 'source';

/** Returns whether an identifier is of an image, a git repository, a file from HTTP or an OCI layout. */
export function isKnown(identifier) {
  const mark = identifier.indexOf('://');
  return mark >= 0 && tables.schemes.all.includes(identifier.slice(0, mark));
}

/** Returns whether a word NAME=FILE can give the local source of a name its tree. */
export function canBeGiven(name) {
  return !name.includes('=') && !name.startsWith('-');
}

/** Returns the last part of an identifier without tag, digest, fragment and query: at most 32 plain characters. */
export function shortName(identifier) {
  const mark = identifier.indexOf('://');
  const scheme = mark < 0 ? identifier : identifier.slice(0, mark);
  const isImage = tables.schemes.images.includes(scheme);
  let rest = (mark < 0 ? '' : identifier.slice(mark + 3)).split(/[#?]/)[0];
  if (isImage) [rest] = rest.split('@');
  let last = rest.replace(/\/+$/, '').split('/').at(-1);
  if (isImage) [last] = last.split(':');
  if (scheme === 'git') last = last.replace(/\.git$/, '');
  const plain = last.replace(/[^A-Za-z0-9._-]+/gu, '-').slice(0, MOST_CHARACTERS);
  return plain.replace(/^[-.]+|[-.]+$/g, '') || NO_NAME;
}

/** The names that are taken: by the local sources of a definition, and by this class. */
export class LocalNames {
  constructor(identifiers) {
    const local = identifiers.filter((identifier) => identifier.startsWith(LOCAL));
    this.taken = new Set(local.map((identifier) => identifier.slice(LOCAL.length)));
  }

  /** Returns a new name for an identifier, with `-2` and so on if it is taken. */
  newName(identifier) {
    const short = shortName(identifier);
    let name = short;
    for (let count = 2; this.taken.has(name); count += 1) name = `${short}-${count}`;
    this.taken.add(name);
    return name;
  }
}
