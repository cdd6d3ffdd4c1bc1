/**
 * Reading an archive of tar (ustar, with the long names and numbers of pax and of GNU tar) as a tree.
 *
 * The last entry of a path holds. What can't be in a tree, such as a symbolic link, is left out and named.
 */

import { faultOf, namesOf } from './names.mjs';
import { textOfEntries } from './tree_text.mjs';

const BLOCK = 512;
const KINDS = { 2: 'a symbolic link', 3: 'a device', 4: 'a device', 6: 'a pipe' };
const decoder = new TextDecoder();

function textAt(bytes, at, length) {
  const part = bytes.subarray(at, at + length);
  const end = part.indexOf(0);
  return decoder.decode(end < 0 ? part : part.subarray(0, end));
}

// A number is in octal digits, or in base 256 where the first bit of its field is set.
function numberAt(bytes, at, length) {
  if (bytes[at] & 0x80) {
    let number = bytes[at] & 0x3f;
    for (let i = 1; i < length; i += 1) number = number * 256 + bytes[at + i];
    return number;
  }
  const digits = textAt(bytes, at, length).trim();
  if (digits !== '' && !/^[0-7]+$/.test(digits)) throw new Error(`not an archive of tar: the number ${digits}`);
  return digits === '' ? 0 : parseInt(digits, 8);
}

function isZero(bytes, at) {
  for (let i = at; i < at + BLOCK; i += 1) if (bytes[i]) return false;
  return true;
}

function checkSum(bytes, at) {
  let sum = 8 * 32;
  for (let i = 0; i < BLOCK; i += 1) if (i < 148 || i >= 156) sum += bytes[at + i];
  if (numberAt(bytes, at + 148, 8) !== sum) throw new Error(`not an archive of tar: a wrong sum at byte ${at}`);
}

// The records of a pax header: `LENGTH KEY=VALUE` and a line end each.
function recordsOf(bytes) {
  const found = {};
  for (let at = 0; at < bytes.length;) {
    const space = bytes.indexOf(32, at);
    const length = parseInt(decoder.decode(bytes.subarray(at, space)), 10);
    if (space < 0 || !(length > 0)) throw new Error('not an archive of tar: a header of pax');
    const record = decoder.decode(bytes.subarray(space + 1, at + length - 1));
    const mark = record.indexOf('=');
    found[record.slice(0, mark)] = record.slice(mark + 1);
    at += length;
  }
  return found;
}

function headerAt(bytes, at) {
  checkSum(bytes, at);
  const isUstar = textAt(bytes, at + 257, 5) === 'ustar';
  const before = isUstar && bytes[at + 263] !== 32 ? textAt(bytes, at + 345, 155) : '';
  const name = textAt(bytes, at, 100);
  return {
    path: before ? `${before}/${name}` : name, mode: numberAt(bytes, at + 100, 8),
    user: numberAt(bytes, at + 108, 8), group: numberAt(bytes, at + 116, 8), size: numberAt(bytes, at + 124, 12),
    kind: String.fromCharCode(bytes[at + 156] || 48), target: textAt(bytes, at + 157, 100),
  };
}

function* membersOf(bytes) {
  /** @type {Record<string, string>} */
  let shared = {};
  /** @type {Record<string, string>} */
  let own = {};
  for (let at = 0; at + BLOCK <= bytes.length && !isZero(bytes, at);) {
    const header = headerAt(bytes, at);
    if (own.size) header.size = Number(own.size);
    const data = bytes.subarray(at + BLOCK, at + BLOCK + header.size);
    if (data.length < header.size) throw new Error('the archive ends in the middle of an entry');
    at += BLOCK + Math.ceil(header.size / BLOCK) * BLOCK;
    if (header.kind === 'g') shared = { ...shared, ...recordsOf(data) };
    else if (header.kind === 'x') own = { ...own, ...recordsOf(data) };
    else if (header.kind === 'L') own = { ...own, path: textAt(data, 0, data.length) };
    else if (header.kind === 'K') own = { ...own, linkpath: textAt(data, 0, data.length) };
    else {
      const held = { ...shared, ...own };
      own = {};
      yield {
        ...header, data, path: held.path ?? header.path, target: held.linkpath ?? header.target,
        user: Number(held.uid ?? header.user), group: Number(held.gid ?? header.group),
      };
    }
  }
}

/** Returns whether bytes begin as an archive of tar does. */
export function isTar(bytes) {
  if (bytes.length < BLOCK) return false;
  try {
    checkSum(bytes, 0);
    return true;
  } catch {
    return false;
  }
}

function entryOf(member, path, entries) {
  const entry = { path, mode: member.mode, user: member.user, group: member.group };
  if (member.kind === '5') return entry;
  if (member.kind === '0' || member.kind === '7') return path === '' ? null : { ...entry, bytes: member.data };
  const linked = member.kind === '1' ? entries.get(namesOf(member.target).join('/')) : null;
  return linked?.bytes ? { ...linked, path } : null;
}

/** Returns the tree text of an archive, and a line for each entry that is left out. */
export function textOfTar(bytes) {
  const entries = new Map();
  const leftOut = new Map();
  for (const member of membersOf(bytes)) {
    const names = namesOf(member.path);
    const path = names.join('/');
    const fault = faultOf(names) ?? KINDS[member.kind];
    const entry = fault ? null : entryOf(member, path, entries);
    entries.delete(path);
    leftOut.delete(path);
    if (entry) entries.set(path, entry);
    else leftOut.set(path, `/${path}: ${fault ?? 'an entry of another kind'}`);
  }
  const isBelow = (path) => [...leftOut.keys()].some((above) => path.startsWith(`${above}/`));
  const kept = leftOut.size ? [...entries.values()].filter(({ path }) => !isBelow(path)) : [...entries.values()];
  return { text: textOfEntries(kept), leftOut: [...leftOut.values()] };
}
