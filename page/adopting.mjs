/**
 * Changes a foreign definition into one that the machine takes, as `llbm-tools adopt --all` does: sources that are
 * images and the like become local ones; secrets, agents, unpacking and owners by name are dropped; words that are
 * refused run `true`. A change of an entry changes all entries that depend on it, since inputs name entries by their
 * digests: the machine assembles what is changed, and says its digests.
 */

import { digestsOf } from './digests.mjs';
import { canBeGiven, isKnown, LOCAL, LocalNames } from './local_names.mjs';
import { renameEntries, textIn } from './metadata.mjs';
import { textOfOp } from './op_text.mjs';
import { bytesIn, joined, recordsIn } from './records.mjs';
import { inputsFirst } from './refused_rows.mjs';
import { assembled } from './session.mjs';

const NOTHING = ['true'];
const DROPPED_MOUNTS = new Map([[1, 'secret'], [2, 'SSH']]);
const LINKED = 'its inputs have new digests';
// The rules that words break which are refused.
const RULES_OF_WORDS = new Set(['Script', 'NoArgs']);
const MOST_CHARACTERS = 60;

function quoted(word) {
  if (word === '') return "''";
  return /^[A-Za-z0-9_@%+=:,./-]+$/.test(word) ? word : `'${word.replaceAll("'", "'\"'\"'")}'`;
}

function wordsShown(words) {
  const letters = [...words.map(quoted).join(' ')];
  return letters.length > MOST_CHARACTERS ? `${letters.slice(0, MOST_CHARACTERS - 3).join('')}...` : letters.join('');
}

const droppedAs = ({ mountType }) => DROPPED_MOUNTS.get(mountType);

// Each of the following returns a changed part of an op, and adds what it changes to a list of words.

function changedExec(exec, isRefused, words) {
  words.push(...exec.mounts.filter(droppedAs).map((mount) => `dropped: ${droppedAs(mount)} mount at ${mount.dest}`));
  if (exec.secretenv.length) {
    const names = exec.secretenv.map((secret) => textIn(secret, 2) || textIn(secret, 1));
    words.push(`dropped: secret environment ${names.join(', ')}`);
  }
  const changed = { ...exec, mounts: exec.mounts.filter((mount) => !droppedAs(mount)), secretenv: [] };
  if (!exec.meta || !isRefused) return changed;
  words.push(`runs ${wordsShown(NOTHING)} in place of ${wordsShown(exec.meta.args)}`);
  return { ...changed, meta: { ...exec.meta, args: NOTHING } };
}

function changedOwner(owner, number, words) {
  const kept = (who) => {
    const name = owner[who]?.byName ?? null;
    if (name === null) return owner[who];
    words.push(`dropped: ${who} ${textIn(name, 1)} of action ${number}`);
    return null;
  };
  return { ...owner, user: kept('user'), group: kept('group') };
}

function changedAction(action, number, words) {
  const body = action[action.kind];
  if (!body) return action;
  if (body.attemptUnpackDockerCompatibility) words.push(`dropped: unpacking by action ${number}`);
  const owner = body.owner ? changedOwner(body.owner, number, words) : null;
  return { ...action, [action.kind]: { ...body, attemptUnpackDockerCompatibility: false, owner } };
}

function changedOp(op, name, isRefused, words) {
  const { source, exec, file } = op;
  if (source && name !== undefined) {
    words.push(`source ${source.identifier} is ${LOCAL}${name}`);
    return { ...op, source: { ...source, identifier: LOCAL + name } };
  }
  if (exec) return { ...op, exec: changedExec(exec, isRefused, words) };
  if (!file) return op;
  const actions = file.actions.map((action, number) => changedAction(action, number, words));
  return { ...op, file: { ...file, actions } };
}

// Chooses names for the sources that are reached, in the order of rows, and lists all that are local then.
function namesOfSources(rows, reached) {
  const found = [...rows.ops].filter(([row, op]) => reached.has(row) && op.source).sort(([a], [b]) => a - b);
  const given = new LocalNames(found.map(([, op]) => op.source.identifier));
  const [names, renamed, sources] = [new Map(), new Map(), []];
  for (const [row, { source: { identifier } }] of found) {
    let name = identifier.startsWith(LOCAL) ? identifier.slice(LOCAL.length) : null;
    if (isKnown(identifier)) names.set(row, name = given.newName(identifier));
    else if (name && !canBeGiven(name)) {
      name = renamed.get(identifier) ?? given.newName(identifier);
      renamed.set(identifier, name);
      names.set(row, name);
    }
    if (name !== null) sources.push({ name, identifier });
  }
  return { names, sources };
}

// Returns the rows that lead to the result and are ops, each after the rows that it names.
function reachedOps(rows, reached) {
  const ops = [...rows.ops.keys()].filter((row) => reached.has(row));
  const among = new Set(ops);
  return inputsFirst(ops, (row) => rows.linksOf(row).filter((one) => among.has(one)));
}

// Returns a definition with other entries in the place of some. `places` has the place of each text by the old digest.
function replaced(machine, definition, { entries }, texts, places) {
  const fresh = [...recordsIn(assembled(machine, texts.join('')))];
  const digests = digestsOf(machine.handle(), fresh.map(bytesIn));
  let row = -1;
  const left = [...recordsIn(definition)].map((record) => {
    row += record.field === 1 ? 1 : 0;
    return record.field === 1 ? fresh[places.get(entries[row].digest)] ?? record : record;
  });
  const data = joined(left.map(({ text }) => text));
  renameEntries(data, new Map([...places].map(([old, place]) => [old, digests[place]])));
  return data;
}

/**
 * Returns a definition that is adopted as far as possible, its changes by row, and the local sources that it has then
 * with what they were before.
 */
export function adopted(machine, definition, rows, findings) {
  const refused = new Set(findings.filter(({ name }) => RULES_OF_WORDS.has(name)).map(({ row }) => row));
  const reached = rows.reached();
  const { names, sources } = namesOfSources(rows, reached);
  const [texts, places, changes] = [[], new Map(), []];
  for (const row of reachedOps(rows, reached)) {
    const words = [];
    const op = changedOp(rows.ops.get(row), names.get(row), refused.has(row), words);
    if (op.inputs.some(({ digest }) => places.has(digest))) words.push(LINKED);
    if (words.length) {
      texts.push(textOfOp(op, places));
      places.set(rows.entries[row].digest, places.size);
      changes.push(...words.map((one) => ({ row, words: one })));
    }
  }
  changes.sort((a, b) => a.row - b.row);
  const data = texts.length ? replaced(machine, definition, rows, texts, places) : definition;
  return { data, changes, sources };
}
