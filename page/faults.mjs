/** What is known of a line `fault ..`: the cause and what to do, from docs/FAULTS.md of the repository. */

import { tables } from './tables.mjs';

const NUMBERS = new Set(['k', 'i', 'N', 'V', 'C', 'P']);

function filled(sentence, given) {
  return sentence.replace(/\{([A-Za-z]+)\}/g, (place, name) => given[name] ?? place);
}

// Takes the words of a row's arguments, and returns them by name, with what is known of names and faults among them.
function argumentsOf(row, number, words) {
  const given = {};
  const inside = [];
  for (const argument of row.arguments) {
    if (argument === 'FAULT') inside.push(...sentencesOf(words));
    else if (NUMBERS.has(argument)) given[argument] = words.shift() ?? '';
    else if (argument === 'FEATURE' || argument === 'RULE') {
      given[argument] = words.shift() ?? '';
      const known = tables.faults.names[number]?.[given[argument]];
      if (known) inside.push(...rowSentences(known, number, words));
    } else given[argument] = words.splice(0).join(' ');
  }
  return { given, inside };
}

function rowSentences(row, number, words) {
  const { given, inside } = argumentsOf(row, number, words);
  const cause = filled(row.cause, given);
  return inside.length ? [cause, ...inside] : [cause, filled(row.advice, given)];
}

function sentencesOf(words) {
  const number = words.shift();
  const row = tables.faults.causes[number];
  return row ? rowSentences(row, number, words) : [];
}

/** Returns what is known of a line such as `fault 81 1`, without backquotes; empty where nothing is. */
export function explained(line) {
  const found = /^fault ([0-9].*)$/.exec(line.trim());
  const known = found ? sentencesOf(found[1].split(' ')) : [];
  const words = known.map((sentence) => sentence[0].toUpperCase() + sentence.slice(1)).join(' ');
  return words.replaceAll('`', '');
}
