/** The lines of a record: events, each with its reply. */

const LINE = /^([0-9]+) ((claim) ([0-9]+) ([0-9]+)|(step|settle|cancel) ([0-9]+)) -> (.*)$/;

/** Returns the event of a line: its number, kind, worker, command and reply; null for any other line. */
export function eventOf(line) {
  const found = LINE.exec(line);
  if (!found) return null;
  const [, number, command, claim, claimer, vertex, kind, worker, reply] = found;
  return {
    line, number: Number(number), command, reply, kind: claim ?? kind, worker: Number(claimer ?? worker),
    vertex: vertex === undefined ? null : Number(vertex),
  };
}

/** Returns the events of a record's text, each step with the vertex that its worker claimed last. */
export function eventsOfRecord(text) {
  const held = new Map();
  return text.split('\n').map(eventOf).filter(Boolean).map((event) => {
    if (event.kind === 'claim') held.set(event.worker, event.vertex);
    return { ...event, vertex: event.vertex ?? held.get(event.worker) ?? null };
  });
}

/** Returns whether an event is a settle of a vertex that failed. */
export function isFailure(event) {
  return event.kind === 'settle' && event.reply.endsWith(' failed');
}

/** Returns whether a micro-step ended badly: an action's fault, or a command's status other than 0. */
export function isFault(event) {
  if (event.kind !== 'step') return false;
  return event.reply.startsWith('fault ') || (/^ran [0-9]+ /.test(event.reply) && !event.reply.endsWith(' 0'));
}

function lineOf(entry, number) {
  const line = entry?.actions[Number(number)]?.line;
  return line ? ` (${line})` : '';
}

function stepWords(reply, entry) {
  const [word, number, status] = reply.split(' ');
  if (word === 'read') return 'reads the local source';
  if (word === 'merged') return `lays input ${number} over the tree so far`;
  if (word === 'acted') return `action ${number}: ${entry?.actions[Number(number)]?.line ?? 'done'}`;
  if (word === 'fault') return `action ${number}${lineOf(entry, number)} fails: fault ${status}`;
  const command = entry?.commands?.[Number(number)];
  const named = `command ${number}${command ? `: ${command}` : ''}`;
  if (word === 'skipped') return `${named}, skipped`;
  return word === 'ran' ? `${named}, status ${status}` : reply;
}

function doneInWords({ kind, worker, vertex, reply }, entry) {
  const who = `worker ${worker}, vertex ${vertex}`;
  if (kind === 'claim') return `worker ${worker} takes vertex ${vertex}`;
  if (kind === 'settle') return `${who}: ${reply.endsWith(' failed') ? 'failed' : 'done'}`;
  if (kind === 'cancel') return `worker ${worker} gives vertex ${vertex} up`;
  return `${who}: ${stepWords(reply, entry)}`;
}

/** Returns an event in words, with the line of the Dockerfile. `entry` is what the definition says of its vertex. */
export function wordsOf(event, entry = null) {
  const place = entry?.place ? ` (${entry.place})` : '';
  return `event ${event.number}: ${doneInWords(event, entry)}${place}`;
}

/** Returns the place after the step by which the vertex of a settle failed, given that after the settle, or null. */
export function failedPlace(place) {
  const { event } = place;
  for (let one = place.before; one?.event; one = one.before) {
    if (one.event.worker === event.worker) {
      if (one.event.kind === 'claim') return null;
      if (isFault(one.event)) return one;
    }
  }
  return null;
}

/** Returns the step by which the vertex of a settle failed, given the place after the settle; null if there is none. */
export function failedStep(place) {
  return failedPlace(place)?.event ?? null;
}

/** Returns the line of the fault with which an action failed, as `fault 21`; empty for any other event. */
export function faultOf(event) {
  const found = /^fault [0-9]+ ([0-9]+)$/.exec(event.kind === 'step' ? event.reply : '');
  return found ? `fault ${found[1]}` : '';
}

/** Returns the graph of `show`: vertices with their kind, steps, outputs and inputs, and the result. */
export function graphOf(lines) {
  const vertices = [];
  let result = '';
  for (const line of lines) {
    const found = /^[0-9]+ ([a-z]+) steps ([0-9]+) outputs ([0-9]+) inputs (.*)$/.exec(line);
    if (found) {
      const [, kind, steps, outputs, inputs] = found;
      const edges = inputs === '-' ? [] : inputs.split(' ').map((edge) => {
        const [vertex, output] = edge.split('.').map(Number);
        return { vertex, output };
      });
      vertices.push({ number: vertices.length, kind, steps: Number(steps), outputs: Number(outputs), inputs: edges });
    } else if (line.startsWith('result ')) result = line.slice('result '.length);
  }
  return { vertices, result };
}
