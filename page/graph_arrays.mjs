/** A graph as arrays of numbers, which a worker sends at little cost: an object for each vertex would be dear. */

// So many vertices are made before the next turn.
const MOST = 1000;

/** Returns a graph as arrays. */
export function packed({ vertices, result }) {
  const kinds = [...new Set(vertices.map(({ kind }) => kind))];
  const place = new Map(kinds.map((kind, i) => [kind, i]));
  const of = (number) => Uint32Array.from(vertices, number);
  return {
    result, kinds, kind: of((one) => place.get(one.kind)), counts: of((one) => one.inputs.length),
    steps: of((one) => one.steps), outputs: of((one) => one.outputs),
    edges: Uint32Array.from(vertices.flatMap(({ inputs }) => inputs.flatMap((edge) => [edge.vertex, edge.output]))),
  };
}

/** Returns the graph of arrays, when the generator ends. */
export function* unpacking({ result, kinds, kind, steps, outputs, counts, edges }) {
  const vertices = [];
  let at = 0;
  for (let number = 0; number < kind.length; number += 1) {
    const inputs = [];
    const end = at + 2 * counts[number];
    for (; at < end; at += 2) inputs.push({ vertex: edges[at], output: edges[at + 1] });
    vertices.push({ number, kind: kinds[kind[number]], steps: steps[number], outputs: outputs[number], inputs });
    if (number % MOST === 0) yield;
  }
  return { vertices, result };
}
