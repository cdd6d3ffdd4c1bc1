/** The worker's side of calls. `calls.mjs` is the side of whoever calls. */

/** Answers a call with what `answered` returns, or with its fault. `answered` can say parts before that. */
export async function answer({ id, call, args }, answered) {
  try {
    postMessage({ id, value: await answered(call, args, (part) => postMessage({ id, part })) });
  } catch ({ name, message, what }) {
    postMessage({ id, fault: { name, message, what } });
  }
}
