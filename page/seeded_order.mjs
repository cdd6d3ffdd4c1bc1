/** Numbers at random by a seed, so that an order can be had again. */

/** Returns a function that returns the next number from 0 to n - 1 (mulberry32). */
export function diceOf(seed) {
  let state = seed >>> 0;
  return (n) => {
    state = (state + 0x6d2b79f5) >>> 0;
    let mixed = Math.imul(state ^ (state >>> 15), state | 1);
    mixed ^= mixed + Math.imul(mixed ^ (mixed >>> 7), mixed | 61);
    return ((mixed ^ (mixed >>> 14)) >>> 0) % n;
  };
}

/** Returns a list in an order at random. */
export function shuffled(list, dice) {
  const found = [...list];
  for (let last = found.length - 1; last > 0; last -= 1) {
    const other = dice(last + 1);
    [found[last], found[other]] = [found[other], found[last]];
  }
  return found;
}
