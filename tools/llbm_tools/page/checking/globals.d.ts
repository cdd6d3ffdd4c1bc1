/** What browsers have and the library of TypeScript 4.8 does not know yet, and what the tests of the page set. */

interface Array<T> {
  findLast(predicate: (value: T, index: number, all: T[]) => unknown): T | undefined;
}

interface CompressionStream extends GenericTransformStream {}
declare const CompressionStream: { new (format: string): CompressionStream };
interface DecompressionStream extends GenericTransformStream {}
declare const DecompressionStream: { new (format: string): DecompressionStream };

/** A list for the lines of a session and their answers, if a test wants them. */
declare var llbmTranscript: [string, string][] | undefined;
declare var llbmLooks: (() => unknown) | undefined;
declare var llbmSession: (() => unknown) | undefined;
declare var llbmSlices: number[] | undefined;
