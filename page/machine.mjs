/**
 * The machine: the module of WebAssembly, and handles on it. Bytes and numbers go in, bytes come out.
 *
 * Each handle has an instance of its own, so that its memory goes with it. After a trap nothing is known of the
 * memory of its instance, and no call of that handle is made again.
 */

const PREFIX = 'llb_';
const LINE = `${PREFIX}line`;
const PROOF = 'llbm.proof';
const HANDLE_BYTES = 16;
// A place in the module's memory for a short line and its answer: most are short, and there are 200,000 in a long move.
const SHORT_BYTES = 256;
const MOST_ASCII = 127;

/** The module stopped: its stack or its memory has ended. The answer of the call is not known. */
export class Trap extends Error {
  constructor(cause) {
    super('the machine stopped in the middle of a call: its stack or its memory has ended, or it has no proof and a '
      + `check failed (${cause.message})`);
    this.name = 'Trap';
  }
}

/** The statuses of calls. */
export const STATUS = { done: 0, ended: 1, refused: 2, failed: 3, noSession: 4 };

/** A module that is compiled. */
export class Machine {
  constructor(module) {
    this.module = module;
  }

  /** Returns the machine of a response of `fetch`, or of bytes. */
  static async from(source) {
    const given = await source;
    const streams = typeof Response !== 'undefined' && given instanceof Response;
    if (!streams) return new Machine(await WebAssembly.compile(given));
    if (!given.ok) throw new Error(`${given.url}: ${given.status} ${given.statusText}`);
    const type = given.headers.get('content-type') ?? '';
    if (type.startsWith('application/wasm')) return new Machine(await WebAssembly.compileStreaming(given));
    return new Machine(await WebAssembly.compile(await given.arrayBuffer()));
  }

  /** Returns `proved` or `not proved`, as the module says of its code; empty if it says nothing. */
  proof() {
    const [found] = WebAssembly.Module.customSections(this.module, PROOF);
    return found ? decoder.decode(found) : '';
  }

  /** Returns a new handle, which holds nothing. */
  handle() {
    return new Handle(new WebAssembly.Instance(this.module, {}).exports);
  }
}

const encoder = new TextEncoder();
const decoder = new TextDecoder();

// Writes a short text of ASCII into bytes, and returns whether it is one.
function putAscii(text, bytes) {
  if (text.length > bytes.length) return false;
  for (let i = 0; i < text.length; i += 1) {
    const code = text.charCodeAt(i);
    if (code > MOST_ASCII) return false;
    bytes[i] = code;
  }
  return true;
}

// Returns the text of short bytes.
function shortText(bytes) {
  for (let i = 0; i < bytes.length; i += 1) if (bytes[i] > MOST_ASCII) return decoder.decode(bytes);
  return String.fromCharCode.apply(null, bytes);
}

/** Returns bytes as they are, and the UTF-8 of a string. */
export function bytesOf(given) {
  return typeof given === 'string' ? encoder.encode(given) : given;
}

/** What a caller of the library holds: local trees, a session, and what the last call wrote. */
export class Handle {
  constructor(exports) {
    this.exports = exports;
    this.trapped = null;
    this.at = this.guarded(() => exports.page_alloc(BigInt(HANDLE_BYTES)));
    this.view(this.at, HANDLE_BYTES).fill(0);
    this.short = this.guarded(() => this.placeOf(SHORT_BYTES));
    this.shortView = this.view(this.short, SHORT_BYTES);
  }

  // A view is made anew for each use, since a call can move the memory when it grows.
  view(at, length) {
    return new Uint8Array(this.exports.memory.buffer, Number(at), Number(length));
  }

  guarded(call) {
    if (this.trapped) throw this.trapped;
    try {
      return call();
    } catch (cause) {
      if (!(cause instanceof WebAssembly.RuntimeError) && !(cause instanceof RangeError)) throw cause;
      this.trapped = new Trap(cause);
      throw this.trapped;
    }
  }

  placeOf(length) {
    const at = this.exports.page_alloc(BigInt(length || 1));
    if (!at) throw new RangeError('no memory is left for an argument or an answer');
    return at;
  }

  place(bytes) {
    const at = this.placeOf(bytes.length);
    this.view(at, bytes.length).set(bytes);
    return at;
  }

  // The bytes of the place for short lines and answers.
  shortBytes() {
    if (this.shortView.buffer !== this.exports.memory.buffer) this.shortView = this.view(this.short, SHORT_BYTES);
    return this.shortView;
  }

  call(name, parts, ...more) {
    return this.guarded(() => {
      const given = parts.map(bytesOf);
      const places = given.map((bytes) => this.place(bytes));
      const words = places.flatMap((at, i) => [at, BigInt(given[i].length)]);
      const status = this.exports[PREFIX + name](this.at, ...words, ...more);
      places.forEach((at) => this.exports.page_free(at));
      return status;
    });
  }

  // Calls `take` with the bytes that a call wrote, which are only there until the next call.
  written(name, takeShort, takeLong) {
    return this.guarded(() => {
      const call = this.exports[PREFIX + name];
      const length = Number(call(this.at, this.short, BigInt(SHORT_BYTES)));
      if (length <= SHORT_BYTES) return takeShort(this.shortBytes().subarray(0, length));
      const at = this.placeOf(length);
      call(this.at, at, BigInt(length));
      const taken = takeLong(this.view(at, length));
      this.exports.page_free(at);
      return taken;
    });
  }

  /** Adds the tree of a local source by its text, and returns the status. */
  local(name, text) {
    return this.call('local', [name, text]);
  }

  /** Opens a session with the local trees that were added, and returns the status. */
  open(definition, workers) {
    return this.call('open', [definition], workers);
  }

  /** Sends a line to the session, and returns the status. */
  line(line) {
    return this.guarded(() => {
      if (!putAscii(line, this.shortBytes())) return this.call('line', [line]);
      return this.exports[LINE](this.at, this.short, BigInt(line.length));
    });
  }

  /** Writes the graph of a definition, and returns the status. */
  show(definition) {
    return this.call('show', [definition]);
  }

  /** Writes a line for each fault of a definition, and returns the status: 2 where there is any. */
  findings(definition) {
    return this.call('findings', [definition]);
  }

  /** Writes for each vertex of a definition whether what it reads goes by value, and returns the status. */
  plan(definition) {
    return this.call('plan', [definition]);
  }

  /** Writes the ops of a definition's entries, in the words of `dis`, and returns the status. */
  ops(definition) {
    return this.call('ops', [definition]);
  }

  /** Writes for each vertex of a definition which vertex of an older definition it matches, and returns the status. */
  matches(old, definition) {
    return this.call('matches', [old, definition]);
  }

  /** Writes the line of the fault of a text as a script, and returns the status: 2 where there is one. */
  script(text) {
    return this.call('script', [text]);
  }

  /** Assembles a text to a definition, and returns the status. */
  asm(text) {
    return this.call('asm', [text]);
  }

  /** Writes the text of a definition, and returns the status. */
  dis(definition) {
    return this.call('dis', [definition]);
  }

  /** Runs a definition with the local trees that were added, and returns the status: 1 where a vertex failed. */
  run(definition) {
    return this.call('run', [definition]);
  }

  /** Returns the bytes that the last call wrote. */
  output() {
    return this.written('output', (bytes) => bytes.slice(), (bytes) => bytes.slice());
  }

  /** Returns the text that the last call wrote. */
  text() {
    return this.written('output', shortText, (bytes) => decoder.decode(bytes));
  }

  /** Returns the messages of the last call, such as the line of a fault. */
  messages() {
    return this.written('messages', shortText, (bytes) => decoder.decode(bytes));
  }

  /** Returns how many bytes of memory the instance has. */
  memory() {
    return this.exports.memory.buffer.byteLength;
  }
}
