/** Calls to a worker, each with an answer: the side of whoever calls. `answering.mjs` is the worker's. */

/** A worker that is called. */
export class Calls {
  constructor(worker) {
    this.worker = worker;
    this.waiting = new Map();
    this.count = 0;
    worker.addEventListener('message', ({ data }) => this.take(data));
    worker.addEventListener('error', (event) => this.fail(new Error(event.message || 'the worker ended')));
  }

  // A part comes before the answer, as often as the worker says one.
  take({ id, value, fault, part }) {
    const waits = this.waiting.get(id);
    if (!waits) return;
    if (part !== undefined) {
      waits.onPart(part);
      return;
    }
    this.waiting.delete(id);
    if (fault) waits.failed(Object.assign(new Error(fault.message), fault));
    else waits.done(value);
  }

  fail(fault) {
    for (const { failed } of this.waiting.values()) failed(fault);
    this.waiting.clear();
  }

  /** Returns a promise of the answer to a call. */
  call(call, ...args) {
    return this.inParts(() => {}, call, ...args);
  }

  /** Returns a promise of the answer to a call. `onPart` is called with each part that comes before it. */
  inParts(onPart, call, ...args) {
    this.count += 1;
    const id = this.count;
    return new Promise((done, failed) => {
      this.waiting.set(id, { done, failed, onPart });
      this.worker.postMessage({ id, call, args });
    });
  }

  /** Ends the worker. What was asked gets no answer, or a fault if one is given. */
  end(fault = null) {
    this.worker.terminate();
    if (fault) this.fail(fault);
    else this.waiting.clear();
  }
}
