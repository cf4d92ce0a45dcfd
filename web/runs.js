// Runs of the program beside the page, in a worker, which is cut off where its answer is no longer wanted.
"use strict";

class Runs {
  constructor(code, module) {
    this.code = code; // of the worker
    this.module = module; // in base64
    this.start();
  }

  /** Starts a worker, and cuts off the one before with all that it was to answer. */
  start() {
    this.worker?.terminate();
    for (const { fail } of this.waiting?.values() ?? []) fail(new Error("cut off"));
    this.waiting = new Map();
    this.number = 0;
    const address = URL.createObjectURL(new Blob([this.code], { type: "text/javascript" }));
    const worker = new Worker(address);
    this.worker = worker;
    this.isReady = new Promise((resolve, reject) => {
      worker.onmessage = ({ data }) => {
        if (data.ready !== undefined) return data.ready ? resolve() : reject(new Error(data.fault));
        this.take(data);
      };
      worker.onerror = (event) => reject(new Error(event.message));
    });
    // Who waits for a run learns of it; here nobody does.
    this.isReady.catch(() => {}).finally(() => URL.revokeObjectURL(address));
    worker.postMessage({ bytes: Uint8Array.from(atob(this.module), (letter) => letter.charCodeAt(0)) });
  }

  take(data) {
    const one = this.waiting.get(data.id);
    this.waiting.delete(data.id);
    if (data.fault !== undefined) one?.fail(new Error(data.fault));
    else one?.tell(data);
  }

  isBusy() {
    return this.waiting.size > 0;
  }

  /** The status of a run of these words over the texts `design`, `program`, `arrivals` and `trace`, and what it wrote. */
  async run(words, texts, most) {
    const { worker } = this;
    await this.isReady;
    if (worker !== this.worker) throw new Error("cut off");
    const id = ++this.number;
    return new Promise((tell, fail) => {
      this.waiting.set(id, { tell, fail });
      worker.postMessage({ id, words, texts, most });
    });
  }
}
