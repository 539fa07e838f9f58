// So many files at a time, each in a thread. A thread that ends costs the file that it had, and a new one goes on.

import { readFileSync } from 'node:fs';
import { Worker } from 'node:worker_threads';
import { unreadLine } from './line.mjs';

const WORKER = new URL('./worker.mjs', import.meta.url);
const MODULE = new URL('../../mseplay.wasm', import.meta.url);

class Thread {
  #worker = null;

  constructor(make) { this.make = make; }

  // What the thread answers on a file; of a thread that ended a line that says so.
  inspect(name) {
    this.#worker ??= this.make();
    const worker = this.#worker;
    return new Promise((keep) => {
      const ended = (code, text) => {
        // "exit" comes behind "error", when another worker may be there
        if (this.#worker === worker) this.#worker = null;
        void worker.terminate();
        keep({ text: JSON.stringify(unreadLine(name, code, text)), isFaulty: false, isUnread: true });
      };
      worker.removeAllListeners();
      worker.on('message', keep);
      worker.on('error', (error) => ended(error.code ?? error.name, error.message));
      worker.on('exit', (status) => ended('ENDED', `its thread ended with status ${status}`));
      worker.postMessage(name);
    });
  }

  async close() {
    this.#worker?.removeAllListeners();
    await this.#worker?.terminate();
  }
}

/** Inspects files, and calls `heard` with each and its answer, in the order in which they come. */
export async function inspectAll(files, { jobs, isRemuxed, isSeconds, worker = WORKER }, heard) {
  const module = await WebAssembly.compile(readFileSync(MODULE));
  const make = () => new Worker(worker, { workerData: { module, isRemuxed, isSeconds } });
  const threads = Array.from({ length: Math.min(jobs, files.length) }, () => new Thread(make));
  const left = files.values();
  try {
    await Promise.all(threads.map(async (thread) => {
      for (const file of left) heard(file, await thread.inspect(file.name));
    }));
  } finally {
    await Promise.all(threads.map((thread) => thread.close()));
  }
}
