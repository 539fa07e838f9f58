// The tasks of one media element (HTML, 8.1.7): each event is dispatched in a task of its own, in the order in which
// they were queued. Promises that wait for one go on before the next.

// A page's own timers wait for 4 ms, and hidden pages' for a second; a message has no delay.
function laterByMessages() {
  const waiting = [];
  const { port1, port2 } = new MessageChannel();
  port1.onmessage = () => waiting.shift()();
  return (task) => {
    waiting.push(task);
    port2.postMessage(null);
  };
}

// a test may exchange the timers later
export const later = globalThis.setImmediate ?? laterByMessages();

export class Tasks {
  #source;
  #tasks = [];
  #isScheduled = false;
  #waiting = [];

  // Where no task is there and `source.hasWork`, `source.work` queues one.
  constructor(source) {
    this.#source = source;
  }

  // Whether there is a task, or may be work.
  get isScheduled() {
    return this.#isScheduled;
  }

  get isEmpty() {
    return this.#tasks.length === 0;
  }

  // A task is an object with a method `run`.
  queue(task) {
    this.#tasks.push(task);
    this.schedule();
  }

  // Has the next task run, or work be done where there is none.
  schedule() {
    if (this.#isScheduled) return;
    this.#isScheduled = true;
    later(() => this.#run());
  }

  // Takes away the tasks that are so, and gives them.
  remove(isSo) {
    const removed = this.#tasks.filter(isSo);
    this.#tasks = this.#tasks.filter((task) => !isSo(task));
    return removed;
  }

  // A promise that is kept when no task is there and nothing to do.
  settled() {
    return new Promise((keep) => {
      this.#waiting.push(keep);
      this.schedule();
    });
  }

  #run() {
    this.#isScheduled = false;
    if (this.isEmpty && this.#source.hasWork) this.#source.work();
    const task = this.#tasks.shift();
    if (!this.isEmpty || this.#source.hasWork) this.schedule();
    if (task === undefined) this.#waiting.splice(0).forEach((keep) => keep());
    else task.run();
    if (this.#waiting.length > 0) this.schedule();
  }
}
