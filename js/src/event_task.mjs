// A task that fires an event, and settles promises behind it.

// why promises of play() are broken, by the event that tells it
const REASONS = {
  error: ['there is no media source to play', 'NotSupportedError'],
  pause: ['the element was paused', 'AbortError'],
};

export class EventTask {
  #target;
  #before;
  #promises;
  #type;

  // `before` is called in the task, before the event is fired.
  constructor(target, type, { before = () => {}, promises = [] } = {}) {
    this.#target = target;
    this.#type = type;
    this.#before = before;
    this.#promises = promises;
  }

  // Whether it is of the media element event task source of an element (HTML, 4.8.11.1).
  isOf(element) {
    return this.#target === element;
  }

  run() {
    this.#before();
    this.#target.dispatchEvent(new Event(this.#type));
    this.#settle();
  }

  // What is left of it where the event is not fired.
  discard() {
    this.#before();
    this.#settle();
  }

  // The promises are kept where playback began, and broken otherwise.
  #settle() {
    const [words, name] = REASONS[this.#type] ?? [];
    for (const { keep, refuse } of this.#promises.splice(0)) {
      if (this.#type === 'playing') keep();
      else refuse(new DOMException(words, name));
    }
  }
}
