// The page that elements stand in, as far as a test steers it: whether it is seen (HTML, 6.2).

class Page extends EventTarget {
  #isHidden = false;

  get hidden() {
    return this.#isHidden;
  }

  set hidden(isHidden) {
    if (isHidden === this.#isHidden) return;
    this.#isHidden = isHidden;
    this.dispatchEvent(new Event('visibilitychange'));
  }

  get visibilityState() {
    return this.#isHidden ? 'hidden' : 'visible';
  }
}

export const page = new Page();
