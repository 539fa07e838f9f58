// What was played: ranges of ticks, in order and apart.

export class Played {
  #ranges = [];

  get ranges() {
    return this.#ranges;
  }

  add(start, end) {
    const apart = this.#ranges.filter((range) => range.end < start || end < range.start);
    const joined = this.#ranges.filter((range) => !apart.includes(range));
    const least = (a, b) => (a < b ? a : b);
    const greatest = (a, b) => (a > b ? a : b);
    const range = {
      start: joined.map((each) => each.start).reduce(least, start),
      end: joined.map((each) => each.end).reduce(greatest, end),
    };
    this.#ranges = [...apart, range].sort((a, b) => (a.start < b.start ? -1 : 1));
  }
}
