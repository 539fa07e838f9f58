// How the time of a clock becomes time of the media: by the playback rate, and at most as often as `timeupdate` comes.
// Where a rhythm is set, the engine is told of time that has passed when somebody looks, when the rhythm has its beat,
// or when the end of what is buffered is reached.

// seconds that a sum of doubles may be off
const NEARLY = 1e-9;

export class Playhead {
  #advance;
  #tell;
  #reach;
  #rhythm = Infinity;
  #hasRhythm = false;
  // seconds of the clock since the last beat, and seconds of the media that the engine was not told of
  #sinceBeat = 0;
  #owed = 0;
  #hasMoved = false;

  // `advance` lets the media go on by so many seconds, with its `timeupdate` or without; `tell` fires a `timeupdate`;
  // `reach` gives the seconds of the media up to where something happens by itself.
  constructor({ advance, tell, reach }) {
    this.#advance = advance;
    this.#tell = tell;
    this.#reach = reach;
  }

  // The seconds of the clock between two `timeupdate`; Infinity where each advance of the clock has one.
  get rhythm() {
    return this.#rhythm;
  }

  set rhythm(seconds) {
    this.settle();
    this.#rhythm = seconds;
    this.#hasRhythm = seconds !== Infinity;
    this.#sinceBeat = 0;
  }

  // Lets so many seconds of the clock pass, at a rate.
  pass(seconds, rate) {
    if (!this.#hasRhythm) {
      this.#advance(seconds * rate, true);
      return;
    }
    for (let left = seconds; left > 0;) {
      const step = Math.min(left, this.#rhythm - this.#sinceBeat);
      left -= step;
      this.#sinceBeat += step;
      this.#owed += step * rate;
      if (this.#rhythm - this.#sinceBeat < NEARLY) this.#beat();
      else if (this.#owed + NEARLY >= this.#reach()) this.settle();
    }
  }

  // Tells the engine of the time that has passed, without a `timeupdate` of its own.
  settle() {
    if (this.#owed === 0) return;
    const owed = this.#owed;
    this.#owed = 0;
    this.#hasMoved = true;
    this.#advance(owed, false);
  }

  #beat() {
    const [owed, hasMoved] = [this.#owed, this.#hasMoved];
    [this.#sinceBeat, this.#owed, this.#hasMoved] = [0, 0, false];
    if (owed > 0) this.#advance(owed, true);
    else if (hasMoved) this.#tell();
  }
}
