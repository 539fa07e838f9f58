// How far a catalogue has come: a bar on a terminal, and a plain line now and then elsewhere.

import { grouped } from '../inspect/times.mjs';

/** The most and the least signs of a bar. */
const WIDTH = 20;
const LEAST = 4;
/** The least milliseconds from one text to the next. */
const ON_TERMINAL = 100;
const ELSEWHERE = 10_000;
/** What a file costs beside its bytes, in bytes. */
const OF_A_FILE = 100_000;
const UNITS = ['bytes', 'kB', 'MB', 'GB', 'TB'];

/** Bytes in the greatest unit of which there is one. */
export function sizeText(bytes) {
  let at = 0;
  while (bytes >= 999.95 && at + 1 < UNITS.length) [bytes, at] = [bytes / 1000, at + 1];
  return `${at === 0 ? bytes : bytes.toFixed(1)} ${UNITS[at]}`;
}

/** Seconds as a person says them. */
export function timeText(seconds) {
  if (seconds < 100) return `${Math.ceil(seconds)} s`;
  if (seconds < 6000) return `${Math.ceil(seconds / 60)} min`;
  return `${Math.ceil(seconds / 3600)} h`;
}

const weightOf = (files, bytes) => bytes + OF_A_FILE * files;

export class Progress {
  #last;
  #done = { files: 0, bytes: 0, faulty: 0, unread: 0 };

  /**
   * `put` takes a text for standard error, `all` are the files and bytes to come. `columns` is the width of the
   * terminal, 0 where there is none, and `now` gives milliseconds.
   */
  constructor({ put, all, columns = 0, now = () => performance.now() }) {
    Object.assign(this, { put, all, columns, now });
    this.began = now();
    this.#last = columns ? -Infinity : this.began;
  }

  /** A file is done. */
  add({ size, isFaulty, isUnread }) {
    const done = this.#done;
    done.files += 1;
    done.bytes += size;
    done.faulty += Number(isFaulty);
    done.unread += Number(isUnread);
    if (this.now() - this.#last >= (this.columns ? ON_TERMINAL : ELSEWHERE)) this.#show();
  }

  /** Takes the bar away, so that a line can stand in its place. */
  clear() {
    if (this.columns && this.#last > -Infinity) this.put('\r\x1b[K');
  }

  /** The last text, which stays. */
  end() {
    this.#show();
    if (this.columns) this.put('\n');
  }

  #show() {
    this.#last = this.now();
    if (!this.columns) this.put(`${this.text()}\n`);
    else this.put(`\r${this.#line(this.text()).slice(0, this.columns - 1)}\x1b[K`);
  }

  #part() {
    const all = weightOf(this.all.files, this.all.bytes);
    return all === 0 ? 1 : weightOf(this.#done.files, this.#done.bytes) / all;
  }

  // The text, behind a bar as far as there is room for one.
  #line(text) {
    const width = Math.min(WIDTH, this.columns - text.length - '[] '.length - 1);
    if (width < LEAST) return text;
    const full = Math.round(width * this.#part());
    return `[${'#'.repeat(full)}${'-'.repeat(width - full)}] ${text}`;
  }

  text() {
    const { files, bytes, faulty, unread } = this.#done, part = this.#part();
    const seconds = (this.now() - this.began) / 1000;
    const time = part === 1 ? `in ${timeText(seconds)}`
      : part === 0 ? '' : `${timeText(seconds / part - seconds)} left`;
    return [
      `${grouped(files)} of ${grouped(this.all.files)} files`, `${sizeText(bytes)} of ${sizeText(this.all.bytes)}`,
      `${grouped(faulty)} with a fault`, unread && `${grouped(unread)} not read`, time,
    ].filter(Boolean).join(', ');
  }
}
