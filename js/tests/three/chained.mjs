// A player in the style of appends that are chained by `updateend`: two source buffers, each with a queue of its own,
// eviction of what was played, recovery from a full buffer, and a controller of gaps that polls.

import { listen } from './media.mjs';

const POLL = 50;
// seconds that are kept behind the position, and how far ahead it appends
const BACK = 2;
const AHEAD = 3.5;
const LEAST_AHEAD = 1;
// a gap of at most so many seconds is passed over
const LONGEST_GAP = 1.5;

class Track {
  constructor(player, buffer, { name, init, segments }) {
    this.player = player;
    this.buffer = buffer;
    this.name = name;
    this.segments = [...segments];
    this.pending = init === undefined ? [] : [{ bytes: init }];
    this.ahead = AHEAD;
    this.removedUpTo = 0;
    buffer.addEventListener('updateend', () => this.next());
    buffer.addEventListener('error', () => player.fail(`${name}: error of the buffer`));
  }

  get isDone() {
    return this.segments.length === 0 && this.pending.length === 0 && !this.buffer.updating;
  }

  // the end of what is buffered from the position on
  get bufferedUpTo() {
    const { buffered } = this.buffer;
    return buffered.length === 0 ? 0 : buffered.end(buffered.length - 1);
  }

  // Does the next thing that is to do: it is called whenever something may have ended.
  next() {
    const { player, buffer } = this;
    if (buffer.updating || player.isOver) return;
    if (this.pending.length > 0) this.append();
    else if (this.evict()) return;
    else if (this.segments.length > 0 && this.bufferedUpTo - player.video.currentTime < this.ahead) {
      this.pending.push(this.segments.shift());
      this.append();
    } else {
      player.end();
    }
  }

  append() {
    const [{ bytes, offset, index }] = this.pending;
    try {
      if (offset !== undefined && this.buffer.timestampOffset !== offset) this.buffer.timestampOffset = offset;
      this.player.beforeAppend(this.name, index, this.buffer);
      this.buffer.appendBuffer(bytes);
    } catch (error) {
      if (error.name !== 'QuotaExceededError') throw error;
      this.makeRoom();
      return;
    }
    this.pending.shift();
    if (index !== undefined) this.player.log.push(`${this.name} append ${index}`);
  }

  // Less is appended ahead from now on, and what was played goes; the append is tried again behind it, or when polled.
  makeRoom() {
    this.player.log.push(`${this.name} is full`);
    this.ahead = Math.max(LEAST_AHEAD, this.ahead / 2);
  }

  // Removes whole seconds that were played while more is to come, and tells whether it did.
  evict() {
    const end = Math.floor(this.player.video.currentTime) - BACK;
    if (end <= this.removedUpTo || this.segments.length === 0) return false;
    this.removedUpTo = end;
    this.player.log.push(`${this.name} remove up to ${end}`);
    this.buffer.remove(0, end);
    return true;
  }
}

export class ChainedPlayer {
  // `beforeAppend` is called before each append, for a test that disturbs it.
  constructor(video, tracks, beforeAppend = () => {}) {
    this.video = video;
    this.log = [];
    this.beforeAppend = beforeAppend;
    this.isOver = false;
    this.failure = null;
    this.jumps = [];
    this.source = new MediaSource();
    listen(this.log, 'element', video, ['loadstart', 'loadedmetadata', 'play', 'seeking', 'seeked', 'pause', 'ended',
      'error']);
    listen(this.log, 'source', this.source, ['sourceopen', 'sourceended', 'sourceclose']);
    this.source.addEventListener('sourceopen', () => this.open(tracks), { once: true });
    const url = URL.createObjectURL(this.source);
    video.src = url;
    this.url = url;
    this.timer = setInterval(() => this.poll(), POLL);
  }

  open(tracks) {
    URL.revokeObjectURL(this.url);
    // all buffers are there before the first append: a browser takes none behind the metadata
    this.tracks = tracks.map((track) => new Track(this, this.source.addSourceBuffer(track.type), track));
    this.tracks.forEach((track) => track.next());
  }

  fail(words) {
    this.failure ??= words;
    this.isOver = true;
  }

  // Ends the stream when each track has all.
  end() {
    if (this.source.readyState !== 'open' || !this.tracks.every((track) => track.isDone)) return;
    this.source.endOfStream();
  }

  poll() {
    if (this.tracks === undefined || this.isOver) return;
    this.tracks.forEach((track) => track.next());
    this.passGap();
    if (this.video.ended) this.isOver = true;
  }

  // Seeks over a gap in which playback waits.
  passGap() {
    const { video } = this;
    if (video.paused || video.seeking || video.ended || video.readyState >= video.HAVE_FUTURE_DATA) return;
    const { buffered, currentTime } = video;
    for (let i = 0; i < buffered.length; i += 1) {
      const gap = buffered.start(i) - currentTime;
      if (gap > 0 && gap < LONGEST_GAP) {
        this.jumps.push([currentTime, buffered.start(i)].map((time) => Math.round(time * 10)));
        video.currentTime = buffered.start(i);
        return;
      }
    }
  }

  destroy() {
    clearInterval(this.timer);
    this.isOver = true;
    this.video.pause();
    this.video.removeAttribute('src');
    this.video.load();
  }
}
