// A player that loses things: its network in the middle of a segment, its decoder, and its source. It comes back each
// time, goes on where it was, and is destroyed in the end.

import { listen } from './media.mjs';

const RETRY = 40;
const POLL = 40;

export class LossyPlayer {
  // `fetchPart` gives the bytes of a part, or throws. `part 0` is the initialization segment, and others last a second.
  constructor(video, type, count, fetchPart) {
    this.video = video;
    this.type = type;
    this.count = count;
    this.fetchPart = fetchPart;
    this.log = [];
    this.lives = 0;
    this.isDestroyed = false;
    this.wantsToPlay = true;
    listen(this.log, 'element', video, ['loadstart', 'emptied', 'abort', 'loadedmetadata', 'seeking', 'seeked', 'ended',
      'error']);
    video.addEventListener('error', () => this.recover());
    this.timer = setInterval(() => this.poll(), POLL);
    this.begin(0);
  }

  // A new source, that plays from a time on.
  begin(time) {
    this.lives += 1;
    const life = { number: this.lives, source: new MediaSource(), buffer: null, next: 0, tries: 0 };
    this.life = life;
    this.startTime = time;
    listen(this.log, `source ${life.number}`, life.source, ['sourceopen', 'sourceended', 'sourceclose']);
    life.source.addEventListener('sourceopen', () => {
      URL.revokeObjectURL(life.url);
      // the end of a stream opens a source again where it goes on
      if (life.buffer === null) this.fill(life);
    });
    life.url = URL.createObjectURL(life.source);
    this.video.src = life.url;
  }

  isOver(life) {
    return this.isDestroyed || life !== this.life;
  }

  // Fetches and appends all parts, one after the other.
  async fill(life) {
    life.buffer = life.source.addSourceBuffer(this.type);
    listen(this.log, `buffer ${life.number}`, life.buffer, ['error', 'abort']);
    while (life.next < this.count && !this.isOver(life)) {
      const bytes = await this.fetchAgain(life);
      if (this.isOver(life)) return;
      if (!await this.append(life, bytes)) return;
      life.next += 1;
    }
    if (!this.isOver(life) && life.source.readyState === 'open') life.source.endOfStream();
  }

  // A part, asked for until it comes.
  async fetchAgain(life) {
    for (;;) {
      try {
        return await this.fetchPart(life.next, life.number);
      } catch (error) {
        this.log.push(`part ${life.next}: ${error.message}`);
        life.tries += 1;
        // half a segment may have come: the parser forgets it
        if (life.source.readyState === 'open' && !life.buffer.updating) life.buffer.abort();
        await new Promise((keep) => { setTimeout(keep, RETRY); });
        if (this.isOver(life)) return null;
      }
    }
  }

  // Appends bytes, and tells whether they were taken.
  async append(life, bytes) {
    const { buffer } = life;
    const updated = new Promise((keep) => { buffer.addEventListener('updateend', keep, { once: true }); });
    try {
      buffer.appendBuffer(bytes);
    } catch (error) {
      this.log.push(`part ${life.next} was refused: ${error.name}`);
      return false;
    }
    await updated;
    if (life.next === 1) this.start();
    return !this.isOver(life);
  }

  // The first pictures are there.
  start() {
    if (this.startTime > 0) this.video.currentTime = this.startTime;
    if (this.wantsToPlay) this.video.play().catch((error) => this.log.push(`play: ${error.name}`));
  }

  // An error of the element: a new source from where it was.
  recover() {
    if (this.isDestroyed) return;
    this.log.push(`recovers from ${this.video.error.code}`);
    this.begin(Math.floor(this.video.currentTime));
  }

  // Somebody else took the element's source away.
  poll() {
    const { life, video } = this;
    if (this.isDestroyed || video.error !== null || life.buffer === null) return;
    if (life.source.readyState === 'closed') {
      this.log.push('lost its source');
      this.begin(0);
    }
    if (video.ended) this.wantsToPlay = false;
  }

  destroy() {
    clearInterval(this.timer);
    this.isDestroyed = true;
    this.video.pause();
    this.video.removeAttribute('src');
    this.video.load();
  }
}
