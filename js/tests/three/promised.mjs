// A player by promises: each change of a source buffer is awaited. It changes the type at a switch of codec, and puts
// an ad in between by timestamp offsets and append windows.

import { listen } from './media.mjs';

// A promise that is kept with an event, and broken with another.
function once(target, type, broken) {
  return new Promise((keep, refuse) => {
    const settle = (event) => {
      for (const each of [type, broken]) target.removeEventListener(each, settle);
      if (event.type === type) keep();
      else refuse(new Error(`${event.type} came, and not ${type}`));
    };
    for (const each of [type, broken]) if (each) target.addEventListener(each, settle);
  });
}

class Buffer {
  // what was asked for is done one after the other
  #last = Promise.resolve();

  constructor(buffer, name, log) {
    this.buffer = buffer;
    this.name = name;
    this.log = log;
    listen(log, name, buffer, ['updatestart', 'update', 'updateend', 'error', 'abort']);
  }

  #queue(words, work) {
    const done = this.#last.then(async () => {
      this.log.push(`${this.name} ${words}`);
      await work();
    });
    this.#last = done.catch(() => {});
    return done;
  }

  append(words, bytes) {
    return this.#queue(words, async () => {
      this.buffer.appendBuffer(bytes);
      await once(this.buffer, 'updateend', 'error');
    });
  }

  remove(start, end) {
    return this.#queue(`remove ${start} ${end}`, async () => {
      this.buffer.remove(start, end);
      await once(this.buffer, 'updateend', 'error');
    });
  }

  // Where what follows is placed, and what of it is kept.
  place(offset, start, end) {
    return this.#queue(`place ${offset} from ${start} to ${end}`, () => {
      // the window is widened before it moves, so that its start is below its end all the time
      this.buffer.appendWindowEnd = Infinity;
      this.buffer.appendWindowStart = start;
      this.buffer.appendWindowEnd = end;
      this.buffer.timestampOffset = offset;
    });
  }

  changeType(type) {
    return this.#queue(`change to ${type}`, () => this.buffer.changeType(type));
  }
}

export class PromisedPlayer {
  constructor(video) {
    this.video = video;
    this.log = [];
    listen(this.log, 'element', video, ['loadstart', 'loadedmetadata', 'play', 'seeking', 'seeked', 'pause', 'ended',
      'error', 'abort', 'emptied']);
  }

  async open() {
    this.source = new MediaSource();
    listen(this.log, 'source', this.source, ['sourceopen', 'sourceended', 'sourceclose']);
    listen(this.log, 'list', this.source.sourceBuffers, ['addsourcebuffer', 'removesourcebuffer']);
    listen(this.log, 'active', this.source.activeSourceBuffers, ['addsourcebuffer', 'removesourcebuffer']);
    const opened = once(this.source, 'sourceopen');
    this.video.src = URL.createObjectURL(this.source);
    await opened;
    URL.revokeObjectURL(this.video.src);
  }

  add(name, type) {
    return new Buffer(this.source.addSourceBuffer(type), name, this.log);
  }

  // The main pictures, cut for an ad, which is of another profile, and the main pictures behind it. The ad has its own
  // start, which is moved away; the window keeps just what belongs there.
  async loadPictures(buffer, main, ad) {
    const [cut, length] = [2, 1];
    await buffer.append('main init', main.init);
    await buffer.place(0, 0, cut);
    for (const [i, segment] of main.segments.entries()) await buffer.append(`main ${i}`, segment);
    await buffer.changeType(ad.type);
    await buffer.append('ad init', ad.init);
    await buffer.place(cut - ad.start, cut, cut + length);
    for (const [i, segment] of ad.segments.entries()) await buffer.append(`ad ${i}`, segment);
    await buffer.changeType(main.type);
    await buffer.append('main init', main.init);
    await buffer.place(length, cut + length, Infinity);
    for (const [i, segment] of main.segments.entries()) await buffer.append(`main ${i}`, segment);
  }

  // Sound that changes from one container and codec to others.
  async loadSound(buffer, first, second) {
    await buffer.append('first', first.bytes);
    await buffer.changeType(second.type);
    await buffer.place(first.length, 0, Infinity);
    for (let i = 0; i < second.count; i += 1) await buffer.append(`second ${i}`, second.bytes);
  }

  async play() {
    await this.video.play();
    await once(this.video, 'ended', 'error');
  }

  async seek(time) {
    const sought = once(this.video, 'seeked');
    this.video.currentTime = time;
    await sought;
  }

  end() {
    this.source.endOfStream();
  }

  async destroy() {
    const closed = once(this.source, 'sourceclose');
    this.video.removeAttribute('src');
    this.video.load();
    await closed;
  }
}
