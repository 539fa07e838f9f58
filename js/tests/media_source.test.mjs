// What a player's tests look like: `node --test js/tests/`.

import assert from 'node:assert/strict';
import { once } from 'node:events';
import test from 'node:test';
import {
  attach, Clock, HTMLVideoElement, MediaError, MediaSource, NotThereError, settled, SourceBuffer, SourceBufferList,
  TimeRanges,
} from '../src/index.mjs';
import { append, example, open, PICTURES, PLAIN } from './kit.mjs';
import { ADTS, hear, OF_BUFFER, OF_ELEMENT, pass, Player, rangesOf, VIDEO } from './players.mjs';

test('a player plays from sourceopen to ended', async () => {
  const clock = new Clock();
  const video = new HTMLVideoElement({ clock });
  const heard = [];
  hear(heard, video, OF_ELEMENT.filter((type) => type !== 'timeupdate' && type !== 'durationchange'));
  const player = new Player(video, 20, PLAIN);
  hear(heard, player.source, ['sourceopen', 'sourceended']);
  await settled(video);
  assert.equal(player.source.readyState, 'ended');
  assert.equal(player.source.duration, 2);
  assert.deepEqual(rangesOf(video.buffered), [[0, 2]]);

  await Promise.all([video.play(), settled(video)]);
  assert.equal(video.currentTime, 0);
  await pass(clock, video, 1);
  assert.equal(video.currentTime, 1);
  await pass(clock, video, 5);
  assert.equal(video.currentTime, 2);
  assert.ok(video.ended && video.paused);
  assert.deepEqual(heard, ['sourceopen', 'loadedmetadata', 'loadeddata', 'canplay', 'sourceended', 'canplaythrough',
    'play', 'playing', 'pause', 'ended']);
});

test('an append fires updatestart, update and updateend, each in a task of its own', async () => {
  const { source } = await open();
  const buffer = source.addSourceBuffer(VIDEO);
  const heard = [];
  for (const type of OF_BUFFER) {
    buffer.addEventListener(type, () => {
      heard.push(`${type} ${buffer.updating}`);
      queueMicrotask(() => heard.push(`behind ${type}`));
    });
  }
  buffer.appendBuffer(PLAIN);
  heard.push('called');
  await once(buffer, 'updateend');
  assert.deepEqual(heard, ['called', 'updatestart true', 'behind updatestart', 'update false', 'behind update',
    'updateend false', 'behind updateend']);
});

test('calls that come while an append runs are refused by name', async () => {
  const { source } = await open();
  const buffer = source.addSourceBuffer(VIDEO);
  buffer.appendBuffer(PLAIN);
  assert.equal(buffer.updating, true);
  for (const call of [
    () => buffer.appendBuffer(PLAIN),
    () => buffer.remove(0, 1),
    () => buffer.changeType('audio/aac'),
    () => source.endOfStream(),
    () => { buffer.timestampOffset = 1; },
    () => { buffer.appendWindowEnd = 1; },
    () => { source.duration = 1; },
  ]) {
    assert.throws(call, (error) => error instanceof DOMException && error.name === 'InvalidStateError');
  }
  assert.throws(() => source.addSourceBuffer('video/webm; codecs="vp9"'), {
    name: 'NotSupportedError', message: /webm.* is not there/,
  });
  assert.throws(() => source.addSourceBuffer(''), TypeError);
  assert.throws(() => { buffer.timestampOffset = NaN; }, TypeError);
  assert.throws(() => source.removeSourceBuffer(new HTMLVideoElement()), TypeError);
  assert.equal(buffer.timestampOffset, 0);
});

test('a seek waits for data and ends with the append that brings them', async () => {
  const groups = example('groups.mp4');
  const { video, source } = await open();
  const buffer = source.addSourceBuffer(VIDEO);
  source.duration = 0.6;
  await append(buffer, groups.subarray(0, 827));
  const heard = [];
  hear(heard, video, OF_ELEMENT);
  hear(heard, buffer, OF_BUFFER);
  video.currentTime = 0.45;
  assert.deepEqual([video.seeking, video.readyState, video.currentTime], [true, video.HAVE_METADATA, 0.45]);
  await settled(video);
  assert.deepEqual(heard.splice(0), ['seeking']);

  await append(buffer, groups.subarray(1023, 1219));
  await settled(video);
  assert.equal(video.seeking, false);
  assert.deepEqual(heard, ['updatestart', 'canplay', 'canplaythrough', 'update', 'updateend', 'timeupdate', 'seeked']);
  assert.deepEqual(rangesOf(buffer.buffered), [[0, 0.2], [0.4, 0.6]]);
});

test('a player seeks in its handler, between two events', async () => {
  const { video, source } = await open();
  const buffer = source.addSourceBuffer(VIDEO);
  const heard = [];
  hear(heard, video, OF_ELEMENT);
  hear(heard, buffer, OF_BUFFER);
  source.duration = 5;
  video.addEventListener('loadeddata', () => {
    assert.equal(buffer.updating, true);
    video.currentTime = 0.05;
    assert.equal(video.currentTime, 0.05);
  }, { once: true });
  await append(buffer, PLAIN);
  await settled(video);
  // no frame at 0.05 is there yet when the player seeks, and the next one is
  assert.deepEqual(heard, ['durationchange', 'updatestart', 'loadedmetadata', 'loadeddata', 'canplay', 'seeking',
    'canplay', 'update', 'updateend', 'timeupdate', 'seeked']);
});

test('where the quota is met, the player removes what was played and appends again', async () => {
  const clock = new Clock();
  const video = new HTMLVideoElement({ clock, quota: 12 });
  const player = new Player(video, 3, PLAIN);
  await settled(video);
  assert.equal(player.next, 1, 'the first segment fills the buffer');
  assert.throws(() => player.buffer.appendBuffer(PICTURES.segment), { name: 'QuotaExceededError', code: 22 });
  const heard = [];
  hear(heard, video, ['waiting', 'playing', 'ended']);
  video.play();
  await settled(video);
  await pass(clock, video, 1, 0.05);
  assert.deepEqual(rangesOf(video.buffered), [[0.2, 0.3]]);
  assert.deepEqual(heard, ['playing', 'waiting', 'playing', 'waiting', 'playing', 'ended']);
});

test('a change of type goes on with sound of another container', async () => {
  const { video, source } = await open();
  const buffer = source.addSourceBuffer('audio/mp4; codecs="mp4a.40.2"');
  await append(buffer, example('audio.mp4'));
  const first = rangesOf(buffer.buffered);
  buffer.changeType('audio/aac');
  assert.equal(buffer.mode, 'sequence');
  assert.throws(() => { buffer.mode = 'segments'; }, TypeError);
  buffer.timestampOffset = 4;
  await append(buffer, ADTS);
  assert.deepEqual(rangesOf(buffer.buffered).slice(0, 1), first);
  assert.equal(buffer.buffered.length, 2);
  assert.equal(buffer.buffered.start(1), 4);
  assert.throws(() => buffer.changeType('video/mp2t'), { name: 'NotSupportedError' });
  assert.equal(video.error, null);
});

test('at a gap playback waits, and the player seeks over it', async () => {
  const clock = new Clock();
  const { video, source } = await open({ clock });
  await append(source.addSourceBuffer('video/mp4'), example('gap.mp4'));
  const [[, gapStart], [gapEnd]] = rangesOf(video.buffered);
  video.addEventListener('waiting', () => {
    assert.equal(video.readyState, video.HAVE_CURRENT_DATA);
    for (let i = 0; i < video.buffered.length; i += 1) {
      if (video.buffered.start(i) > video.currentTime) {
        video.currentTime = video.buffered.start(i);
        return;
      }
    }
  });
  await Promise.all([video.play(), settled(video)]);
  const heard = [];
  hear(heard, video, OF_ELEMENT);
  clock.advance(0.1);
  await settled(video);
  assert.deepEqual(heard.splice(0), ['timeupdate']);
  clock.advance(0.1);
  await once(video, 'waiting');
  assert.equal(gapStart, 0.128);
  await settled(video);
  assert.equal(video.currentTime, gapEnd);
  assert.deepEqual(heard, ['timeupdate', 'timeupdate', 'waiting', 'seeking', 'canplay', 'playing', 'timeupdate',
    'seeked']);
});

test('two buffers are fed side by side, each by its own handler', async () => {
  const { video, source } = await open();
  const buffers = [source.addSourceBuffer(VIDEO), source.addSourceBuffer(VIDEO)];
  assert.deepEqual([...source.sourceBuffers], buffers);
  assert.equal(source.sourceBuffers[1], buffers[1]);
  assert.equal(source.sourceBuffers[2], undefined);
  assert.equal(source.activeSourceBuffers.length, 0);
  const feed = async (buffer, count) => {
    await append(buffer, PICTURES.init);
    for (let i = 0; i < count; i += 1) {
      buffer.timestampOffset = i * PICTURES.seconds;
      await append(buffer, PICTURES.segment);
    }
  };
  await Promise.all([feed(buffers[0], 6), feed(buffers[1], 4)]);
  assert.deepEqual([...source.activeSourceBuffers], buffers);
  assert.deepEqual(buffers.map((buffer) => buffer.buffered.end(0)), [0.6, 0.4]);
  assert.deepEqual(rangesOf(video.buffered), [[0, 0.4]]);

  const removed = once(source.sourceBuffers, 'removesourcebuffer');
  source.removeSourceBuffer(buffers[1]);
  assert.equal(source.sourceBuffers.length, 1);
  assert.throws(() => buffers[1].buffered, { name: 'InvalidStateError' });
  assert.throws(() => source.removeSourceBuffer(buffers[1]), { name: 'NotFoundError' });
  assert.equal(buffers[1].updating, false);
  await removed;
  assert.deepEqual(rangesOf(video.buffered), [[0, 0.6]]);
});

test('an abort ends the append and sets the append window back', async () => {
  const { source } = await open();
  const buffer = source.addSourceBuffer(VIDEO);
  buffer.appendWindowStart = 0.02;
  buffer.appendWindowEnd = 1;
  assert.throws(() => { buffer.appendWindowStart = 1; }, TypeError);
  const heard = [];
  hear(heard, buffer, OF_BUFFER);
  buffer.onupdatestart = () => {
    buffer.onupdatestart = null;
    buffer.abort();
    assert.equal(buffer.updating, false);
    assert.deepEqual([buffer.appendWindowStart, buffer.appendWindowEnd], [0, Infinity]);
    buffer.appendBuffer(PLAIN);
  };
  buffer.appendBuffer(PLAIN);
  await once(buffer, 'update');
  assert.deepEqual(heard, ['updatestart', 'abort', 'updateend', 'updatestart', 'update']);
  assert.deepEqual(rangesOf(buffer.buffered), [[0, 0.1]]);
});

test('bytes that break the format end the source with an error', async () => {
  const { video, source } = await open();
  const buffer = source.addSourceBuffer(VIDEO);
  const heard = [];
  hear(heard, buffer, OF_BUFFER);
  await append(buffer, PICTURES.init);
  heard.length = 0;
  buffer.appendBuffer(example('no-tfdt.mp4').subarray(595));
  await once(video, 'error');
  assert.deepEqual(heard, ['updatestart', 'error', 'updateend']);
  assert.equal(video.error.code, video.error.MEDIA_ERR_DECODE);
  assert.equal(video.error, video.error);
  assert.equal(source.readyState, 'ended');
  assert.throws(() => buffer.appendBuffer(PLAIN), { name: 'InvalidStateError' });
});

test('the promise of play is kept with playing and broken by pause', async () => {
  const { video, source } = await open();
  const broken = video.play();
  video.pause();
  await assert.rejects(broken, { name: 'AbortError' });
  video.play();
  video.pause();
  await settled(video);

  const kept = video.play();
  await append(source.addSourceBuffer(VIDEO), PLAIN);
  await kept;
  assert.equal(video.paused, false);
});

test('time passes only by the clock, and only while the element plays', async () => {
  const clock = new Clock();
  const { video, source } = await open({ clock });
  await append(source.addSourceBuffer(VIDEO), PLAIN);
  clock.advance(10);
  await new Promise((keep) => { setTimeout(keep, 5); });
  assert.deepEqual([clock.now(), video.currentTime], [10, 0]);
  video.play();
  clock.advance(1 / 30);
  assert.equal(video.currentTime, 1 / 30);
  assert.throws(() => clock.advance(-1), RangeError);
});

test('ranges and attributes are those of the standard', async () => {
  const { video, source } = await open();
  const buffer = source.addSourceBuffer(VIDEO);
  assert.throws(() => video.buffered.start(0), { name: 'IndexSizeError' });
  assert.ok(Number.isNaN(source.duration) && Number.isNaN(video.duration));
  await append(buffer, new Uint8Array(0));
  await append(buffer, new Uint8Array(PLAIN).buffer);
  assert.equal(source.duration, Infinity);
  assert.deepEqual(rangesOf(video.seekable), [[0, 0.1]]);
  assert.throws(() => video.buffered.end(1), { name: 'IndexSizeError' });
  assert.throws(() => { buffer.updating = true; }, TypeError);
  assert.throws(() => { source.readyState = 'closed'; }, TypeError);
  assert.throws(() => buffer.appendBuffer('text'), TypeError);
  buffer.mode = 'no such mode';
  assert.equal(buffer.mode, 'segments');
  source.setLiveSeekableRange(1, 9);
  assert.deepEqual(rangesOf(video.seekable), [[0, 9]]);
  source.clearLiveSeekableRange();
  assert.throws(() => source.endOfStream('lost'), TypeError);
  source.endOfStream('network');
  assert.equal(video.error.code, 2);
  assert.ok(MediaSource.isTypeSupported(VIDEO));
  assert.ok(!MediaSource.isTypeSupported('video/webm') && !MediaSource.isTypeSupported(''));
  assert.throws(() => new MediaSource().endOfStream(), { name: 'InvalidStateError' });
});

test('what is not there says so', async () => {
  const { video, source } = await open();
  const buffer = source.addSourceBuffer('audio/aac');
  const say = (name) => (error) => error instanceof NotThereError && error.message.startsWith(name);
  assert.throws(() => buffer.audioTracks, say('SourceBuffer.audioTracks is not there: tracks'));
  assert.throws(() => source.handle, say('MediaSource.handle is not there: workers'));
  assert.throws(() => video.videoWidth, say('HTMLVideoElement.videoWidth is not there: nothing is decoded'));
  assert.throws(() => { video.videoWidth = 2; }, say('HTMLVideoElement.videoWidth is not there'));
  assert.throws(() => { buffer.appendWindowEnd = 1e300; }, say('a time of 1e+300 seconds is not there'));
});

test('a source is open as soon as an element has it', () => {
  const source = new MediaSource();
  new HTMLVideoElement().src = source;
  assert.equal(source.readyState, 'open');
});

test('what cannot be attached is an error of the element', async () => {
  const { video, source } = await open();
  await append(source.addSourceBuffer(VIDEO), PLAIN);
  for (const fail of [
    (other) => { other.srcObject = source; },
    (other) => { other.src = 'blob:nothing'; },
    (other) => { other.src = ''; },
  ]) {
    const other = new HTMLVideoElement();
    const heard = [];
    hear(heard, other, ['loadstart', 'error', 'emptied', 'abort', 'play', 'waiting']);
    fail(other);
    const promise = other.play();
    await assert.rejects(promise, { name: 'NotSupportedError' });
    assert.deepEqual([other.error.code, other.networkState], [other.error.MEDIA_ERR_SRC_NOT_SUPPORTED, 3]);
    assert.deepEqual(heard, ['play', 'waiting', 'loadstart', 'error']);
    await assert.rejects(other.play(), { name: 'NotSupportedError' });
    attach(other, new MediaSource());
    assert.equal(other.error, null);
  }
  assert.throws(() => { video.srcObject = {}; }, TypeError);
  assert.deepEqual([source.readyState, rangesOf(video.buffered)], ['open', [[0, 0.1]]]);
});

test('classes of which a page makes no objects are not constructed', () => {
  for (const ofPage of [SourceBuffer, SourceBufferList, TimeRanges, MediaError]) {
    assert.throws(() => new ofPage(), { name: 'TypeError', message: `${ofPage.name} cannot be constructed` });
  }
});

test('what an append changes of a buffer is read as it is', async () => {
  const { source } = await open();
  const buffer = source.addSourceBuffer('audio/aac');
  assert.deepEqual([buffer.mode, buffer.timestampOffset], ['sequence', 0]);
  await append(buffer, ADTS);
  // two frames of 1024 samples at 48000 a second
  assert.equal(buffer.timestampOffset, 2048 / 48000);
  assert.deepEqual(rangesOf(buffer.buffered), [[0, 2048 / 48000]]);
  buffer.timestampOffset = 7;
  source.removeSourceBuffer(buffer);
  assert.deepEqual([buffer.mode, buffer.timestampOffset, buffer.appendWindowEnd], ['sequence', 7, Infinity]);
  assert.throws(() => { buffer.timestampOffset = 8; }, { name: 'InvalidStateError' });
});

test('buffered is the same object until it changes', async () => {
  const { video, source } = await open();
  const buffer = source.addSourceBuffer(VIDEO);
  const empty = buffer.buffered;
  await append(buffer, PICTURES.init);
  assert.equal(buffer.buffered, empty);
  const ofVideo = video.buffered;
  await append(buffer, PICTURES.segment);
  assert.notEqual(buffer.buffered, empty);
  assert.notEqual(video.buffered, ofVideo);
  assert.equal(empty.length, 0);
  assert.equal(buffer.buffered, buffer.buffered);
  assert.equal(video.buffered, video.buffered);
});

test('what a page does with its bytes behind an append changes nothing', async () => {
  const { source } = await open();
  const buffer = source.addSourceBuffer(VIDEO);
  const bytes = Uint8Array.from(PLAIN);
  buffer.appendBuffer(bytes);
  bytes.fill(0);
  await once(buffer, 'updateend');
  assert.deepEqual(rangesOf(buffer.buffered), [[0, 0.1]]);
});
