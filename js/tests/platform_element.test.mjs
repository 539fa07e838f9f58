// What the standards promise of Media Source Extensions, test by test, as the tests of the web platform look at it:
// duration, end of stream, and the element that a source is attached to. platform.test.mjs has the buffers.

import assert from 'node:assert/strict';
import { once } from 'node:events';
import test from 'node:test';
import { Clock, HTMLVideoElement, MediaSource, settled, SourceBufferList } from '../src/index.mjs';
import { append, open, PICTURES, PLAIN } from './kit.mjs';
import { ADTS, hear, OF_ELEMENT, pass, rangesOf, VIDEO } from './players.mjs';

const STATE = { name: 'InvalidStateError' };
const TYPE = { name: 'TypeError' };

// an open source with a buffer that has the media of plain.mp4, and its element
async function filled(options) {
  const { video, source } = await open(options);
  const buffer = source.addSourceBuffer(VIDEO);
  await append(buffer, PLAIN);
  await settled(video);
  return { video, source, buffer };
}

async function heardOf(target, types, work) {
  const heard = [];
  hear(heard, target, types);
  await work();
  return heard;
}

test('duration is set on an open source that does not update, and is not negative', async () => {
  const closed = new MediaSource();
  assert.throws(() => { closed.duration = 1; }, STATE);
  const { source, buffer } = await filled();
  for (const wrong of [-1, NaN, -Infinity, 'none', undefined]) {
    assert.throws(() => { source.duration = wrong; }, TYPE, String(wrong));
  }
  buffer.appendBuffer(PICTURES.segment);
  assert.throws(() => { source.duration = 5; }, STATE);
  await once(buffer, 'updateend');
  source.duration = Infinity;
  assert.equal(source.duration, Infinity);
  source.endOfStream();
  assert.throws(() => { source.duration = 5; }, STATE);
});

test('a duration that changes is told once, one that stays is not', async () => {
  const { video, source } = await filled();
  const heard = await heardOf(video, ['durationchange'], async () => {
    source.duration = 5;
    await settled(video);
    source.duration = 5;
    await settled(video);
  });
  assert.deepEqual([heard, video.duration, source.duration], [['durationchange'], 5, 5]);
});

test('a duration below what is buffered is refused until that is removed', async () => {
  const { video, source, buffer } = await filled();
  buffer.timestampOffset = 1;
  await append(buffer, PICTURES.segment);
  const { duration } = source;
  assert.throws(() => { source.duration = 0.5; }, STATE);
  assert.equal(source.duration, duration);
  buffer.remove(0.5, Infinity);
  await once(buffer, 'updateend');
  source.duration = 0.5;
  assert.deepEqual([source.duration, video.duration], [0.5, 0.5]);
});

test('a duration within the last frame becomes its end', async () => {
  const { source, buffer } = await filled();
  source.duration = 0.09;
  assert.deepEqual([source.duration, rangesOf(buffer.buffered)], [0.1, [[0, 0.1]]]);
});

test('a duration that grows behind an append is told, too', async () => {
  const { video, source, buffer } = await filled();
  source.duration = 0.1;
  await settled(video);
  buffer.timestampOffset = 3;
  const heard = await heardOf(video, ['durationchange'], () => append(buffer, PICTURES.segment));
  // one for each frame that raises it, where browsers fire one: docs/BROWSERS.md
  assert.deepEqual([heard, source.duration], [Array(3).fill('durationchange'), 3.1]);
});

test('endOfStream is called on an open source that does not update', async () => {
  assert.throws(() => new MediaSource().endOfStream(), STATE);
  const { source, buffer } = await filled();
  assert.throws(() => source.endOfStream('none'), TYPE);
  assert.throws(() => source.endOfStream(null), TYPE);
  buffer.appendBuffer(PICTURES.segment);
  assert.throws(() => source.endOfStream(), STATE);
  await once(buffer, 'updateend');
  source.endOfStream();
  assert.throws(() => source.endOfStream(), STATE);
});

test('endOfStream ends the media where the longest buffer ends', async () => {
  const { video, source, buffer } = await filled();
  const sound = source.addSourceBuffer('audio/aac');
  await append(sound, ADTS);
  source.duration = 5;
  assert.deepEqual(rangesOf(video.buffered), [[0, 2048 / 48000]]);
  source.endOfStream();
  assert.deepEqual([source.readyState, source.duration, rangesOf(buffer.buffered)], ['ended', 0.1, [[0, 0.1]]]);
  // the last range of each buffer goes to the end then
  assert.deepEqual(rangesOf(video.buffered), [[0, 0.1]]);
  await once(source, 'sourceended');
});

for (const [error, code] of [['network', 2], ['decode', 3]]) {
  test(`endOfStream("${error}") is the error ${code}, and 4 before there are metadata`, async () => {
    const { video, source } = await filled();
    source.endOfStream(error);
    await once(video, 'error');
    assert.deepEqual([video.error.code, source.readyState, source.duration], [code, 'ended', Infinity]);
    const empty = await open();
    empty.source.endOfStream(error);
    await once(empty.video, 'error');
    assert.deepEqual([empty.video.error.code, empty.video.readyState], [4, 0]);
  });
}

test('a live seekable range bounds where a page may seek', async () => {
  assert.throws(() => new MediaSource().setLiveSeekableRange(0, 1), STATE);
  const { video, source } = await filled();
  for (const [start, end] of [[-1, 1], [2, 1], [NaN, 1]]) {
    assert.throws(() => source.setLiveSeekableRange(start, end), TYPE, `${start} ${end}`);
  }
  source.duration = Infinity;
  source.setLiveSeekableRange(1, 3);
  assert.deepEqual(rangesOf(video.seekable), [[0, 3]]);
  source.clearLiveSeekableRange();
  assert.deepEqual(rangesOf(video.seekable), [[0, 0.1]]);
});

test('seekable is empty without a duration, and else goes from 0 to it', async () => {
  const { video, source } = await open();
  assert.equal(video.seekable.length, 0);
  await append(source.addSourceBuffer(VIDEO), PLAIN);
  source.duration = 7;
  assert.deepEqual(rangesOf(video.seekable), [[0, 7]]);
});

test('data bring the events of the element in their order', async () => {
  const { video, source } = await open();
  const buffer = source.addSourceBuffer(VIDEO);
  const ofMetadata = await heardOf(video, OF_ELEMENT, async () => {
    await append(buffer, PICTURES.init);
    await settled(video);
  });
  assert.deepEqual([ofMetadata, video.readyState], [['durationchange', 'loadedmetadata'], video.HAVE_METADATA]);
  const ofFrames = await heardOf(video, OF_ELEMENT, async () => {
    await append(buffer, PICTURES.segment);
    await settled(video);
  });
  assert.deepEqual([ofFrames, video.readyState], [['loadeddata', 'canplay'], video.HAVE_FUTURE_DATA]);
  const ofEnd = await heardOf(video, OF_ELEMENT, async () => {
    source.endOfStream();
    await settled(video);
  });
  assert.deepEqual([ofEnd, video.readyState], [['durationchange', 'canplaythrough'], video.HAVE_ENOUGH_DATA]);
});

test('play waits for data, then is kept with playing, and the media end', async () => {
  const clock = new Clock();
  const { video, source } = await open({ clock });
  const heard = await heardOf(video, ['play', 'playing', 'waiting', 'pause', 'ended'], async () => {
    let isKept = false;
    video.play().then(() => { isKept = true; });
    await settled(video);
    assert.deepEqual([isKept, video.paused], [false, false]);
    await append(source.addSourceBuffer(VIDEO), PLAIN);
    source.endOfStream();
    await settled(video);
    assert.equal(isKept, true);
    await pass(clock, video, 1);
  });
  assert.deepEqual(heard, ['play', 'waiting', 'playing', 'pause', 'ended']);
  assert.deepEqual([video.ended, video.paused, video.currentTime], [true, true, 0.1]);
});

test('pause breaks a promise of play that waits, with AbortError', async () => {
  const { video } = await open();
  const promise = video.play();
  video.pause();
  await assert.rejects(promise, { name: 'AbortError' });
  assert.equal(video.paused, true);
});

test('a seek within what is buffered fires seeking and seeked', async () => {
  const { video } = await filled();
  const heard = await heardOf(video, ['seeking', 'timeupdate', 'seeked'], async () => {
    video.currentTime = 0.05;
    assert.deepEqual([video.seeking, video.currentTime], [true, 0.05]);
    await settled(video);
  });
  assert.deepEqual([heard, video.seeking], [['seeking', 'timeupdate', 'seeked'], false]);
});

test('a seek to where nothing is buffered waits there until it is', async () => {
  const { video, source, buffer } = await filled();
  source.duration = 10;
  video.currentTime = 5;
  await settled(video);
  assert.deepEqual([video.seeking, video.readyState], [true, video.HAVE_METADATA]);
  buffer.timestampOffset = 5;
  const seeked = once(video, 'seeked');
  await append(buffer, PICTURES.segment);
  await seeked;
  assert.deepEqual([video.seeking, video.currentTime], [false, 5]);
});

test('a seek behind the end goes to the end, and one before the start to the start', async () => {
  const { video, source } = await filled();
  source.endOfStream();
  video.currentTime = 99;
  await settled(video);
  assert.equal(video.currentTime, 0.1);
  video.currentTime = -5;
  await settled(video);
  assert.equal(video.currentTime, 0);
  assert.throws(() => { video.currentTime = NaN; }, TYPE);
});

test('buffered of the element is what all active buffers have, and the same object until that changes', async () => {
  const { video, source, buffer } = await filled();
  assert.deepEqual(rangesOf(video.buffered), [[0, 0.1]]);
  const sound = source.addSourceBuffer('audio/aac');
  // it is not active yet
  const { buffered } = video;
  assert.deepEqual(rangesOf(buffered), [[0, 0.1]]);
  assert.equal(video.buffered, buffered);
  await append(sound, ADTS);
  assert.deepEqual(rangesOf(video.buffered), [[0, 2048 / 48000]]);
  source.removeSourceBuffer(buffer);
  assert.deepEqual(rangesOf(video.buffered), [[0, 2048 / 48000]]);
});

test('a source that is detached is closed, without buffers and duration', async () => {
  const { video, source } = await filled();
  const heard = [];
  const named = (name, target, types) => types.forEach((type) => {
    target.addEventListener(type, () => heard.push(`${name} ${type}`));
  });
  named('active', source.activeSourceBuffers, ['removesourcebuffer']);
  named('list', source.sourceBuffers, ['removesourcebuffer']);
  named('source', source, ['sourceclose', 'sourceended']);
  video.srcObject = null;
  assert.deepEqual([source.readyState, source.duration, source.sourceBuffers.length], ['closed', NaN, 0]);
  assert.deepEqual([0 in source.sourceBuffers, 0 in source.activeSourceBuffers], [false, false]);
  await settled(video);
  assert.deepEqual(heard, ['active removesourcebuffer', 'list removesourcebuffer', 'source sourceclose']);
});

test('detaching fires no durationchange, though the duration is NaN then', async () => {
  // Media Source Extensions, 2.4.2, step 2, sets the duration without the duration change algorithm, and the media
  // element load algorithm (HTML, 4.8.11.5, step 7.10) says that the event is not fired.
  const { video, source } = await filled();
  assert.equal(video.duration, Infinity);
  const heard = await heardOf(video, ['durationchange', 'emptied'], async () => {
    video.srcObject = null;
    await settled(video);
  });
  assert.deepEqual([heard, video.duration, source.duration], [['emptied'], NaN, NaN]);
});

test('behind detaching attributes are read, buffered is refused', async () => {
  const { video, source, buffer } = await filled();
  buffer.appendWindowEnd = 4;
  buffer.timestampOffset = 3;
  video.srcObject = null;
  assert.throws(() => buffer.buffered, STATE);
  assert.deepEqual([buffer.appendWindowStart, buffer.appendWindowEnd, buffer.timestampOffset], [0, 4, 3]);
  assert.deepEqual([buffer.mode, buffer.updating], ['segments', false]);
  assert.throws(() => { source.duration = 1; }, STATE);
  assert.throws(() => source.addSourceBuffer(VIDEO), STATE);
});

test('a source can be attached again', async () => {
  const { video, source } = await filled();
  video.srcObject = null;
  await once(source, 'sourceclose');
  video.srcObject = source;
  await once(source, 'sourceopen');
  await append(source.addSourceBuffer(VIDEO), PLAIN);
  assert.deepEqual([source.readyState, rangesOf(video.buffered)], ['open', [[0, 0.1]]]);
});

test('a source that has an element is an error of a second one', async () => {
  const { video, source } = await filled();
  const second = new HTMLVideoElement();
  second.srcObject = source;
  await once(second, 'error');
  assert.deepEqual([second.error.code, second.networkState], [4, second.NETWORK_NO_SOURCE]);
  assert.deepEqual([source.readyState, video.error, rangesOf(video.buffered)], ['open', null, [[0, 0.1]]]);
});

for (const address of ['blob:null/none', 'none.mp4', '']) {
  test(`the address "${address}" of no media source is an error of the element`, async () => {
    const video = new HTMLVideoElement();
    video.src = address;
    const [broken] = await Promise.all([assert.rejects(video.play(), { name: 'NotSupportedError' }),
      once(video, 'error')]);
    assert.equal(broken, undefined);
    assert.deepEqual([video.error.code, video.networkState, video.readyState], [4, video.NETWORK_NO_SOURCE, 0]);
  });
}

test('each class has its name for Object.prototype.toString', async () => {
  const { video, source, buffer } = await filled();
  const objects = { MediaSource: source, SourceBuffer: buffer, SourceBufferList: source.sourceBuffers,
    TimeRanges: buffer.buffered, HTMLVideoElement: video };
  for (const [name, object] of Object.entries(objects)) {
    assert.equal(Object.prototype.toString.call(object), `[object ${name}]`);
    assert.equal(Object.getPrototypeOf(object)[Symbol.toStringTag], name);
  }
  assert.equal(SourceBufferList.name, 'SourceBufferList');
});

test('an attribute on... is called in its turn among the listeners, with its object', async () => {
  const { buffer } = await filled();
  const calls = [];
  buffer.addEventListener('updateend', () => calls.push('first'));
  buffer.onupdateend = function heard(event) { calls.push(this === buffer && event.target === buffer); };
  buffer.addEventListener('updateend', () => calls.push('last'));
  await append(buffer, PICTURES.segment);
  assert.deepEqual(calls, ['first', true, 'last']);
  buffer.onupdateend = null;
  await append(buffer, PICTURES.segment);
  assert.deepEqual(calls, ['first', true, 'last', 'first', 'last']);
});
