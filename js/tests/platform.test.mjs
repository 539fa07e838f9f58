// What the standards promise of Media Source Extensions, test by test, as the tests of the web platform look at it:
// the source and its buffers. platform_element.test.mjs has the element.

import assert from 'node:assert/strict';
import { once } from 'node:events';
import test from 'node:test';
import { HTMLVideoElement, MediaSource, settled, SourceBuffer, SourceBufferList, TimeRanges } from '../src/index.mjs';
import { append, open, PICTURES, PLAIN } from './kit.mjs';
import { ADTS, hear, OF_BUFFER, rangesOf, VIDEO } from './players.mjs';

const SOUND = 'audio/aac';
const STATE = { name: 'InvalidStateError' };
const TYPE = { name: 'TypeError' };

// an open source with a buffer that has the media of plain.mp4
async function filled() {
  const { video, source } = await open();
  const buffer = source.addSourceBuffer(VIDEO);
  await append(buffer, PLAIN);
  await settled(video);
  return { video, source, buffer };
}

async function heardOf(target, types, work) {
  const heard = [];
  hear(heard, target, types);
  await work();
  return heard;
}

test('MediaSource is constructed by new only, the other classes not at all', () => {
  assert.ok(new MediaSource() instanceof EventTarget);
  assert.throws(() => MediaSource(), TYPE);
  for (const ofClass of [SourceBuffer, SourceBufferList, TimeRanges]) assert.throws(() => new ofClass(), TYPE);
});

test('a source begins closed, without a duration and without buffers', () => {
  const source = new MediaSource();
  assert.deepEqual([source.readyState, source.duration], ['closed', NaN]);
  assert.deepEqual([source.sourceBuffers.length, source.activeSourceBuffers.length], [0, 0]);
  assert.equal(source.sourceBuffers, source.sourceBuffers);
  assert.notEqual(source.sourceBuffers, source.activeSourceBuffers);
  assert.deepEqual([source.onsourceopen, source.onsourceended, source.onsourceclose], [null, null, null]);
});

test('a source that is attached is open, and says so', async () => {
  const [video, source] = [new HTMLVideoElement(), new MediaSource()];
  const opened = once(source, 'sourceopen');
  video.srcObject = source;
  const [event] = await opened;
  assert.deepEqual([event.target, event.bubbles, event.cancelable], [source, false, false]);
  assert.deepEqual([source.readyState, source.duration], ['open', NaN]);
});

test('the state "ended" is left by an append, with sourceopen', async () => {
  const { source, buffer } = await filled();
  source.endOfStream();
  assert.equal(source.readyState, 'ended');
  await once(source, 'sourceended');
  const heard = await heardOf(source, ['sourceopen', 'sourceended'], () => append(buffer, PICTURES.segment));
  assert.deepEqual([heard, source.readyState], [['sourceopen'], 'open']);
});

test('addSourceBuffer looks at the type before the state', () => {
  const source = new MediaSource();
  assert.throws(() => source.addSourceBuffer(), TYPE);
  assert.throws(() => source.addSourceBuffer(''), TYPE);
  assert.throws(() => source.addSourceBuffer('video/none'), { name: 'NotSupportedError' });
  assert.throws(() => source.addSourceBuffer(null), { name: 'NotSupportedError' });
  assert.throws(() => source.addSourceBuffer(VIDEO), STATE);
});

test('addSourceBuffer is refused once the stream has ended', async () => {
  const { source } = await filled();
  source.endOfStream();
  assert.throws(() => source.addSourceBuffer(VIDEO), STATE);
});

test('a new source buffer has the first values of its attributes', async () => {
  const { source } = await open();
  const buffer = source.addSourceBuffer(VIDEO);
  assert.deepEqual([buffer.mode, buffer.updating, buffer.timestampOffset], ['segments', false, 0]);
  assert.deepEqual([buffer.appendWindowStart, buffer.appendWindowEnd, buffer.buffered.length], [0, Infinity, 0]);
  assert.deepEqual(OF_BUFFER.map((type) => buffer[`on${type}`]), OF_BUFFER.map(() => null));
});

test('a type without timestamps begins in "sequence" and stays there', async () => {
  const { source } = await open();
  const buffer = source.addSourceBuffer(SOUND);
  assert.equal(buffer.mode, 'sequence');
  assert.throws(() => { buffer.mode = 'segments'; }, TYPE);
  buffer.mode = 'sequence';
});

test('addsourcebuffer is fired at the list', async () => {
  const { video, source } = await open();
  const heard = await heardOf(source.sourceBuffers, ['addsourcebuffer', 'removesourcebuffer'], async () => {
    source.removeSourceBuffer(source.addSourceBuffer(VIDEO));
    await settled(video);
  });
  assert.deepEqual(heard, ['addsourcebuffer', 'removesourcebuffer']);
});

test('removeSourceBuffer takes a buffer of the list only', async () => {
  const [one, other] = [await filled(), await filled()];
  assert.throws(() => one.source.removeSourceBuffer(other.buffer), { name: 'NotFoundError' });
  assert.throws(() => one.source.removeSourceBuffer(null), TYPE);
  one.source.removeSourceBuffer(one.buffer);
  assert.throws(() => one.source.removeSourceBuffer(one.buffer), { name: 'NotFoundError' });
  assert.deepEqual([[...one.source.sourceBuffers], [...one.source.activeSourceBuffers]], [[], []]);
});

test('removeSourceBuffer ends an append with abort and updateend', async () => {
  const { video, source, buffer } = await filled();
  const heard = await heardOf(buffer, OF_BUFFER, async () => {
    buffer.appendBuffer(PICTURES.segment);
    source.removeSourceBuffer(buffer);
    assert.equal(buffer.updating, false);
    await settled(video);
  });
  assert.deepEqual(heard.slice(-2), ['abort', 'updateend']);
  assert.ok(!heard.includes('update'));
});

test('a buffer that was removed refuses calls, and its attributes are read still', async () => {
  const { source, buffer } = await filled();
  buffer.timestampOffset = 2;
  source.removeSourceBuffer(buffer);
  for (const call of [() => buffer.appendBuffer(PLAIN), () => buffer.abort(), () => buffer.remove(0, 1),
    () => buffer.changeType(VIDEO), () => buffer.buffered, () => { buffer.mode = 'sequence'; },
    () => { buffer.timestampOffset = 1; }, () => { buffer.appendWindowStart = 1; }]) {
    assert.throws(call, STATE, String(call));
  }
  assert.deepEqual([buffer.timestampOffset, buffer.mode, buffer.updating], [2, 'segments', false]);
});

test('isTypeSupported is false for what is no type, and has to be asked something', () => {
  assert.throws(() => MediaSource.isTypeSupported(), TYPE);
  for (const type of ['', 'video', 'video/', '/mp4', 'video/none', 'text/html', null, undefined]) {
    assert.equal(MediaSource.isTypeSupported(type), false, String(type));
  }
  for (const type of [VIDEO, 'video/mp4', 'VIDEO/MP4', 'audio/mp4;codecs="mp4a.40.2"', SOUND]) {
    assert.equal(MediaSource.isTypeSupported(type), true, type);
  }
});

test('the lists have their items as indexed properties, and no others', async () => {
  const { source } = await open();
  const list = source.sourceBuffers;
  assert.deepEqual([0 in list, 3 in list, Object.keys(list), list[0]], [false, false, [], undefined]);
  const [one, other] = [source.addSourceBuffer(VIDEO), source.addSourceBuffer(SOUND)];
  assert.deepEqual([0 in list, 1 in list, 2 in list, Object.keys(list)], [true, true, false, ['0', '1']]);
  assert.deepEqual([list[0], list[1], list[2], list[-1], [...list]], [one, other, undefined, undefined, [one, other]]);
  const { writable, enumerable } = Object.getOwnPropertyDescriptor(list, '0');
  assert.deepEqual([writable, enumerable], [false, true]);
  assert.throws(() => { list[0] = other; }, TYPE);
  source.removeSourceBuffer(one);
  assert.deepEqual([list.length, list[0], 1 in list], [1, other, false]);
});

test('a buffer is active once its initialization segment has come', async () => {
  const { video, source } = await open();
  const [buffer, active] = [source.addSourceBuffer(VIDEO), source.activeSourceBuffers];
  assert.deepEqual([active.length, 0 in active], [0, false]);
  const heard = await heardOf(active, ['addsourcebuffer', 'removesourcebuffer'], async () => {
    await append(buffer, PICTURES.init);
    assert.deepEqual([[...active], active[0], Object.keys(active)], [[buffer], buffer, ['0']]);
    source.removeSourceBuffer(buffer);
    await settled(video);
  });
  assert.deepEqual([heard, active.length, 0 in active], [['addsourcebuffer', 'removesourcebuffer'], 0, false]);
});

test('appendBuffer updates from the call until updateend', async () => {
  const { source } = await open();
  const buffer = source.addSourceBuffer(VIDEO);
  const states = [];
  for (const type of OF_BUFFER) buffer.addEventListener(type, () => states.push([type, buffer.updating]));
  assert.equal(buffer.appendBuffer(PLAIN), undefined);
  assert.equal(buffer.updating, true);
  await once(buffer, 'updateend');
  assert.deepEqual(states, [['updatestart', true], ['update', false], ['updateend', false]]);
});

test('appendBuffer is refused while the buffer is updating', async () => {
  const { source } = await open();
  const buffer = source.addSourceBuffer(VIDEO);
  buffer.appendBuffer(PLAIN);
  assert.throws(() => buffer.appendBuffer(PLAIN), STATE);
  await once(buffer, 'updateend');
  assert.deepEqual(rangesOf(buffer.buffered), [[0, 0.1]]);
});

test('appendBuffer takes a buffer or a view of one, also an empty one, and copies it', async () => {
  const { source } = await open();
  const buffer = source.addSourceBuffer(VIDEO);
  for (const wrong of [undefined, null, 'bytes', 5, [1, 2], {}]) assert.throws(() => buffer.appendBuffer(wrong), TYPE);
  await append(buffer, new ArrayBuffer(0));
  assert.equal(buffer.buffered.length, 0);
  const padded = new Uint8Array(PLAIN.length + 8);
  padded.set(PLAIN, 4);
  buffer.appendBuffer(padded.subarray(4, 4 + PLAIN.length));
  padded.fill(0);
  await once(buffer, 'updateend');
  assert.deepEqual(rangesOf(buffer.buffered), [[0, 0.1]]);
});

test('a media segment before an initialization segment is an error that ends the stream', async () => {
  const { video, source } = await open();
  const buffer = source.addSourceBuffer(VIDEO);
  const heard = [];
  hear(heard, buffer, OF_BUFFER);
  hear(heard, source, ['sourceended']);
  buffer.appendBuffer(PICTURES.segment);
  await settled(video);
  assert.deepEqual(heard, ['updatestart', 'error', 'updateend', 'sourceended']);
  assert.deepEqual([source.readyState, video.error.code], ['ended', video.error.MEDIA_ERR_SRC_NOT_SUPPORTED]);
  assert.throws(() => buffer.appendBuffer(PLAIN), STATE);
});

test('abort ends an append and sets the append window back', async () => {
  const { source, video } = await open();
  const buffer = source.addSourceBuffer(VIDEO);
  buffer.appendWindowStart = 1;
  buffer.appendWindowEnd = 2;
  const heard = await heardOf(buffer, OF_BUFFER, async () => {
    buffer.appendBuffer(PLAIN);
    buffer.abort();
    assert.equal(buffer.updating, false);
    await settled(video);
  });
  assert.deepEqual(heard.filter((type) => type !== 'updatestart'), ['abort', 'updateend']);
  assert.deepEqual([buffer.appendWindowStart, buffer.appendWindowEnd], [0, Infinity]);
});

test('abort is refused where the source is not open, and while a removal runs', async () => {
  const { source, buffer } = await filled();
  buffer.remove(0, 1);
  assert.throws(() => buffer.abort(), STATE);
  await once(buffer, 'updateend');
  source.endOfStream();
  assert.throws(() => buffer.abort(), STATE);
});

test('the append window has a start before its end', async () => {
  const { source } = await open();
  const buffer = source.addSourceBuffer(VIDEO);
  for (const wrong of [-1, NaN, Infinity, -Infinity, 'one']) {
    assert.throws(() => { buffer.appendWindowStart = wrong; }, TYPE, `start ${wrong}`);
  }
  buffer.appendWindowEnd = 2;
  assert.throws(() => { buffer.appendWindowStart = 2; }, TYPE);
  buffer.appendWindowStart = 1;
  for (const wrong of [1, 0, NaN, 'two']) assert.throws(() => { buffer.appendWindowEnd = wrong; }, TYPE, `end ${wrong}`);
  buffer.appendWindowEnd = Infinity;
  assert.deepEqual([buffer.appendWindowStart, buffer.appendWindowEnd], [1, Infinity]);
});

test('what lies outside of the append window is dropped', async () => {
  const { source } = await open();
  const buffer = source.addSourceBuffer(VIDEO);
  buffer.appendWindowEnd = 0.07;
  await append(buffer, PLAIN);
  assert.deepEqual(rangesOf(buffer.buffered).map(([start, end]) => [start, Math.round(end * 30)]), [[0, 2]]);
  buffer.appendWindowEnd = 9;
  buffer.appendWindowStart = 8;
  await append(buffer, PICTURES.segment);
  assert.equal(buffer.buffered.length, 1);
});

test('timestampOffset moves what is appended, and is finite', async () => {
  const { source } = await open();
  const buffer = source.addSourceBuffer(VIDEO);
  for (const wrong of [NaN, Infinity, -Infinity, 'none', undefined]) {
    assert.throws(() => { buffer.timestampOffset = wrong; }, TYPE, String(wrong));
  }
  for (const offset of [10, 5]) {
    buffer.timestampOffset = offset;
    assert.equal(buffer.timestampOffset, offset);
    await append(buffer, PLAIN);
  }
  assert.deepEqual(rangesOf(buffer.buffered), [[5, 5.1], [10, 10.1]]);
  buffer.timestampOffset = -0.1;
  await append(buffer, PICTURES.segment);
  assert.deepEqual(rangesOf(buffer.buffered), [[5, 5.1], [10, 10.1]]);
});

test('attributes are not set while the buffer is updating', async () => {
  const { source } = await open();
  const buffer = source.addSourceBuffer(VIDEO);
  buffer.appendBuffer(PLAIN);
  for (const [name, value] of [['timestampOffset', 1], ['appendWindowStart', 1], ['appendWindowEnd', 1],
    ['mode', 'sequence']]) {
    const before = buffer[name];
    assert.throws(() => { buffer[name] = value; }, STATE, name);
    assert.equal(buffer[name], before);
  }
  assert.throws(() => buffer.changeType(VIDEO), STATE);
  assert.throws(() => buffer.remove(0, 1), STATE);
});

for (const [name, call] of Object.entries({
  timestampOffset: (buffer) => { buffer.timestampOffset = 1; },
  mode: (buffer) => { buffer.mode = 'segments'; },
  remove: (buffer) => buffer.remove(0, 1),
  changeType: (buffer) => buffer.changeType(VIDEO),
})) {
  test(`${name} opens a source that has ended`, async () => {
    const { source, buffer } = await filled();
    source.endOfStream();
    await once(source, 'sourceended');
    call(buffer);
    assert.equal(source.readyState, 'open');
    await once(source, 'sourceopen');
  });
}

test('a word that is no mode changes nothing', async () => {
  const { buffer } = await filled();
  for (const word of ['Segments', 'none', '', null]) buffer.mode = word;
  assert.equal(buffer.mode, 'segments');
  buffer.mode = 'sequence';
  assert.equal(buffer.mode, 'sequence');
});

test('in mode "sequence" segments follow each other, whatever their times', async () => {
  const { source } = await open();
  const buffer = source.addSourceBuffer(VIDEO);
  buffer.mode = 'sequence';
  await append(buffer, PICTURES.init);
  for (let i = 0; i < 3; i += 1) await append(buffer, PICTURES.segment);
  assert.deepEqual(rangesOf(buffer.buffered), [[0, 0.3]]);
  buffer.timestampOffset = 2;
  await append(buffer, PICTURES.segment);
  assert.deepEqual(rangesOf(buffer.buffered), [[0, 0.3], [2, 2.1]]);
});

test('remove takes a start within the duration and an end behind it', async () => {
  const { source } = await open();
  const early = source.addSourceBuffer(VIDEO);
  assert.throws(() => early.remove(0, 1), TYPE);
  await append(early, PLAIN);
  source.duration = 5;
  for (const [start, end] of [[-1, 1], [1, 1], [2, 1], [6, 7], [NaN, 1], [0, NaN], [Infinity, Infinity]]) {
    assert.throws(() => early.remove(start, end), TYPE, `${start} ${end}`);
  }
  assert.throws(() => early.remove(0), TYPE);
  early.remove(0, Infinity);
  await once(early, 'updateend');
  assert.equal(early.buffered.length, 0);
});

test('remove fires the events of an update, and takes what cannot be decoded too', async () => {
  const { video, buffer } = await filled();
  buffer.timestampOffset = 0.1;
  await append(buffer, PICTURES.segment);
  const heard = await heardOf(buffer, OF_BUFFER, async () => {
    buffer.remove(0, 0.01);
    assert.equal(buffer.updating, true);
    await settled(video);
  });
  assert.deepEqual(heard, ['updatestart', 'update', 'updateend']);
  // up to the next random access point
  assert.deepEqual(rangesOf(buffer.buffered), [[0.1, 0.2]]);
});

test('changeType takes a supported type, and the next media come with an initialization segment', async () => {
  const { buffer } = await filled();
  assert.throws(() => buffer.changeType(), TYPE);
  assert.throws(() => buffer.changeType(''), TYPE);
  assert.throws(() => buffer.changeType('video/none'), { name: 'NotSupportedError' });
  buffer.changeType(VIDEO);
  assert.deepEqual([buffer.updating, rangesOf(buffer.buffered)], [false, [[0, 0.1]]]);
  buffer.timestampOffset = 1;
  await append(buffer, PLAIN);
  assert.deepEqual(rangesOf(buffer.buffered), [[0, 0.1], [1, 1.1]]);
});

test('changeType to a type without timestamps sets the mode', async () => {
  const { buffer } = await filled();
  buffer.changeType(SOUND);
  assert.equal(buffer.mode, 'sequence');
});

test('buffered is the same object until it changes, and its ranges have numbers from 0', async () => {
  const { buffer } = await filled();
  const { buffered } = buffer;
  buffer.timestampOffset = 0.5;
  assert.equal(buffer.buffered, buffered);
  for (const index of [1, -1, 2 ** 31]) {
    assert.throws(() => buffered.start(index), { name: 'IndexSizeError' });
    assert.throws(() => buffered.end(index), { name: 'IndexSizeError' });
  }
  assert.throws(() => buffered.start(), TYPE);
  await append(buffer, PICTURES.segment);
  assert.notEqual(buffer.buffered, buffered);
  assert.deepEqual([rangesOf(buffered), rangesOf(buffer.buffered)], [[[0, 0.1]], [[0, 0.1], [0.5, 0.6]]]);
});

test('sound without timestamps is placed by its length', async () => {
  const { source } = await open();
  const buffer = source.addSourceBuffer(SOUND);
  await append(buffer, ADTS);
  await append(buffer, ADTS);
  assert.deepEqual(rangesOf(buffer.buffered), [[0, 4096 / 48000]]);
});
