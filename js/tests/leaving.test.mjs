// Leaving a source, and coming back.

import assert from 'node:assert/strict';
import { once } from 'node:events';
import { mkdtempSync, rmSync } from 'node:fs';
import { tmpdir } from 'node:os';
import { join } from 'node:path';
import test from 'node:test';
import { run } from '../src/engine.mjs';
import { attach, Clock, HTMLVideoElement, MediaSource, saveScript, settled } from '../src/index.mjs';
import { append, open, PICTURES, PLAIN } from './kit.mjs';
import { hear, OF_BUFFER, OF_ELEMENT, Player, rangesOf, VIDEO } from './players.mjs';

const LOADING = ['loadstart', 'abort', 'emptied'];

// writes what a source, its lists and a buffer hear into a list, with a name for each
function hearAll(list, video, source, buffer) {
  const named = (name, target, types) => {
    for (const type of types) target.addEventListener(type, () => list.push(`${name} ${type}`));
  };
  named('element', video, [...LOADING, ...OF_ELEMENT]);
  named('source', source, ['sourceopen', 'sourceended', 'sourceclose']);
  named('list', source.sourceBuffers, ['addsourcebuffer', 'removesourcebuffer']);
  named('active', source.activeSourceBuffers, ['addsourcebuffer', 'removesourcebuffer']);
  if (buffer) named('buffer', buffer, OF_BUFFER);
}

// names of the property that gets the source, and what leaves it
const WAYS_OUT = {
  'removeAttribute and load': ['src', (video) => {
    video.removeAttribute('src');
    video.load();
  }],
  'srcObject = null': ['srcObject', (video) => { video.srcObject = null; }],
  'another source': ['srcObject', (video) => { video.srcObject = new MediaSource(); }],
};

for (const [name, [property, leave]] of Object.entries(WAYS_OUT)) {
  test(`a source is left by ${name}`, async () => {
    const clock = new Clock();
    const video = new HTMLVideoElement({ clock });
    const source = new MediaSource();
    video[property] = source;
    await once(source, 'sourceopen');
    const buffer = source.addSourceBuffer(VIDEO);
    await append(buffer, PLAIN);
    await Promise.all([video.play(), settled(video)]);
    clock.advance(0.05);
    await settled(video);
    const heard = [];
    hearAll(heard, video, source, buffer);
    leave(video);
    assert.deepEqual([source.readyState, source.duration, source.sourceBuffers.length], ['closed', NaN, 0]);
    assert.equal(source.activeSourceBuffers.length, 0);
    assert.deepEqual([video.readyState, video.currentTime, video.duration, video.paused], [0, 0, NaN, true]);
    assert.deepEqual([video.seeking, video.ended, video.error, video.buffered.length], [false, false, null, 0]);
    await settled(video);
    const ofNew = name === 'another source' ? ['element loadstart'] : [];
    assert.deepEqual(heard, ['element abort', 'element emptied', 'active removesourcebuffer',
      'list removesourcebuffer', 'source sourceclose', 'element timeupdate', ...ofNew]);
    assert.equal(video.networkState, ofNew.length === 0 ? video.NETWORK_EMPTY : video.NETWORK_LOADING);
  });
}

test('taking the attribute src away is not enough, as in the standard', async () => {
  const video = new HTMLVideoElement();
  const source = new MediaSource();
  video.src = source;
  assert.equal(video.src, source);
  video.removeAttribute('src');
  assert.deepEqual([video.src, source.readyState], ['', 'open']);
  video.load();
  assert.equal(source.readyState, 'closed');
});

test('calls on what was detached are refused', async () => {
  const { video, source } = await open();
  const buffer = source.addSourceBuffer(VIDEO);
  await append(buffer, PLAIN);
  buffer.timestampOffset = 3;
  video.srcObject = null;
  const refused = { name: 'InvalidStateError' };
  for (const call of [
    () => buffer.appendBuffer(PLAIN),
    () => buffer.abort(),
    () => buffer.remove(0, 1),
    () => buffer.changeType(VIDEO),
    () => buffer.buffered,
    () => { buffer.mode = 'sequence'; },
    () => { buffer.timestampOffset = 1; },
    () => { buffer.appendWindowEnd = 1; },
    () => source.endOfStream(),
    () => source.addSourceBuffer(VIDEO),
    () => { source.duration = 1; },
    () => source.clearLiveSeekableRange(),
  ]) {
    assert.throws(call, refused, String(call));
  }
  assert.throws(() => source.removeSourceBuffer(buffer), { name: 'NotFoundError' });
  assert.throws(() => buffer.changeType(''), TypeError);
  assert.throws(() => { buffer.timestampOffset = NaN; }, TypeError);
  assert.deepEqual([buffer.updating, buffer.timestampOffset, buffer.mode], [false, 3, 'segments']);
  const other = await open();
  assert.throws(() => other.source.removeSourceBuffer(buffer), { name: 'NotFoundError' });
});

test('work that runs ends with the source', async () => {
  const { video, source } = await open();
  const buffer = source.addSourceBuffer(VIDEO);
  await settled(video);
  const heard = [];
  hearAll(heard, video, source, buffer);
  buffer.appendBuffer(PLAIN);
  video.srcObject = null;
  assert.equal(buffer.updating, false);
  await settled(video);
  assert.deepEqual(heard, ['buffer updatestart', 'element abort', 'element emptied', 'active removesourcebuffer',
    'buffer abort', 'buffer updateend', 'list removesourcebuffer', 'source sourceclose']);
});

test('a play that waits is broken, and one that began is kept', async () => {
  const { video, source } = await open();
  const waits = video.play();
  video.srcObject = null;
  await assert.rejects(waits, { name: 'AbortError' });

  const began = await open();
  await append(began.source.addSourceBuffer(VIDEO), PLAIN);
  await settled(began.video);
  const heard = [];
  hear(heard, began.video, ['play', 'playing']);
  const promise = began.video.play();
  began.video.srcObject = null;
  await promise;
  await settled(began.video);
  assert.deepEqual(heard, [], 'events that wait are discarded');
  assert.equal(source.readyState, 'closed');
});

test('a play before there is a source goes on with it', async () => {
  const video = new HTMLVideoElement();
  const promise = video.play();
  await settled(video);
  assert.deepEqual([video.paused, video.networkState], [false, video.NETWORK_EMPTY]);
  const source = new MediaSource();
  video.srcObject = source;
  assert.equal(video.paused, false);
  await append(source.addSourceBuffer(VIDEO), PLAIN);
  await promise;
});

test('the same source comes back, and another one behind it', async () => {
  const { video, source } = await open();
  await append(source.addSourceBuffer(VIDEO), PLAIN);
  video.srcObject = null;
  await settled(video);

  const opened = once(source, 'sourceopen');
  video.srcObject = source;
  await opened;
  assert.deepEqual([source.readyState, source.sourceBuffers.length, source.duration], ['open', 0, NaN]);
  const buffer = source.addSourceBuffer(VIDEO);
  assert.deepEqual([...source.sourceBuffers], [buffer]);
  await append(buffer, PLAIN);
  assert.deepEqual(rangesOf(video.buffered), [[0, 0.1]]);

  const player = new Player(video, 2, PLAIN);
  await settled(video);
  assert.equal(source.readyState, 'closed');
  assert.equal(player.source.readyState, 'ended');
  assert.deepEqual(rangesOf(video.buffered), [[0, 0.2]]);
});

test('a start position that was asked for stays until there is metadata', async () => {
  const { video } = await open();
  video.currentTime = 0.05;
  const source = new MediaSource();
  video.srcObject = source;
  assert.equal(video.currentTime, 0.05);
  const buffer = source.addSourceBuffer(VIDEO);
  source.duration = 1;
  await append(buffer, PLAIN);
  await settled(video);
  assert.equal(video.currentTime, 0.05);
  video.srcObject = null;
  assert.equal(video.currentTime, 0);
});

test('an error ends with the life in which it came', async () => {
  const { video, source } = await open();
  const buffer = source.addSourceBuffer(VIDEO);
  await append(buffer, PICTURES.init);
  source.endOfStream('decode');
  await settled(video);
  assert.equal(video.error.code, 3);
  const next = new MediaSource();
  attach(video, next);
  assert.equal(video.error, null);
  await append(next.addSourceBuffer(VIDEO), PLAIN);
  assert.deepEqual(rangesOf(video.buffered), [[0, 0.1]]);
});

test('each life is a script of its own, and the program plays it', async () => {
  const { video, source } = await open();
  await append(source.addSourceBuffer(VIDEO), PLAIN);
  video.srcObject = null;
  await settled(video);
  new Player(video, 2, PLAIN);
  await settled(video);
  video.removeAttribute('src');
  video.srcObject = null;
  await settled(video);
  const folder = mkdtempSync(join(tmpdir(), 'kept-'));
  try {
    const files = saveScript(video, folder, 'lives.toml');
    assert.deepEqual(Object.keys(files), ['lives.toml', 'media0.bin', 'lives-2.toml', 'media-2-0.bin']);
    assert.match(new TextDecoder().decode(files['lives-2.toml']), /^# Life 2 of 2 of a media element/);
    const first = run(['play', 'lives.toml'], files);
    const second = run(['play', 'lives-2.toml'], files);
    assert.deepEqual([first.status, second.status], [0, 0]);
    assert.match(first.text, /buffered \[0,14112000000\)$/m);
    assert.match(second.text, /buffered \[0,28224000000\)$/m);
  } finally {
    rmSync(folder, { recursive: true });
  }
});
