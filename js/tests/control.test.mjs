// Faults on purpose, and what stands around an element.

import assert from 'node:assert/strict';
import { mkdtempSync, rmSync } from 'node:fs';
import { tmpdir } from 'node:os';
import { join } from 'node:path';
import test from 'node:test';
import { run } from '../src/engine.mjs';
import { Clock, control, cuts, HTMLVideoElement, MediaSource, saveScript, settled } from '../src/index.mjs';
import { register } from '../src/register.mjs';
import { append, open, PICTURES, PLAIN } from './kit.mjs';
import { hear, Player, rangesOf, VIDEO } from './players.mjs';

// an element with ten segments, a second in all
async function filled(options, count = 10) {
  const { video, source } = await open(options);
  const buffer = source.addSourceBuffer(VIDEO);
  await append(buffer, PICTURES.init);
  for (let i = 0; i < count; i += 1) {
    buffer.timestampOffset = i * PICTURES.seconds;
    await append(buffer, PICTURES.segment);
  }
  await settled(video);
  return { video, source, buffer };
}

test('the next appends to a buffer are refused', async () => {
  const { video, source, buffer } = await filled({}, 1);
  const other = source.addSourceBuffer(VIDEO);
  control(video).refuseAppends(buffer, 2);
  const refused = { name: 'QuotaExceededError', message: 'appendBuffer: the test asked for it' };
  buffer.timestampOffset = 0.1;
  assert.throws(() => buffer.appendBuffer(PICTURES.segment), refused);
  other.appendBuffer(PLAIN);
  assert.throws(() => other.appendBuffer(PLAIN), { name: 'InvalidStateError' });
  assert.throws(() => buffer.appendBuffer(PICTURES.segment), refused);
  await append(buffer, PICTURES.segment);
  assert.deepEqual(rangesOf(buffer.buffered), [[0, 0.2]]);
  assert.throws(() => control(video).refuseAppends(buffer, -1), RangeError);
});

test('a full buffer refuses where the engine would evict what lies ahead', async () => {
  const { video, source, buffer } = await filled({ quota: 125, whenFull: 'refuse' });
  const refused = {
    name: 'QuotaExceededError',
    message: 'appendBuffer: the source buffer is full: 120 bytes and 12 more are too many for its quota of 125',
  };
  buffer.timestampOffset = 1;
  assert.throws(() => buffer.appendBuffer(PICTURES.segment), refused);
  assert.deepEqual(rangesOf(buffer.buffered), [[0, 1]]);
  // the front of a segment has no payload; what is cut is counted all the same, and forgotten by an abort
  await append(buffer, PICTURES.segment.subarray(0, 120));
  assert.throws(() => buffer.appendBuffer(PICTURES.segment.subarray(120)), refused);
  buffer.abort();
  await append(buffer, PICTURES.init);
  assert.throws(() => buffer.appendBuffer(PICTURES.segment), refused);
  source.duration = 2;
  buffer.remove(0, 0.1);
  await settled(video);
  await append(buffer, PICTURES.segment);
  assert.deepEqual(rangesOf(buffer.buffered), [[0.1, 1.1]]);

  const evicting = await filled({ quota: 120 });
  evicting.buffer.timestampOffset = 1;
  await append(evicting.buffer, PICTURES.segment);
  assert.deepEqual(rangesOf(evicting.buffer.buffered), [[0, 0.1], [1, 1.1]]);
  control(evicting.video).whenFull('refuse');
  assert.throws(() => control(evicting.video).whenFull('explode'), TypeError);
});

test('an error of the decoder comes at its time, and the player comes back', async () => {
  const clock = new Clock();
  const { video, source, buffer } = await filled({ clock });
  control(video).decodeErrorAt(0.25);
  const heard = [];
  hear(heard, video, ['error', 'waiting', 'pause', 'ended']);
  hear(heard, source, ['sourceended', 'sourceopen']);
  await Promise.all([video.play(), settled(video)]);
  clock.advance(0.2);
  assert.equal(video.error, null);
  clock.advance(0.2);
  assert.deepEqual([video.currentTime, video.error.code, source.readyState], [0.25, 3, 'ended']);
  assert.equal(video.error.message, 'the test asked for an error of the decoder');
  assert.throws(() => buffer.appendBuffer(PICTURES.segment), { name: 'InvalidStateError' });
  await settled(video);
  assert.deepEqual(heard, ['sourceended', 'error']);
  const player = new Player(video, 3, PLAIN);
  await settled(video);
  assert.deepEqual([video.error, player.source.readyState], [null, 'ended']);
});

test('an error of the decoder comes also when the stream has ended, behind a seek, and not while a buffer updates',
  async () => {
    const { video, source, buffer } = await filled({});
    source.endOfStream();
    await settled(video);
    const heard = [];
    hear(heard, source, ['sourceended', 'sourceopen']);
    hear(heard, video, ['error', 'seeking', 'seeked']);
    control(video).decodeErrorAt(0.5);
    video.currentTime = 0.7;
    await settled(video);
    assert.deepEqual([video.error.code, source.readyState], [3, 'ended']);
    assert.deepEqual(heard.filter((type) => type.startsWith('source') || type === 'error'), ['error']);

    const second = await filled({});
    second.buffer.appendBuffer(PICTURES.segment);
    control(second.video).decodeErrorAt(0);
    assert.equal(second.video.error, null);
    await settled(second.video);
    assert.equal(second.video.error.code, 3);
    assert.equal(buffer.updating, false);
  });

test('timeupdate has a rhythm of its own', async () => {
  const clock = new Clock();
  const { video } = await filled({ clock });
  const heard = [];
  await Promise.all([video.play(), settled(video)]);
  video.addEventListener('timeupdate', () => heard.push(Math.round(1000 * video.currentTime)));
  control(video).timeupdateEvery(0.25);
  for (let i = 0; i < 50; i += 1) {
    clock.advance(0.02);
    await settled(video);
    assert.ok(Math.abs(video.currentTime - 0.02 * (i + 1)) < 1e-9, `${video.currentTime}`);
  }
  assert.deepEqual(heard.slice(0, 3), [260, 500, 760]);
});

test('one advance has as many timeupdate as its rhythm has beats', async () => {
  const clock = new Clock();
  const { video } = await filled({ clock }, 20);
  await Promise.all([video.play(), settled(video)]);
  const heard = [];
  hear(heard, video, ['timeupdate', 'waiting']);
  control(video).timeupdateEvery(0.25);
  clock.advance(1);
  await settled(video);
  assert.deepEqual(heard, ['timeupdate', 'timeupdate', 'timeupdate', 'timeupdate']);
  assert.equal(video.currentTime, 1);
  clock.advance(1.1);
  await settled(video);
  assert.equal(video.currentTime, 2);
  assert.equal(heard.at(-1), 'waiting');
  control(video).timeupdateEvery(Infinity);
  video.currentTime = 0;
  await settled(video);
  heard.length = 0;
  clock.advance(1);
  await settled(video);
  assert.deepEqual(heard, ['timeupdate']);
});

test('a script that is saved between two beats has all the time that has passed', async () => {
  const clock = new Clock();
  const { video } = await filled({ clock });
  await Promise.all([video.play(), settled(video)]);
  control(video).timeupdateEvery(0.25);
  clock.advance(0.1);
  const folder = mkdtempSync(join(tmpdir(), 'kept-'));
  try {
    const files = saveScript(video, folder);
    assert.match(run(['play', 'script.toml'], files).text, /^state .* position 14112000000 /m);
  } finally {
    rmSync(folder, { recursive: true });
  }
});

test('a hidden page is told of, and has a timeupdate a second', async () => {
  const clock = new Clock();
  const unregister = register({ clock });
  try {
    const { video } = await filled({ clock }, 30);
    await Promise.all([video.play(), settled(video)]);
    const heard = [];
    hear(heard, video, ['timeupdate']);
    hear(heard, document, ['visibilitychange']);
    assert.deepEqual([document.hidden, document.visibilityState], [false, 'visible']);
    control(video).hidden = true;
    assert.deepEqual([document.hidden, document.visibilityState], [true, 'hidden']);
    for (let i = 0; i < 8; i += 1) clock.advance(0.25);
    await settled(video);
    assert.deepEqual(heard, ['visibilitychange', 'timeupdate', 'timeupdate']);
    control(video).hidden = false;
    clock.advance(0.25);
    await settled(video);
    assert.deepEqual(heard.slice(3), ['visibilitychange', 'timeupdate']);
  } finally {
    unregister();
  }
});

test('cuts are the same for a seed, and other ones for another', async () => {
  const joined = (pieces) => Buffer.concat(pieces);
  for (const seed of [0, 1, 2, 3, 1e9]) {
    const pieces = cuts(PLAIN, seed);
    assert.deepEqual(joined(pieces), PLAIN);
    assert.deepEqual(cuts(PLAIN, seed), pieces);
    assert.ok(pieces.length > 1 && pieces.every(({ length }) => length > 0));
  }
  const lengths = (seed) => cuts(PLAIN, seed).map(({ length }) => length).join();
  assert.equal(new Set([1, 2, 3, 4, 5].map(lengths)).size, 5);
  assert.deepEqual(cuts(new Uint8Array(0)), []);

  const { source } = await open();
  const buffer = source.addSourceBuffer(VIDEO);
  for (const piece of cuts(PLAIN, 7)) await append(buffer, piece);
  assert.deepEqual(rangesOf(buffer.buffered), [[0, 0.1]]);
  assert.equal(new HTMLVideoElement().error, null);
  assert.equal(new MediaSource().readyState, 'closed');
});
