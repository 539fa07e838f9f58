// Times are exact: the tick that is nearest to a double, and the double that is nearest to a tick.

import assert from 'node:assert/strict';
import { once } from 'node:events';
import test from 'node:test';
import { Clock, HTMLVideoElement, MediaSource, settled } from '../src/index.mjs';
import { secondsOf, ticksOf, timeText } from '../src/times.mjs';
import { append, example, open, PICTURES, PLAIN } from './kit.mjs';
import { hear, rangesOf, VIDEO } from './players.mjs';

const SECOND = 141_120_000_000n;

// numbers that look like chance
function* doubles(count) {
  let number = 1;
  const view = new DataView(new ArrayBuffer(8));
  for (let i = 0; i < count; i += 1) {
    for (const place of [0, 4]) {
      number = (number * 48271) % 2147483647;
      view.setUint32(place, Math.imul(number, 2654435761));
    }
    // from 2^-40 to 2^72
    view.setUint16(0, ((1023 - 40 + (number % 112)) << 4) | (view.getUint16(0) & 15));
    yield (i % 2 === 0 ? 1 : -1) * view.getFloat64(0);
  }
}

// a double as a fraction, by taking it apart otherwise than the code does
function fraction(double) {
  let [numerator, denominator] = [double, 1n];
  while (!Number.isInteger(numerator)) [numerator, denominator] = [numerator * 2, denominator * 2n];
  return [BigInt(numerator), denominator];
}

const abs = (number) => (number < 0n ? -number : number);

test('a double becomes the tick that is nearest to it', () => {
  for (const double of doubles(3000)) {
    const [numerator, denominator] = fraction(double);
    const ticks = ticksOf(double);
    // |ticks / SECOND - double| is at most half a tick
    assert.ok(2n * abs(ticks * denominator - numerator * SECOND) <= denominator, `${double}`);
  }
  assert.equal(ticksOf(0.3), 42_336_000_000n);
  assert.equal(ticksOf(1 / 3), 47_040_000_000n);
  assert.equal(ticksOf(-0), 0n);
});

test('a tick becomes the double that is nearest to it', () => {
  // the double beside, in steps of the last bit
  const beside = (double, step) => {
    const view = new DataView(new ArrayBuffer(8));
    view.setFloat64(0, double);
    view.setBigUint64(0, view.getBigUint64(0) + step);
    return view.getFloat64(0);
  };
  const distance = (ticks, double) => {
    const [numerator, denominator] = fraction(double);
    // as a fraction over SECOND times 2^200
    return (abs(ticks * denominator - numerator * SECOND) << 200n) / denominator;
  };
  for (const double of doubles(3000)) {
    const ticks = ticksOf(double) + 1n;
    if (ticks !== 0n) {
      const found = secondsOf(ticks);
      for (const step of [1n, -1n]) {
        assert.ok(distance(ticks, found) <= distance(ticks, beside(found, step)), `${ticks}`);
      }
    }
  }
});

test('above ten hours a time reads back as it was set', () => {
  for (const double of doubles(3000)) {
    if (Math.abs(double) > 36000 && Math.abs(double) < 2 ** 72) assert.equal(secondsOf(ticksOf(double)), double);
  }
  assert.equal(secondsOf(ticksOf(2147483647)), 2147483647);
  assert.notEqual(ticksOf(65536.57), BigInt(Math.round(65536.57 * 141120000000)));
});

test('the text of a time is that of its tick', () => {
  const [scale, seconds] = ['1000000000000000000/1', 1e18];
  assert.equal(timeText(seconds), scale);
  assert.equal(timeText(8e12 + 1 / 1024), `${(8n * 10n ** 12n) * 1024n + 1n}/1024`);
  const texts = ['14112000000', '-141120000000', 'nan', 'inf', 'nan'];
  assert.deepEqual([0.1, -1, NaN, Infinity, -Infinity].map(timeText), texts);
  assert.throws(() => timeText(Number.MAX_VALUE), { name: 'NotThereError' });
});

test('a duration and an offset read back', async () => {
  const { source } = await open();
  const buffer = source.addSourceBuffer(VIDEO);
  source.duration = 2147483647;
  assert.equal(source.duration, 2147483647);
  buffer.timestampOffset = 65536.57;
  assert.equal(buffer.timestampOffset, 65536.57);
  buffer.timestampOffset = 9e12 + 0.5;
  assert.equal(buffer.timestampOffset, 9e12 + 0.5);
});

test('a gap is said in seconds', async () => {
  for (const [gap, ranges] of [[0, [[0, 0.1], [0.11, 0.21]]], [0.01, [[0, 0.21]]]]) {
    const { video, source } = await open({ gap });
    const buffer = source.addSourceBuffer(VIDEO);
    await append(buffer, PLAIN);
    buffer.timestampOffset = 0.11;
    await append(buffer, PICTURES.segment);
    assert.deepEqual(rangesOf(video.buffered), ranges);
  }
  assert.throws(() => new HTMLVideoElement({ gap: -1 }), RangeError);
  assert.throws(() => new HTMLVideoElement({ gap: NaN }), TypeError);
});

const LATE = ['loadedmetadata', 'loadeddata', 'canplay', 'play', 'playing', 'waiting', 'seeking', 'seeked',
  'timeupdate'];

// late.mp4 begins at 0.08 s
async function late(options) {
  const clock = new Clock();
  const { video, source } = await open({ clock, ...options });
  const heard = [];
  hear(heard, video, LATE);
  const buffer = source.addSourceBuffer(VIDEO);
  await append(buffer, example('late.mp4'));
  await settled(video);
  return { clock, video, source, buffer, heard };
}

test('media that begin a little late play from where they begin, without a seek that the page hears', async () => {
  const { clock, video, heard } = await late({ startTolerance: 0.1 });
  assert.deepEqual(heard.splice(0), ['loadedmetadata', 'loadeddata', 'canplay']);
  assert.deepEqual([video.readyState, video.seeking, video.currentTime], [3, false, 0.08]);
  await Promise.all([video.play(), settled(video)]);
  clock.advance(0.1);
  await settled(video);
  assert.equal(video.currentTime, 0.18);
  assert.deepEqual(heard, ['play', 'playing', 'timeupdate']);
});

test('media that begin later than the tolerance wait for a seek of the page', async () => {
  for (const options of [{}, { startTolerance: 0.079 }]) {
    const { video, heard } = await late(options);
    assert.deepEqual(heard, ['loadedmetadata']);
    assert.equal(video.readyState, 1);
  }
});

test('a seek of the page to 0 ends where the media begin', async () => {
  const { video, heard } = await late({ startTolerance: 0.1 });
  video.currentTime = 0.2;
  await settled(video);
  heard.length = 0;
  video.currentTime = 0;
  assert.ok(video.seeking);
  await once(video, 'seeked');
  assert.equal(video.currentTime, 0.08);
  assert.deepEqual(heard.filter((type) => ['seeking', 'seeked', 'timeupdate'].includes(type)),
    ['seeking', 'timeupdate', 'seeked']);
});

test('a seek of the page right behind the start is heard', async () => {
  const video = new HTMLVideoElement({ startTolerance: 0.1 });
  const source = new MediaSource();
  video.srcObject = source;
  const heard = [];
  hear(heard, video, LATE);
  video.addEventListener('loadeddata', () => { video.currentTime = 0.16; }, { once: true });
  const buffer = source.addSourceBuffer(VIDEO);
  source.duration = 1;
  await append(buffer, example('late.mp4'));
  await settled(video);
  assert.equal(video.currentTime, 0.16);
  assert.deepEqual(heard.filter((type) => ['seeking', 'seeked'].includes(type)), ['seeking', 'seeked']);
});

test('small times are exact too, also near the middle of two ticks', () => {
  let seed = 7;
  for (let i = 0; i < 20_000; i += 1) {
    seed = (seed * 48271) % 2147483647;
    // near a half of a tick, and anywhere
    const near = (Math.trunc(seed / 1e3) + 0.5) / 141_120_000_000 + (i % 2 === 0 ? 0 : seed / 5e4);
    for (const double of [near, -near]) {
      const [numerator, denominator] = fraction(double);
      const ticks = ticksOf(double);
      assert.ok(2n * abs(ticks * denominator - numerator * SECOND) <= denominator, `${double}`);
      assert.equal(timeText(double), String(ticks));
    }
  }
});
