// One clock for elements and for the timers of a test.

import assert from 'node:assert/strict';
import test, { mock } from 'node:test';
import { Clock, control, settled } from '../src/index.mjs';
import { append, open, PICTURES } from './kit.mjs';
import { rangesOf, VIDEO } from './players.mjs';

async function playing(clock, count) {
  const { video, source } = await open({ clock });
  const buffer = source.addSourceBuffer(VIDEO);
  await append(buffer, PICTURES.init);
  for (let i = 0; i < count; i += 1) {
    buffer.timestampOffset = i * PICTURES.seconds;
    await append(buffer, PICTURES.segment);
  }
  await Promise.all([video.play(), settled(video)]);
  return { video, source, buffer };
}

// a test with mocked timers
function withTimers(name, body) {
  const skip = mock.timers === undefined && 'mock.timers came with node 20.4';
  test(name, { skip }, async () => {
    mock.timers.enable();
    try {
      await body(new Clock({ timers: mock.timers }));
    } finally {
      mock.timers.reset();
    }
  });
}

withTimers('timers and timeupdate come in the order of time', async (clock) => {
  const { video } = await playing(clock, 20);
  const heard = [];
  const at = () => Math.round(1000 * video.currentTime);
  setInterval(() => heard.push(`poll ${at()}`), 100);
  setTimeout(() => heard.push(`timeout ${at()}`), 255);
  video.addEventListener('timeupdate', () => heard.push(`timeupdate ${at()}`));
  await clock.advance(0.6);
  assert.deepEqual(heard, ['poll 100', 'poll 200', 'timeupdate 250', 'timeout 255', 'poll 300', 'poll 400',
    'timeupdate 500', 'poll 500', 'poll 600']);
  assert.ok(Math.abs(clock.now() - 0.6) < 1e-9);
});

withTimers('a player that polls appends in time, and seeks over a gap', async (clock) => {
  const { video, buffer } = await playing(clock, 3);
  let next = 4;
  const waits = [];
  video.addEventListener('waiting', () => waits.push(video.currentTime));
  setInterval(() => {
    const { buffered, currentTime } = video;
    const end = buffered.end(buffered.length - 1);
    if (!buffer.updating && end - currentTime < 0.2 && next < 10) {
      buffer.timestampOffset = next * PICTURES.seconds;
      buffer.appendBuffer(PICTURES.segment);
      next += 1;
    }
    for (let i = 0; i < buffered.length; i += 1) {
      const ahead = buffered.start(i) - currentTime;
      if (video.readyState < video.HAVE_FUTURE_DATA && ahead > 0 && ahead < 0.2) video.currentTime = buffered.start(i);
    }
  }, 20);
  await clock.advance(2);
  assert.deepEqual(rangesOf(video.buffered), [[0, 0.3], [0.4, 1]]);
  assert.equal(video.currentTime, 1);
  assert.deepEqual(waits, [0.3, 1]);
});

withTimers('a fetch that takes its time', async (clock) => {
  const { video, buffer } = await playing(clock, 1);
  const sleep = (milliseconds) => new Promise((keep) => { setTimeout(keep, milliseconds); });
  const arrivals = [];
  const load = (async () => {
    for (let i = 1; i < 4; i += 1) {
      await sleep(50);
      buffer.timestampOffset = i * PICTURES.seconds;
      await append(buffer, PICTURES.segment);
      arrivals.push(Math.round(1000 * clock.now()));
    }
  })();
  await clock.advance(0.5);
  await load;
  assert.deepEqual(arrivals, [50, 100, 150]);
  assert.equal(video.currentTime, 0.4);
});

withTimers('less than a millisecond can pass, and no timers', async (clock) => {
  const { video } = await playing(clock, 3);
  let called = 0;
  setInterval(() => { called += 1; }, 1);
  for (let i = 0; i < 4; i += 1) await clock.advance(0.00025);
  assert.equal(called, 1);
  assert.ok(Math.abs(video.currentTime - 0.001) < 1e-9);
  await clock.advance(0);
  assert.throws(() => clock.advance(-1), RangeError);
  assert.throws(() => clock.advance(Infinity), RangeError);
});

withTimers('the rhythm of an element goes with timers too', async (clock) => {
  const { video } = await playing(clock, 30);
  let heard = 0;
  video.addEventListener('timeupdate', () => { heard += 1; });
  control(video).timeupdateEvery(0.5);
  await clock.advance(2);
  assert.equal(heard, 4);
});

test('a clock without timers moves at once', async () => {
  const clock = new Clock();
  const { video } = await playing(clock, 3);
  assert.equal(clock.advance(0.2), undefined);
  assert.equal(video.currentTime, 0.2);
});
