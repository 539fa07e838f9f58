// How long a test of a player takes. The limits are three times what is promised, for slow machines.

import assert from 'node:assert/strict';
import test from 'node:test';
import { Clock, HTMLVideoElement, settled } from '../src/index.mjs';
import { append, open, PICTURES, PLAIN } from './kit.mjs';
import { Player, rangesOf, VIDEO } from './players.mjs';

const SLOW = 3;

// the seconds of the processor that this process takes for some work, which others on the machine do not change much
async function secondsOf(work) {
  const before = process.cpuUsage();
  await work();
  const { user, system } = process.cpuUsage(before);
  return (user + system) / 1e6;
}

async function appendAwaited(count) {
  const { video, source } = await open();
  const buffer = source.addSourceBuffer(VIDEO);
  await append(buffer, PICTURES.init);
  const seconds = await secondsOf(async () => {
    for (let i = 0; i < count; i += 1) {
      buffer.timestampOffset = i * PICTURES.seconds;
      await append(buffer, PICTURES.segment);
    }
  });
  assert.deepEqual(rangesOf(video.buffered), [[0, count * PICTURES.seconds]]);
  return seconds;
}

for (const [count, most] of [[1_000, 0.4], [10_000, 2]]) {
  test(`${count} awaited appends of three frames take at most ${most} s`, async (context) => {
    const seconds = await appendAwaited(count);
    context.diagnostic(`${count} appends took ${seconds.toFixed(2)} s of the processor`);
    assert.ok(seconds <= SLOW * most, `${seconds} s`);
  });
}

test('150 segments with 1200 ticks of a clock take at most a second', async (context) => {
  const [segments, ticks] = [150, 1200];
  const clock = new Clock();
  const video = new HTMLVideoElement({ clock });
  let heard = 0;
  video.addEventListener('timeupdate', () => { heard += 1; });
  const seconds = await secondsOf(async () => {
    const player = new Player(video, segments, PLAIN);
    video.play();
    await settled(video);
    assert.equal(player.next, segments);
    for (let i = 0; i < ticks; i += 1) {
      clock.advance((segments * PICTURES.seconds) / ticks);
      await settled(video);
    }
  });
  assert.ok(video.ended || video.currentTime > segments * PICTURES.seconds - 0.1, `${video.currentTime}`);
  assert.ok(heard >= ticks - 1, `${heard}`);
  context.diagnostic(`${segments} segments and ${ticks} ticks took ${seconds.toFixed(2)} s of the processor`);
  assert.ok(seconds <= SLOW * 1, `${seconds} s`);
});
