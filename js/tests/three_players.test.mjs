// Three players, each unchanged on this package in node and on Chromium's own MediaSource.

import assert from 'node:assert/strict';
import { readFileSync } from 'node:fs';
import { cpus, loadavg } from 'node:os';
import test, { mock } from 'node:test';
import { chromium, openPage } from './chromium.mjs';
import { Clock, control } from '../src/index.mjs';
import { register } from '../src/register.mjs';
import { RUNS } from './three/runs.mjs';

const TRIES = 3;
const MEDIA = { plain: 'plain.mp4', late: 'late.mp4', opus: 'priming.mp4', sound: 'sound.aac' };
const row = (name) => new Uint8Array(readFileSync(new URL(`../../clients/rows/${name}`, import.meta.url)));
const skipHere = mock.timers === undefined && 'mock.timers came with node 20.4';
const skipThere = skipHere || (chromium === undefined && 'no Chromium here: it is in the Debian package chromium');

async function runHere(name) {
  mock.timers.enable();
  const clock = new Clock({ timers: mock.timers });
  const unregister = register({ clock, gap: 0.033, startTolerance: 0.1 });
  try {
    const video = document.createElement('video');
    return await RUNS[name]({
      ...Object.fromEntries(Object.entries(MEDIA).map(([key, file]) => [key, row(file)])),
      video,
      pass: (seconds) => clock.advance(seconds),
      refuse: (buffer) => control(video).refuseAppends(buffer, 1),
      breakDecoder: () => control(video).decodeErrorAt(0),
    });
  } finally {
    unregister();
    mock.timers.reset();
  }
}

// the same in the page, on what is there
async function runInPage(name, media) {
  const { RUNS: runs } = await import('/js/tests/three/runs.mjs');
  const files = await Promise.all(Object.entries(media).map(async ([key, file]) => {
    const response = await fetch(`/clients/rows/${file}`);
    return [key, new Uint8Array(await response.arrayBuffer())];
  }));
  const video = document.createElement('video');
  document.body.append(video);
  return runs[name]({
    ...Object.fromEntries(files),
    video,
    pass: (seconds) => new Promise((keep) => { setTimeout(keep, 1000 * seconds); }),
    refuse: (buffer) => {
      buffer.appendBuffer = () => {
        delete buffer.appendBuffer;
        throw new DOMException('the test asked for it', 'QuotaExceededError');
      };
    },
    breakDecoder: (_, source) => source.endOfStream('decode'),
  });
}

async function runThere(name) {
  const page = await openPage();
  try {
    return await page.evaluate(`(${runInPage})(${JSON.stringify(name)}, ${JSON.stringify(MEDIA)})`);
  } finally {
    await page.close();
  }
}

// the lines of a log by the target that they are of
function byTarget(log) {
  const lists = {};
  for (const line of log) {
    const [name] = line.match(/^(element|source( \d+)?|list|active|pictures|sound|buffer \d+|.*)/);
    (lists[name] ??= []).push(line);
  }
  return lists;
}

// Whether ranges are the same to a thousandth of a second. `isKnown` tells of a difference that BROWSERS.md has.
function compareRanges(here, there, isKnown = () => false) {
  assert.equal(there.length, here.length, JSON.stringify([here, there]));
  here.flat().forEach((time, i) => {
    const other = there.flat()[i];
    assert.ok(Math.abs(time - other) <= 1 || isKnown(time, other), JSON.stringify([here, there]));
  });
}

const COMPARE = {
  chained(here, there) {
    here.buffered.forEach((ranges, i) => compareRanges(ranges, there.buffered[i]));
    assert.equal(there.jumps.length, here.jumps.length);
    here.jumps.forEach(([from, to], i) => {
      // where playback stood at a moment cannot be compared (BROWSERS.md, "What plays")
      assert.ok(Math.abs(from - there.jumps[i][0]) <= 2 && to === there.jumps[i][1], JSON.stringify(there.jumps));
    });
    assert.equal(there.failure, here.failure);
  },
  promised(here, there) {
    assert.equal(there.failure, here.failure);
    compareRanges(here.buffered[0], there.buffered[0]);
    // BROWSERS.md, "Sound whose priming is no whole number of frames": Opus begins at 0.0135 s
    compareRanges(here.buffered[1], there.buffered[1], (time, other) => time === 14 && other === 0);
  },
  lossy(here, there) {
    compareRanges(here.buffered, there.buffered);
    assert.deepEqual(there.state, here.state);
  },
};

function compare(name, here, there) {
  const [ofHere, ofThere] = [here, there].map(({ log }) => byTarget(log));
  for (const target of new Set([...Object.keys(ofHere), ...Object.keys(ofThere)])) {
    assert.deepEqual(ofThere[target], ofHere[target], target);
  }
  COMPARE[name](here, there);
}

// whether the machine has much more to do than processors for it
const isBusy = () => loadavg()[0] > 2 * cpus().length;

// what each player comes to on this package
const EXPECTED = {
  chained: {
    jumps: [[47, 60]],
    failure: null,
    buffered: [[[4000, 4693], [6000, 8347]], [[4000, 5000], [6000, 8000]], [[1003, 4693], [6000, 8347]]],
  },
  promised: { failure: null, buffered: [[[1000, 4000]], [[14, 4520]]] },
  lossy: { buffered: [[0, 3000]], state: [0, 0, true, 0, null] },
};
const LINES = {
  chained: ['pictures is full', 'pictures append 7', 'sound remove up to 1', 'source sourceended', 'element ended'],
  promised: ['pictures ad 0', 'sound change to audio/aac', 'element ended', 'element seeked', 'source sourceclose'],
  lossy: ['part 2: the network is lost', 'recovers from 3', 'lost its source', 'source 3 sourceclose'],
};

for (const name of Object.keys(RUNS)) {
  test(`the player of ${name} on this package`, { skip: skipHere }, async () => {
    const { log, ...result } = await runHere(name);
    assert.deepEqual(result, EXPECTED[name]);
    for (const line of LINES[name]) assert.ok(log.includes(line), line);
  });

  test(`the player of ${name} on Chromium does the same`, { skip: skipThere }, async (context) => {
    const here = await runHere(name);
    // time passes in a browser as it will: what comes late may come in another order
    for (let left = TRIES - 1; ; left -= 1) {
      try {
        compare(name, here, await runThere(name));
        return;
      } catch (error) {
        if (left === 0 && !isBusy()) throw error;
        context.diagnostic(`tried again: ${error.message}`);
      }
      if (left === 0) {
        context.skip('the machine is too busy for a browser to play in time');
        return;
      }
    }
  });
}
