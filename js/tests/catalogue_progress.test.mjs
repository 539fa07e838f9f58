// How far a catalogue has come: the bar and the lines.

import assert from 'node:assert/strict';
import test from 'node:test';
import { Progress, sizeText, timeText } from '../src/catalogue/progress.mjs';

/** A progress over a clock that is moved by hand, with what it put. */
function made(options) {
  const clock = { time: 0 }, put = [];
  const progress = new Progress({ put: (text) => put.push(text), now: () => clock.time, ...options });
  return { clock, put, progress };
}

const FILE = { size: 1_000_000, isFaulty: false, isUnread: false };

test('on a terminal a bar is drawn, at most ten times a second, no wider than it is', () => {
  const { clock, put, progress } = made({ all: { files: 100, bytes: 100_000_000 }, columns: 120 });
  for (let file = 0; file < 50; file++) {
    clock.time += 20;
    progress.add({ ...FILE, isFaulty: file % 10 === 0 });
  }
  assert.equal(put.length, 10);
  const bar = '[#########-----------] 46 of 100 files, 46.0 MB of 100.0 MB, 5 with a fault, 2 s left';
  assert.equal(put.at(-1), `\r${bar}\x1b[K`);
  progress.clear();
  assert.equal(put.at(-1), '\r\x1b[K');
  progress.end();
  assert.equal(put.at(-1), '\n');
  const widths = [
    [80, /^\[-{15}\] 1 of 100 .* left$/], [60, /^1 of 100 .*, 99 s le$/], [30, /^1 of 100 files, 1\.0 MB of 100$/],
  ];
  for (const [columns, form] of widths) {
    const narrow = made({ all: { files: 100, bytes: 100_000_000 }, columns });
    narrow.clock.time = 1000;
    narrow.progress.add(FILE);
    const line = narrow.put[0].replace('\r', '').replace('\x1b[K', '');
    assert.match(line, form);
    assert.ok(line.length < columns);
  }
});

test('elsewhere a plain line comes each ten seconds, and at the end', () => {
  const { clock, put, progress } = made({ all: { files: 1000, bytes: 1e9 } });
  for (let file = 0; file < 1000; file++) {
    clock.time += 30;
    progress.add({ ...FILE, isUnread: file === 3 });
  }
  progress.clear();
  progress.end();
  assert.equal(put.length, 3);
  assert.equal(put[0], '334 of 1,000 files, 334.0 MB of 1.0 GB, 0 with a fault, 1 not read, 20 s left\n');
  assert.equal(put[2], '1,000 of 1,000 files, 1.0 GB of 1.0 GB, 0 with a fault, 1 not read, in 30 s\n');
});

test('nothing to do is told too', () => {
  const { put, progress } = made({ all: { files: 0, bytes: 0 } });
  progress.end();
  assert.deepEqual(put, ['0 of 0 files, 0 bytes of 0 bytes, 0 with a fault, in 0 s\n']);
});

test('sizes and times are told in the greatest unit', () => {
  assert.deepEqual([0, 999, 1000, 999_949, 999_950, 6.7e9, 5e15].map(sizeText),
    ['0 bytes', '999 bytes', '1.0 kB', '999.9 kB', '1.0 MB', '6.7 GB', '5000.0 TB']);
  assert.deepEqual([0, 0.2, 99.5, 100, 5999, 6001].map(timeText), ['0 s', '1 s', '100 s', '2 min', '100 min', '2 h']);
});
