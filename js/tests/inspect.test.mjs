// `mseplay inspect`: the table of segments, and what is wrong in files and where.

import assert from 'node:assert/strict';
import { spawnSync } from 'node:child_process';
import { mkdtempSync, rmSync, writeFileSync } from 'node:fs';
import { tmpdir } from 'node:os';
import { join } from 'node:path';
import test from 'node:test';
import { run, Session } from '../src/engine.mjs';
import { faultHelp } from '../src/front/faults.mjs';
import { inspect } from '../src/inspect/files.mjs';
import { bytesSource } from '../src/inspect/reader.mjs';
import { example } from './kit.mjs';

const PROGRAM = new URL('../bin/mseplay.mjs', import.meta.url).pathname;
const DATA = new URL('../../crates/case_runs/data/', import.meta.url).pathname;

function called(words, folder = DATA) {
  const options = { cwd: folder, encoding: 'utf8' };
  const { status, stdout, stderr } = spawnSync(process.execPath, [PROGRAM, ...words], options);
  return { status, lines: stdout.split('\n').slice(0, -1), help: stderr };
}

const inspected = (name) => inspect({ run, Session }, [bytesSource(name, example(name))], { help: faultHelp });

test('a row for each segment and track, and a sentence on the gap', () => {
  const { status, lines } = called(['inspect', 'gap.mp4']);
  assert.equal(status, 0);
  assert.match(lines[0], /^segment +file and offset +bytes +boxes +track +added/);
  assert.equal(lines.filter((line) => / @ /.test(line)).length, 3);
  assert.match(lines[6], /2 audio mp4a +0\.149333 – 0\.256 +6 → 11 \(has 5\) +gap of 1 frame \(21\.333 ms\)$/);
  assert.match(lines.at(-1), /^Segment 2, at byte 1,328 of gap\.mp4, begins 1 frame \(21\.333 ms\) late/);
});

test('a fault is told at its place, with what to look at, and the status is 9', () => {
  const { status, lines } = called(['inspect', 'base-offset.mp4']);
  assert.equal(status, 9);
  assert.match(lines.at(-1), /^base-offset\.mp4 breaks its format at byte 595 \(0x253\), fault 10 Moof BaseOffset: /);
  assert.match(lines.at(-1), / Look at: flag 0x1 of tfhd/);
});

test('behind a fault the segments are told, and not read', async () => {
  const [groups, faulty] = [example('groups.mp4'), example('base-offset.mp4')];
  const bytes = Buffer.concat([groups.subarray(0, 827), faulty.subarray(595), groups.subarray(827)]);
  const sources = [bytesSource('joined.mp4', bytes)];
  const { rows, sentences, inspection } = await inspect({ run, Session }, sources, { help: faultHelp });
  assert.deepEqual(rows.map((row) => row.kind), ['init', 'media', 'media', 'media', 'media']);
  assert.deepEqual(rows.map((row) => row.isRead), [true, true, true, false, false]);
  assert.deepEqual([rows[2].fault.number, rows[2].fault.at, sentences[0].at], [10, 827, 827]);
  assert.equal(rows.at(-1).to, bytes.length);
  inspection.close();
});

test('files are read piece by piece, in the order of their names', () => {
  const folder = mkdtempSync(join(tmpdir(), 'mseplay-inspect-'));
  try {
    const groups = example('groups.mp4');
    const parts = {
      'init.mp4': [0, 631], 'seg-2.m4s': [827, 1023], 'seg-10.m4s': [1023, 1219], 'seg-1.m4s': [631, 827],
    };
    for (const [name, [from, to]] of Object.entries(parts)) {
      writeFileSync(join(folder, name), groups.subarray(from, to));
    }
    const { status, lines } = called(['inspect', ...Object.keys(parts)], folder);
    assert.equal(status, 0);
    const files = lines.flatMap((line) => /(\S+) @ 0/.exec(line)?.[1] ?? []);
    assert.deepEqual(files, ['init.mp4', 'seg-1.m4s', 'seg-2.m4s', 'seg-10.m4s']);
    assert.match(lines.at(-1), /^Nothing is wrong: 15 frames of pictures from 0 s to 0\.6 s/);
  } finally {
    rmSync(folder, { recursive: true });
  }
});

test('what it is called with is said where it is wrong', () => {
  assert.equal(called(['inspect']).status, 1);
  assert.match(called(['inspect']).help, /^inspect is called with FILE\.\./);
  assert.equal(called(['inspect', 'absent.mp4']).status, 8);
  assert.match(called(['inspect', 'absent.mp4']).help, /^absent\.mp4: ENOENT/);
  assert.match(called(['--help']).help, /or, which the native program does not have,\n {2}inspect FILE\.\./);
});

test('what a row adds is what the block has', async () => {
  for (const name of ['gap.mp4', 'groups.mp4', 'stream-copy.mp4', 'audio.mp4', 'late.mp4']) {
    const { rows, inspection } = await inspected(name);
    const block = run(['ranges', name], { [name]: example(name) }).text;
    for (const [, id, frames, told] of block.matchAll(/^track 0 (\d+) \S+ \S+ frames (\d+) ranges (.*)$/gm)) {
      const tracks = rows.flatMap((row) => row.tracks.filter((track) => track.id === Number(id)));
      assert.equal(tracks.at(-1).after, Number(frames), name);
      const added = tracks.flatMap((track) => track.added).reduce((sum, [from, to]) => sum + to - from, 0n);
      const ranges = [...told.matchAll(/\[(-?\d+),(-?\d+)\)/g)];
      const wanted = ranges.reduce((sum, [, from, to]) => sum + BigInt(to) - BigInt(from), 0n);
      assert.equal(added, wanted, name);
    }
    inspection.close();
  }
});

test('the script of what was done is played with the same lines', async () => {
  for (const name of ['gap.mp4', 'stream-copy.mp4', 'size-zero.mp4']) {
    const { inspection } = await inspected(name);
    const { steps, keys, lines } = inspection;
    const script = `quota = ${keys.quota}\nblobs = ["file ${name}"]\nsteps = ${JSON.stringify(steps)}\n`;
    const { status, text } = run(['play', 'script.toml'], { 'script.toml': script, [name]: example(name) });
    assert.equal(status, 0);
    assert.deepEqual(text.split('\n').slice(0, -1), [...lines, ...inspection.block()]);
    inspection.close();
  }
});

// numbers that look drawn, the same each time
function drawing(seed) {
  let state = seed;
  return (below) => {
    state = (Math.imul(state, 1103515245) + 12345) & 0x7fffffff;
    return state % below;
  };
}

function spoiled(bytes, draw) {
  const at = draw(bytes.length);
  if (draw(3) === 0) return bytes.subarray(0, at);
  if (draw(2) === 0) return Buffer.concat([bytes.subarray(0, at), bytes.subarray(at + draw(40))]);
  const spoilt = Buffer.from(bytes);
  for (let i = 0; i <= draw(6); i++) spoilt[draw(bytes.length)] = [0, 1, 8, 128, 255][draw(5)];
  return spoilt;
}

test('of spoiled files each byte has its row, and something is said', async () => {
  const draw = drawing(1);
  const files = ['gap.mp4', 'groups.mp4', 'stream-copy.mp4', 'priming.mp4', 'late.mp4'].map(example);
  for (let count = 0; count < 500; count++) {
    const bytes = spoiled(files[draw(files.length)], draw);
    const sources = [bytesSource('spoiled.mp4', bytes)];
    const { rows, sentences, classic, inspection } = await inspect({ run, Session }, sources);
    inspection.close();
    assert.ok(sentences.length > 0 && sentences.every(({ text }) => !/undefined|NaN|null/.test(text)));
    if (classic.length > 0) continue;
    assert.deepEqual(rows.map(({ from }) => from), [0, ...rows.map(({ to }) => to)].slice(0, rows.length));
    assert.equal(rows.at(-1)?.to ?? 0, bytes.length);
  }
});
