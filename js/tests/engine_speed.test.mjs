// How long the engine takes. The bounds leave room for a machine that does other things.

import assert from 'node:assert/strict';
import { spawnSync } from 'node:child_process';
import test from 'node:test';
import { run, Session } from '../src/engine.mjs';
import { read } from './cases.mjs';

const PLAIN = read('plain.mp4');
const INIT = PLAIN.subarray(0, 595);
const SEGMENT = PLAIN.subarray(595);
/** A sample of the file below has so many bytes. */
const SAMPLE = 40;

/** Seconds of the processor that a function takes. */
function seconds(work) {
  const before = process.cpuUsage();
  work();
  const { user, system } = process.cpuUsage(before);
  return (user + system) / 1e6;
}

function append(count) {
  const session = new Session();
  for (const line of ['attach', 'add video/mp4', `append 0 ${session.give(INIT)}`, 'drain']) session.step(line);
  for (let i = 0; i < count; i++) {
    session.step(`append 0 ${session.give(SEGMENT)}`);
    session.step('drain');
    session.step('buffered 0');
    session.forget(i);
  }
  session.close();
}

test('from nothing to the answer of a first call', (t) => {
  const url = new URL('../src/engine.mjs', import.meta.url).href;
  const code = `const before = process.cpuUsage();
    const { run } = await import('${url}');
    const loaded = process.cpuUsage(before);
    run(['make', '1']);
    const done = process.cpuUsage(before);
    console.log(loaded.user + loaded.system, done.user + done.system);`;
  const rows = Array.from({ length: 3 }, () => {
    const { stdout } = spawnSync(process.execPath, ['--input-type=module', '-e', code], { encoding: 'utf8' });
    return stdout.split(' ').map((text) => Number(text) / 1000);
  });
  const [loaded, done] = [0, 1].map((i) => Math.min(...rows.map((row) => row[i])));
  t.diagnostic(`${loaded.toFixed(1)} ms of the processor until it is loaded, ${done.toFixed(1)} ms until it answered`);
  assert.ok(loaded < 60 && done < 120);
});

test('a thousand and ten thousand awaited appends of three frames', (t) => {
  const [thousand, more] = [1000, 10_000].map((count) => seconds(() => append(count)));
  t.diagnostic(`${thousand.toFixed(2)} s and ${more.toFixed(2)} s of the processor`);
  assert.ok(thousand < 2 && more < 8, `${thousand} ${more}`);
});

/** A box. */
function box(type, ...parts) {
  const payload = Buffer.concat(parts);
  const head = Buffer.alloc(8);
  head.writeUInt32BE(8 + payload.length);
  head.write(type, 4, 'latin1');
  return Buffer.concat([head, payload]);
}

const words = (...numbers) => Buffer.concat(numbers.map((n) => Buffer.from([n >>> 24, n >>> 16, n >>> 8, n])));

/** A media segment of a hundred samples of 3,000 units, the first of which is a random access point. */
function segment(number) {
  const count = 100;
  const samples = Array.from({ length: count }, (_, i) => [3000, SAMPLE, i % 10 === 0 ? 0x2000000 : 0x1010000]).flat();
  const moof = (offset) => box('moof', box('mfhd', words(0, number + 1)), box('traf', box('tfhd', words(0x20000, 1)),
    box('tfdt', words(0, number * count * 3000)), box('trun', words(0x701, count, offset), words(...samples))));
  return Buffer.concat([moof(moof(0).length + 8), box('mdat', Buffer.alloc(count * SAMPLE))]);
}

test('ranges of 300,000 samples', (t) => {
  const file = Buffer.concat([INIT, ...Array.from({ length: 3000 }, (_, i) => segment(i))]);
  let text;
  const took = seconds(() => ({ text } = run(['ranges', 'a'], { a: file })));
  assert.match(text, /^track 0 1 video avc1 frames 300000 ranges \[0,1411200000000000\)$/m);
  t.diagnostic(`${took.toFixed(2)} s of the processor`);
  assert.ok(took < 4, `${took}`);
});
