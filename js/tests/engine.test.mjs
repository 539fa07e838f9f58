// mseplay/engine: bad use, memory, and where the module comes from. The cases are in cases.test.mjs.

import assert from 'node:assert/strict';
import { readFileSync } from 'node:fs';
import test from 'node:test';
import { fileURLToPath } from 'node:url';
import { setFlagsFromString } from 'node:v8';
import { runInNewContext } from 'node:vm';
import * as engine from '../src/engine.mjs';
import { Instance } from '../src/engine/instance.mjs';
import { sessionsOver } from '../src/engine/session.mjs';
import { read } from './cases.mjs';

const { load, run, Session } = engine;
const MODULE = new URL('../mseplay.wasm', import.meta.url);
const PLAIN = read('plain.mp4');
const SECOND = 141_120_000_000n;

const ownInstance = () => new Instance(new WebAssembly.Module(readFileSync(MODULE)));

/** A session with an open source, a buffer, and plain.mp4 as blob 0. */
function opened(options) {
  const session = new Session(options);
  for (const line of ['attach', 'add video/mp4', 'drain']) session.step(line);
  session.give(PLAIN);
  return session;
}

/** The block before and behind something that is refused by name: the same. */
function refuses(session, name, attempt) {
  const before = session.block();
  assert.throws(attempt, { name });
  assert.deepEqual(session.block(), before);
}

test('a session answers what a page reads', () => {
  const session = opened();
  assert.deepEqual(session.step('append 0 0'), { lines: ['call append 0 0: done'], refused: null });
  assert.equal(session.next(), 'fire');
  session.step('fire');
  assert.equal(session.next(), 'work 0');
  assert.equal(session.buffer(0).updating, true);
  session.step('drain');
  session.step('offset 0 -1/2');
  session.step('duration nan');
  session.step('seek 1/20');
  assert.equal(session.next(), 'fire');
  const range = { start: 0n, end: SECOND / 10n };
  assert.deepEqual(session.attributes(), {
    readyState: 'open', duration: Infinity, level: 3, position: SECOND / 20n, startPosition: 0n, paused: true,
    seeking: true, ended: false, error: 0, seekable: range, buffered: [range], made: 1, fault: null,
  });
  assert.deepEqual(session.buffer(0), {
    updating: false, active: true, mode: 'segments', timestampOffset: -SECOND / 2n, appendWindowStart: 0n,
    appendWindowEnd: Infinity, phase: 'waiting', held: 0, used: 12, ranges: [range],
    tracks: [{ id: 1, kind: 'video', codec: 'avc1', frames: 3, ranges: [range] }],
  });
  assert.equal(session.buffer(1), null);
  assert.equal(session.step('mode 0 sequence').refused, null);
  assert.equal(session.step('removebuffer 7').refused, 'NoSuchBuffer');
  assert.equal(session.step('append 0 0 0 9999').refused, 'NoSuchBytes');
  session.close();
});

test('a fault has its number, its place and the box that is missing', () => {
  const session = opened();
  session.step(`append 0 ${session.give(read('no-tfdt.mp4'))}`);
  session.step('drain');
  const { number, missing, buffer, offset } = session.attributes().fault;
  assert.deepEqual({ number, missing, buffer, offset }, { number: 10, missing: null, buffer: 0, offset: 595 });
});

test('many ranges and tracks come whole', () => {
  const session = opened({ quota: 1n << 30n });
  const [steps, ranges] = [300, []];
  for (let i = 0; i < steps; i++) {
    session.step(`offset 0 ${2 * i}/1`);
    session.step('append 0 0');
    session.step('drain');
    const start = BigInt(2 * i) * SECOND;
    ranges.push({ start, end: start + SECOND / 10n });
  }
  const found = session.buffer(0);
  assert.deepEqual(found.ranges, ranges);
  assert.deepEqual(found.tracks[0].ranges, ranges);
  assert.deepEqual(session.attributes().buffered, ranges);
  const { lines } = session.step('buffered 0');
  assert.equal(lines.length, 1);
  assert.equal(lines[0].match(/\[/g).length, steps);
});

test('bad use is refused by name and loses nothing', () => {
  const session = opened();
  for (const bytes of [undefined, null, 'abc', [1, 2], 7, {}]) {
    refuses(session, 'ArgumentError', () => session.give(bytes));
  }
  for (const line of [undefined, 7, null, ['attach']]) refuses(session, 'ArgumentError', () => session.step(line));
  for (const line of ['', 'atach', 'attach ', 'seek 1.5', 'seek é', 'attach\n', 'x'.repeat(100_000)]) {
    refuses(session, 'LineError', () => session.step(line));
  }
  for (const number of [-1, 1.5, '0', 2 ** 32, undefined]) {
    refuses(session, 'ArgumentError', () => session.buffer(number));
  }
  for (const before of [-1, NaN, 'all']) refuses(session, 'ArgumentError', () => session.forget(before));
  assert.throws(() => session.step('atach'), { line: 'atach' });
  session.forget(1);
  for (const line of ['append 0 0', 'append 0 9']) refuses(session, 'BytesError', () => session.step(line));
  for (const options of [{ quota: 0 }, { quota: 2 ** 41 }, { gap: -1 }, { gap: 0.5 }, { quota: '1' }]) {
    assert.throws(() => new Session(options), { name: 'ArgumentError' });
  }
});

test('a closed session says so', () => {
  const session = opened();
  session.close();
  session.close();
  const calls = ['give', 'forget', 'step', 'next', 'attributes', 'buffer', 'block'];
  for (const call of calls) assert.throws(() => session[call](call === 'give' ? PLAIN : 0), { name: 'ClosedError' });
});

test('bytes are taken from any buffer', () => {
  const session = opened();
  const inner = new Uint8Array(PLAIN.length + 8);
  inner.set(PLAIN, 4);
  const view = new DataView(inner.buffer, 4, PLAIN.length);
  const shared = new Uint8Array(new SharedArrayBuffer(PLAIN.length));
  shared.set(PLAIN);
  const empty = new Uint16Array(0);
  for (const bytes of [view, inner.slice(4, -4).buffer, shared, shared.buffer, empty]) {
    session.step(`append 0 ${session.give(bytes)}`);
    session.step('drain');
  }
  assert.equal(session.attributes().fault, null);
  assert.equal(session.buffer(0).used, 12);
});

test('run takes words and files, and refuses what is none', () => {
  const wanted = run(['ranges', 'a'], { a: PLAIN });
  assert.equal(wanted.status, 0);
  assert.equal(wanted.text, new TextDecoder().decode(wanted.bytes));
  assert.deepEqual(run(['ranges', 'a'], new Map([['a', PLAIN]])).bytes, wanted.bytes);
  assert.equal(run(['play', 's'], { s: 'steps = ["attach"]\n' }).status, 0);
  assert.deepEqual([run(['ranges', 'a']).status, run(['ranges', 'a']).text], [8, 'error: no file a\n']);
  assert.deepEqual([run([]).status, run([]).text], [1, 'error: words\n']);
  for (const words of [undefined, 'ranges a', [1]]) assert.throws(() => run(words, {}), { name: 'ArgumentError' });
  for (const files of [null, 'a', { a: 7 }, { a: undefined }, new Map([[1, PLAIN]])]) {
    assert.throws(() => run(['ranges', 'a'], files), { name: 'ArgumentError' });
  }
});

test('what is printed is whole where it is long', () => {
  const { status, bytes, text } = run(['feed', '0', 'a'], { a: read('groups.mp4') });
  assert.equal(status, 0);
  assert.equal(bytes.length, text.length);
  const steps = Array.from({ length: 20_000 }, () => '"state",');
  const long = run(['play', 's'], { s: `steps = [${steps.join('\n')}]` });
  assert.equal(long.text.match(/^call state: source closed /gm).length, 20_000);
});

test('a module is loaded from a path, a URL, bytes, or compiled', async () => {
  const bytes = readFileSync(MODULE);
  const places = [fileURLToPath(MODULE), MODULE, MODULE.href];
  const sources = [...places, bytes, new Uint8Array(bytes).buffer, new WebAssembly.Module(bytes)];
  for (const source of sources) {
    const other = await load(source);
    assert.equal(other.run(['make', '1'], {}).status, 0);
    assert.equal(new other.Session().step('attach').refused, null);
  }
});

test('a module that cannot be loaded is refused by name', async () => {
  const empty = Uint8Array.of(0, 0x61, 0x73, 0x6d, 1, 0, 0, 0);
  for (const source of ['lost.wasm', new URL('lost.wasm', import.meta.url), Uint8Array.of(1, 2, 3), empty]) {
    await assert.rejects(load(source), { name: 'ModuleError' });
  }
  for (const source of [undefined, 7, {}]) await assert.rejects(load(source), { name: 'ArgumentError' });
});

test('memory that a session took is used by the next', () => {
  const instance = ownInstance();
  const Own = sessionsOver(() => instance);
  const live = () => {
    const session = new Own();
    session.give(new Uint8Array(8 << 20));
    for (let i = 0; i < 200; i++) session.give(PLAIN);
    session.close();
  };
  live();
  const size = instance.memory.buffer.byteLength;
  for (let i = 0; i < 20; i++) live();
  assert.equal(instance.memory.buffer.byteLength, size);
});

test('a session that is garbage is freed', async () => {
  const instance = ownInstance();
  const Own = sessionsOver(() => instance);
  setFlagsFromString('--expose-gc');
  const collect = runInNewContext('gc');
  let largest = 0;
  for (let round = 0; round < 30; round++) {
    new Own().give(new Uint8Array(8 << 20));
    collect();
    await new Promise((keep) => { setTimeout(keep, 5); });
    largest = Math.max(largest, instance.memory.buffer.byteLength);
  }
  assert.ok(largest < 100 << 20, `${largest} bytes, and 30 sessions took 8 MiB each`);
});

test('want of memory is told by name, and what was there stays', () => {
  const instance = ownInstance();
  const Own = sessionsOver(() => instance);
  const session = new Own();
  session.step('attach');
  const before = session.block();
  // the most that a memory may have, so that the engine gets no more
  instance.memory.grow(65_536 - instance.memory.buffer.byteLength / 65_536);
  assert.throws(() => session.give(new Uint8Array(16 << 20)), { name: 'OutOfMemoryError' });
  assert.deepEqual(session.block(), before);
  assert.equal(session.give(PLAIN), 0);
  session.close();
});

test('where a call stopped in the middle, the sessions of its memory end by name', () => {
  const instance = ownInstance();
  const Own = sessionsOver(() => instance);
  const session = new Own();
  assert.throws(() => instance.call('mseplay_close', 0xffff_fff0), { name: 'EngineStoppedError' });
  assert.throws(() => session.step('attach'), { name: 'EngineStoppedError' });
  assert.throws(() => new Own(), { name: 'EngineStoppedError' });
  session.close();
  assert.equal(new Session().step('attach').refused, null);
});

