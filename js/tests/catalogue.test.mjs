// `mseplay inspect` of many files, each by itself.

import assert from 'node:assert/strict';
import { spawn, spawnSync } from 'node:child_process';
import { once } from 'node:events';
import {
  copyFileSync, existsSync, mkdirSync, mkdtempSync, readdirSync, readFileSync, rmSync, symlinkSync,
  writeFileSync,
} from 'node:fs';
import { tmpdir } from 'node:os';
import { join } from 'node:path';
import { setTimeout as wait } from 'node:timers/promises';
import test, { after, before } from 'node:test';
import { fileURLToPath } from 'node:url';
import { run } from '../src/engine.mjs';
import { asJSON } from '../src/front/lines.mjs';

const PROGRAM = fileURLToPath(new URL('../bin/mseplay.mjs', import.meta.url));
const DATA = fileURLToPath(new URL('../../crates/case_runs/data/', import.meta.url));
const SOME = ['gap.mp4', 'plain.mp4', 'base-offset.mp4', 'classic.mp4', 'groups.mp4', 'stream-copy.mp4'];
let folder;

before(() => {
  folder = mkdtempSync(join(tmpdir(), 'mseplay-catalogue-'));
  for (const name of SOME) copyFileSync(join(DATA, name), join(folder, name));
});

after(() => rmSync(folder, { recursive: true }));

function called(words, { cwd = folder, input = '' } = {}) {
  const options = { cwd, encoding: 'utf8', input, maxBuffer: 1 << 28 };
  const { status, stdout, stderr } = spawnSync(process.execPath, [PROGRAM, 'inspect', ...words], options);
  return { status, lines: stdout.split('\n').slice(0, -1), help: stderr };
}

const jsonOf = ({ lines }) => lines.map((line) => JSON.parse(line));
const sorted = (bytes) => bytes.toString().split('\n').sort().join('\n');

/** A folder with copies of all media of the examples, so many of each. */
function manyFiles(copies) {
  const place = mkdtempSync(join(folder, 'many-'));
  for (let copy = 0; copy < copies; copy++) {
    for (const name of readdirSync(DATA)) {
      if (name.endsWith('.mp4')) copyFileSync(join(DATA, name), join(place, `${copy}-${name}`));
    }
  }
  return place;
}

test('a line of JSON for each file says what the engine holds', () => {
  const { status, lines } = called(['--json', ...SOME]);
  assert.equal(status, 9);
  const found = new Map(lines.map((line) => [JSON.parse(line).file, JSON.parse(line)]));
  assert.deepEqual([...found.keys()].sort(), [...SOME].sort());
  for (const name of SOME) {
    const bytes = readFileSync(join(DATA, name)), line = found.get(name);
    const { text } = run(['ranges', name], { [name]: bytes });
    const told = text.split('\n').slice(0, -1).map((one) => JSON.parse(asJSON(one)));
    const of = (key) => told.filter((one) => key in one);
    assert.deepEqual(line.tracks.map(({ track, frames, ranges }) => ({ track, frames, ranges })),
      of('track').map(({ track, frames, ranges }) => ({ track, frames, ranges })), name);
    assert.deepEqual([line.duration, line.ranges], [of('duration')[0].duration, of('buffered')[0].buffered]);
    assert.equal(line.bytes, bytes.length);
    const [{ fault, name: called, offset } = {}] = of('fault');
    assert.deepEqual([line.fault?.fault, line.fault?.name, line.fault?.offset], [fault, called, offset]);
  }
});

test('gaps, lost frames, codecs and faults have their segment and offset', () => {
  const found = Object.fromEntries(jsonOf(called(['--json', '--jobs', '2', ...SOME])).map((line) => [line.file, line]));
  const gap = found['gap.mp4'];
  assert.deepEqual(gap.gaps, [{ segment: 2, offset: 1328, track: 2, from: '18063360000', to: '21073920000' }]);
  assert.deepEqual(gap.tracks.map(({ codec, codecs }) => [codec, codecs]), [['avc1', 'avc1'], ['mp4a', 'mp4a.40.2']]);
  assert.deepEqual(gap.wrong, ['gap']);
  assert.match(gap.says[0], /^Segment 2, at byte 1,328 of gap\.mp4, begins 1 frame/);
  const lost = { segment: 1, offset: 631, track: 1, unsynced: 0, early: 5, replaced: 0, other: 0 };
  assert.deepEqual(found['stream-copy.mp4'].lost, [lost]);
  assert.deepEqual(found['base-offset.mp4'].fault, { fault: 10, name: 'Moof BaseOffset', offset: 595, segment: 1 });
  assert.deepEqual([found['classic.mp4'].classic, found['classic.mp4'].fault.name], [true, 'Init NoMvex']);
  assert.deepEqual([found['plain.mp4'].classic, found['plain.mp4'].segments, found['plain.mp4'].wrong], [false, 1, []]);
});

test('--remux inspects what remux makes of classic files', () => {
  const [line] = jsonOf(called(['--remux', '--json', 'classic.mp4']));
  const { bytes } = run(['remux', 'a'], { a: readFileSync(join(DATA, 'classic.mp4')) });
  assert.deepEqual([line.classic, line.remux, line.fault], [true, { bytes: bytes.length }, null]);
  assert.deepEqual(line.ranges, [['0', '14112000000']]);
  const bad = called(['--remux', '--json', join(DATA, 'media/classic-outside.mp4')]);
  const [{ remux }] = jsonOf(bad);
  const { text } = run(['remux', 'a'], { a: readFileSync(join(DATA, 'media/classic-outside.mp4')) });
  assert.equal(`fault ${remux.fault} ${remux.name} at ${remux.offset}\n`, text);
  assert.equal(bad.status, 9);
});

test('--seconds tells times as seconds, before the command too', () => {
  const [line] = jsonOf(called(['--json', '--seconds', 'gap.mp4']));
  assert.deepEqual([line.ranges[0], line.gaps[0].to], [['0', '0.128'], '0.149333333']);
  const words = ['--json', '--seconds', 'inspect', 'gap.mp4'];
  const front = spawnSync(process.execPath, [PROGRAM, ...words], { cwd: folder, encoding: 'utf8' });
  assert.deepEqual(JSON.parse(front.stdout), line);
});

test('what cannot be read is a line like any other, and the status says whether there was one', () => {
  mkdirSync(join(folder, 'empty'));
  const unread = called(['--json', 'lost.mp4', 'plain.mp4', '/dev/null']);
  const found = Object.fromEntries(jsonOf(unread).map((line) => [line.file, line]));
  assert.deepEqual([found['lost.mp4'].error.code, found['/dev/null'].error.code], ['ENOENT', 'ENOFILE']);
  assert.equal(found['plain.mp4'].fault, null);
  assert.deepEqual([unread.status, called(['--json', 'gap.mp4', 'plain.mp4']).status], [3, 0]);
  assert.equal(called(['--json', 'lost.mp4', 'base-offset.mp4']).status, 9);
  assert.deepEqual([called(['--json', 'empty']).status, called(['--json', 'empty']).lines], [0, []]);
});

test('without --json the sentences of each file come behind its name', () => {
  const { status, lines } = called(['--jobs', '1', 'gap.mp4', 'lost.mp4', 'plain.mp4']);
  assert.equal(status, 3);
  assert.deepEqual(lines.map((line) => line.split(': ')[0]).sort(), ['gap.mp4', 'lost.mp4', 'plain.mp4']);
  assert.ok(lines.includes('plain.mp4: Nothing is wrong: 3 frames of pictures from 0 s to 0.1 s, without a gap, and no '
    + 'frame was dropped.'));
});

test('folders and lists name files, each of them once', () => {
  const place = mkdtempSync(join(folder, 'folders-'));
  mkdirSync(join(place, 'deep/er'), { recursive: true });
  copyFileSync(join(DATA, 'plain.mp4'), join(place, 'deep/er/b c.M4S'));
  copyFileSync(join(DATA, 'plain.mp4'), join(place, 'a.mp4'));
  writeFileSync(join(place, 'index.m3u8'), '');
  symlinkSync('..', join(place, 'deep/up'));
  const namesOf = (result) => jsonOf(result).map(({ file }) => file).sort();
  const all = ['a.mp4', 'deep/er/b c.M4S'];
  const found = called(['--json', '.', 'a.mp4'], { cwd: place });
  assert.deepEqual(namesOf(found), all);
  assert.match(found.help, /^1 file of folders passed over/m);
  writeFileSync(join(place, 'list'), 'a.mp4\r\n\ndeep/er\na.mp4');
  assert.deepEqual(namesOf(called(['--json', '--from', 'list'], { cwd: place })), all);
  assert.deepEqual(namesOf(called(['--json', '--from=-'], { cwd: place, input: 'a.mp4\0deep/er\0' })), all);
  const lost = called(['--json', '--from', 'no-list'], { cwd: place });
  assert.deepEqual([lost.status, lost.lines], [8, []]);
  assert.match(lost.help, /no-list/);
});

test('words that are none are told', () => {
  const rows = [
    [['--job', '2', 'a'], /^there is no option --job; is it --jobs\?\n/],
    [['--jobs', '0', 'a'], /^--jobs: a number from 1/], [['--jobs', 'x', 'a'], /^--jobs: a number/],
    [['a', '--from'], /^--from is called with FILE\n/],
    [['--json=1', 'a'], /^--json stands alone\n/], [['--json'], /^inspect is called with FILE/],
  ];
  for (const [words, help] of rows) {
    const found = called(words);
    assert.deepEqual([found.status, found.lines], [1, []]);
    assert.match(found.help, help);
  }
  const folders = called(['.']);
  assert.equal(folders.status, 3);
  assert.match(folders.help, /with --jobs N the files of a folder are inspected/);
  copyFileSync(join(DATA, 'plain.mp4'), join(folder, '--odd.mp4'));
  assert.equal(jsonOf(called(['--json', '--', '--odd.mp4']))[0].file, '--odd.mp4');
  rmSync(join(folder, '--odd.mp4'));
});

test('any number of jobs gives the same lines', () => {
  const place = manyFiles(2);
  const [one, two, four] = ['1', '2', '4'].map((jobs) => called(['--json', '--jobs', jobs, place]).lines.sort());
  assert.equal(one.length, readdirSync(place).length);
  assert.deepEqual(two, one);
  assert.deepEqual(four, one);
});

test('how far it has come goes to standard error, and not with --quiet', () => {
  assert.match(called(['--json', ...SOME]).help, /^6 of 6 files, 6\.2 kB of 6\.2 kB, 2 with a fault, in \d+ s\n$/);
  assert.equal(called(['--json', '--quiet', ...SOME]).help, '');
});

/** Inspects files by threads of a worker in a process of its own, which ends; each answer as a line of JSON. */
function inspectedBy(worker, files) {
  const script = join(folder, 'pool.mjs');
  writeFileSync(script, `import { inspectAll } from '${new URL('../src/catalogue/pool.mjs', import.meta.url).href}';
    const [worker, ...names] = process.argv.slice(2), files = names.map((name) => ({ name }));
    const put = (file, answer) => console.log(JSON.stringify({ ...file, ...answer }));
    await inspectAll(files, { jobs: 2, worker }, put);`);
  const options = { encoding: 'utf8', timeout: 120_000 };
  const { status, stdout } = spawnSync(process.execPath, [script, worker, ...files], options);
  assert.equal(status, 0);
  return stdout.split('\n').slice(0, -1).map((line) => JSON.parse(line));
}

test('a thread that ends costs its own file, and the others are done', () => {
  const worker = join(folder, 'dies.mjs');
  const url = new URL('../src/catalogue/worker.mjs', import.meta.url).href;
  writeFileSync(worker, `import { parentPort } from 'node:worker_threads';\nawait import('${url}');\n`
    + "parentPort.on('message', (name) => { if (name.includes('gap')) process.exit(7); });\n"
    + "parentPort.on('message', (name) => { if (name.includes('groups')) throw new Error('spoiled'); });\n");
  const files = [...SOME, ...SOME].map((name) => join(folder, name));
  const answers = inspectedBy(worker, files);
  assert.deepEqual(answers.map(({ name }) => name).sort(), [...files].sort());
  const heard = new Map(answers.map(({ name, text, isUnread }) => [name, [JSON.parse(text), isUnread]]));
  for (const [name, [line, isUnread]] of heard) assert.equal(isUnread, /gap|groups/.test(name), JSON.stringify(line));
  const ended = { code: 'ENDED', text: 'its thread ended with status 7' };
  assert.deepEqual(heard.get(join(folder, 'gap.mp4'))[0].error, ended);
  assert.equal(heard.get(join(folder, 'groups.mp4'))[0].error.text, 'spoiled');
});

test('a run goes on behind each cut of its result', () => {
  const place = mkdtempSync(join(folder, 'cut-'));
  const result = join(place, 'result'), words = ['--quiet', '--jobs', '1', '--resume', result, ...SOME.slice(0, 3)];
  assert.equal(called(words).status, 9);
  const whole = readFileSync(result), second = whole.indexOf(10) + 1;
  const cuts = [0, 5, 12, second - 1, second, second + 8, whole.length - 1, whole.length];
  for (const cut of cuts) {
    writeFileSync(result, whole.subarray(0, cut));
    assert.deepEqual([called(words).status, called(words).lines], [9, []]);
    assert.equal(sorted(readFileSync(result)), sorted(whole), `cut at ${cut}`);
    const kept = whole.subarray(0, whole.lastIndexOf(10, cut - 1) + 1);
    assert.deepEqual(readFileSync(result).subarray(0, cut === 0 ? 0 : kept.length), cut === 0 ? Buffer.alloc(0) : kept);
  }
});

test('a file that has no lines of a catalogue is not gone on with, and stays as it is', () => {
  const result = join(folder, 'foreign');
  for (const text of ['no line\n', 'no end', '{"file":1}\n', '{"file":"a"}\n{}\n', '{"file":"a"}\nx', '\n']) {
    writeFileSync(result, text);
    const found = called(['--resume', result, 'plain.mp4']);
    assert.equal(found.status, 1, text);
    assert.match(found.help, /foreign:[12]: no line of a catalogue/);
    assert.equal(readFileSync(result, 'utf8'), text);
  }
});

test('the result of killed runs is that of a whole one', async () => {
  const place = manyFiles(12), whole = join(folder, 'whole'), result = join(folder, 'killed');
  const words = (to) => ['--quiet', '--jobs', '2', '--resume', to, place];
  assert.equal(called(words(whole)).status, 9);
  const size = readFileSync(whole).length;
  let kills = 0;
  for (const part of [0.1, 0.3, 0.5, 0.7, 0.9]) {
    const program = spawn(process.execPath, [PROGRAM, 'inspect', ...words(result)], { cwd: folder, stdio: 'ignore' });
    const ended = once(program, 'exit');
    const isShort = () => !existsSync(result) || readFileSync(result).length < part * size;
    while (program.exitCode === null && isShort()) await wait(1);
    program.kill('SIGKILL');
    const [, signal] = await ended;
    kills += Number(signal === 'SIGKILL');
    // as a kill in the middle of a line leaves it
    const text = readFileSync(result);
    writeFileSync(result, text.subarray(0, text.length - 7));
  }
  assert.ok(kills >= 3, `${kills} kills met a run`);
  assert.equal(called(words(result)).status, 9);
  assert.equal(sorted(readFileSync(result)), sorted(readFileSync(whole)));
});
