// What an element did is kept as a script, and the program plays it with the same lines.

import assert from 'node:assert/strict';
import { mkdtempSync, readdirSync, readFileSync, rmSync } from 'node:fs';
import { tmpdir } from 'node:os';
import { join } from 'node:path';
import test from 'node:test';
import { run } from '../src/engine.mjs';
import { saveScript, settled } from '../src/index.mjs';
import { append, open, PICTURES, PLAIN } from './kit.mjs';
import { OddPlayer, OF_BUFFER, OF_ELEMENT, rangesOf, VIDEO } from './players.mjs';

// The log of events of the lines that the kept script prints. A listener is added to it that looks at each event.
function logOfScript(files) {
  const looks = '["state", "buffered 0", "windowstart 0 -1", "windowstart 1 -1"]';
  const events = [...OF_ELEMENT.map((type) => `element ${type}`), 'source sourceopen', 'source sourceended',
    ...OF_BUFFER.flatMap((type) => [`buffer 0 ${type}`, `buffer 1 ${type}`])];
  const rules = events.map((on) => `[[rules]]\nlistener = 0\non = "${on}"\ntimes = 1000\ncalls = ${looks}\n`);
  const script = Buffer.concat([files['script.toml'], Buffer.from(rules.join(''))]);
  const { status, text } = run(['play', 'script.toml'], { ...files, 'script.toml': script });
  assert.equal(status, 0);
  const lines = text.split('\n');
  const log = [];
  lines.forEach((line, at) => {
    if (events.includes(line.replace('event ', ''))) {
      const [, level, seeking] = lines[at + 1].match(/level (\d) .* seeking (\w+) /);
      const ranges = lines[at + 2].match(/-?\d+(?=[,)])/g)?.map((ticks) => ticks / 141120000000) ?? [];
      // a negative start is refused with another name where the buffer is updating
      const updating = [3, 4].map((next) => lines[at + next].endsWith('InvalidStateError'));
      log.push(`${line} level ${level} seeking ${seeking} ranges ${ranges} updating ${updating.join(' ')}`);
    } else if (/^call (?!attach|add|play|advance)/.test(line)) {
      log.push(line.slice(line.lastIndexOf(': ') + 2));
    }
  });
  return log;
}

test('a run gives the same each time, and its script prints what the player saw', async () => {
  for (const seed of [1, 2, 3, 4, 5, 6, 7, 8]) {
    const [player, again] = [new OddPlayer(seed, PLAIN), new OddPlayer(seed, PLAIN)];
    await player.play();
    await again.play();
    assert.deepEqual(again.log, player.log);
    const folder = mkdtempSync(join(tmpdir(), 'kept-'));
    try {
      saveScript(player.video, folder);
      const files = Object.fromEntries(readdirSync(folder).map((name) => [name, readFileSync(join(folder, name))]));
      const [opened, ...log] = logOfScript(files);
      assert.match(opened, /^event source sourceopen/);
      assert.deepEqual(log, player.log);
    } finally {
      rmSync(folder, { recursive: true });
    }
  }
});

test('the same bytes are kept once, and a drain is one line', async () => {
  const { video, source } = await open({ quota: 1000, gap: 0.033 });
  const buffer = source.addSourceBuffer(VIDEO);
  await append(buffer, PICTURES.init);
  for (let i = 0; i < 3; i += 1) {
    buffer.timestampOffset = i * PICTURES.seconds;
    await append(buffer, PICTURES.segment);
  }
  await settled(video);
  const folder = mkdtempSync(join(tmpdir(), 'kept-'));
  try {
    const files = saveScript(video, join(folder, 'a', 'b'), 'kept.toml');
    assert.deepEqual(Object.keys(files), ['kept.toml', 'media0.bin']);
    assert.deepEqual(Buffer.from(files['media0.bin']), PLAIN);
    assert.deepEqual(readdirSync(join(folder, 'a', 'b')), ['kept.toml', 'media0.bin']);
    const text = new TextDecoder().decode(files['kept.toml']);
    assert.match(text, /^quota = 1000\ngap = 4656960000\nblobs = \[\n {2}"file media0.bin",\n\]\nsteps = \[\n/);
    assert.match(text, /^steps = \[\n {2}"attach",\n/m);
    assert.equal(text.match(/"append 0 0 595 156",\n {2}"drain"/g).length, 3);
  } finally {
    rmSync(folder, { recursive: true });
  }
});

test('a script that would be too long is refused, and the element goes on', async () => {
  const { video, source } = await open();
  const buffer = source.addSourceBuffer(VIDEO);
  for (let i = 0; i < 100_001; i += 1) buffer.appendWindowEnd = 1 + (i % 2);
  assert.throws(() => saveScript(video, '/no/such/folder'), { name: 'RangeError', message: /at most 100000 steps/ });
  await append(buffer, PLAIN);
  assert.deepEqual(rangesOf(video.buffered), [[0, 0.1]]);
});
