// The cases of the repository: through `run`, through a session line by line, and through the program.

import assert from 'node:assert/strict';
import { spawnSync } from 'node:child_process';
import { chdir, cwd } from 'node:process';
import test from 'node:test';
import { fileURLToPath } from 'node:url';
import { run, Session } from '../src/engine.mjs';
import { main } from '../src/front/main.mjs';
import { readKeys } from '../src/front/toml.mjs';
import { cases, DATA, isAsWanted, read, runsOf } from './cases.mjs';

const PROGRAM = fileURLToPath(new URL('../bin/mseplay.mjs', import.meta.url));
// those of `puts` and `loads` are of failures that a run in memory does not have
const ALL = cases().filter(({ kind }) => kind !== 'puts' && kind !== 'loads');
const WHOLE = ALL.filter(({ kind }) => kind === 'run' || kind === 'indexed');

test('each case through run', (t) => {
  let count = 0;
  for (const each of ALL) {
    for (const { words, files, wanted } of runsOf(each)) {
      assert.ok(isAsWanted(run(words, files), wanted), each.line);
      count++;
    }
  }
  assert.ok(count >= 1000);
  t.diagnostic(`${ALL.length} cases, ${count} runs`);
});

/** A script as a session takes it; undefined where it has rules, names bytes that it does not have, or a fault. */
function scriptOf({ status, words }) {
  if (status !== 0 || words[0] !== 'play') return undefined;
  const keys = readKeys(read(words[1]).toString());
  const items = (name) => keys.get(name)?.value.items.map(({ value }) => value) ?? [];
  const number = (name) => keys.get(name)?.value.value;
  const [steps, blobs] = [items('steps'), items('blobs')];
  const hasBytes = steps.every((line) => !(Number(/^append \S+ (\d+)/.exec(line)?.[1]) >= blobs.length));
  const isPlain = items('rules').length === 0 && hasBytes;
  return isPlain ? { steps, blobs, quota: number('quota'), gap: number('gap') } : undefined;
}

const bytesOf = (blob) => (blob.startsWith('hex ') ? Buffer.from(blob.slice(4), 'hex') : read(blob.slice(5)));

const wholeDrain = (session) => session.step('drain').lines;

/** A drain by its steps: each is the one that comes next, until there is none. */
function drainByNext(session) {
  const lines = [];
  for (let step = session.next(); step !== null; step = session.next()) lines.push(...session.step(step).lines);
  return lines;
}

function playedByLine({ steps, blobs, quota, gap }, drain) {
  const session = new Session({ quota, gap });
  blobs.forEach((blob) => session.give(bytesOf(blob)));
  const lines = steps.flatMap((line) => (line === 'drain' ? drain(session) : session.step(line).lines));
  lines.push(...session.block());
  session.close();
  return lines.map((line) => `${line}\n`).join('');
}

for (const [way, drain] of [['line by line', wholeDrain], ['with each drain by its next steps', drainByNext]]) {
  test(`each script without rules through a session, ${way}`, (t) => {
    let count = 0;
    for (const each of WHOLE) {
      const script = scriptOf(each);
      if (script) {
        assert.equal(playedByLine(script, drain), read(each.text).toString(), each.line);
        count++;
      }
    }
    assert.ok(count >= 300);
    t.diagnostic(`${count} scripts`);
  });
}

test('each case through the program, in this process', (t) => {
  const before = cwd();
  chdir(DATA);
  try {
    for (const { line, status, text, words } of WHOLE) {
      const printed = [];
      const found = main(words, (file, bytes) => file === 1 && printed.push(bytes));
      assert.equal(found, status, line);
      assert.deepEqual(Buffer.concat(printed), read(text), line);
    }
  } finally {
    chdir(before);
  }
  t.diagnostic(`${WHOLE.length} cases`);
});

test('some cases through the program, in a process each', (t) => {
  const some = WHOLE.filter((_, i) => i % 40 === 0);
  for (const { line, status, text, words } of some) {
    const done = spawnSync(process.execPath, [PROGRAM, ...words], { cwd: DATA, maxBuffer: 1 << 28 });
    assert.equal(done.status, status, line);
    assert.deepEqual(done.stdout, read(text), line);
  }
  t.diagnostic(`${some.length} cases`);
});
