// The package: packed, and installed by its path into an empty folder without a network, where the README's first test
// passes.

import assert from 'node:assert/strict';
import { spawnSync } from 'node:child_process';
import { mkdtempSync, readdirSync, readFileSync, rmSync, writeFileSync } from 'node:fs';
import { tmpdir } from 'node:os';
import { join } from 'node:path';
import test from 'node:test';
import { fileURLToPath } from 'node:url';
import { read } from './cases.mjs';
import { skipWithout } from './tools.mjs';

const PACKAGE = fileURLToPath(new URL('..', import.meta.url));
const README = readFileSync(join(PACKAGE, 'README.md'), 'utf8');

/** The code that README.md shows first. */
function firstTest() {
  return /```js\n(.*?)```/s.exec(README)[1];
}

test('the first test has ten lines', () => {
  assert.ok(firstTest().split('\n').filter(Boolean).length <= 10);
});

test('packed and installed without a network, the first test passes', { skip: skipWithout('npm', 'npm') }, () => {
  const folder = mkdtempSync(join(tmpdir(), 'mseplay-package-'));
  const npm = { NPM_CONFIG_CACHE: join(folder, 'cache'), NPM_CONFIG_OFFLINE: 'true' };
  const env = { ...process.env, ...npm };
  delete env.NODE_TEST_CONTEXT;
  const done = (command, ...words) => {
    const ran = spawnSync(command, words, { cwd: folder, env, encoding: 'utf8' });
    assert.equal(ran.status, 0, `${command} ${words.join(' ')}: ${ran.stdout}${ran.stderr}`);
    return ran.stdout;
  };
  try {
    done('npm', 'pack', PACKAGE, '--silent');
    const archive = readdirSync(folder).find((name) => name.endsWith('.tgz'));
    writeFileSync(join(folder, 'package.json'), '{ "type": "module" }');
    done('npm', 'install', '--no-audit', '--no-fund', `./${archive}`);
    const installed = readdirSync(join(folder, 'node_modules')).filter((name) => !name.startsWith('.'));
    assert.deepEqual(installed, ['mseplay']);
    writeFileSync(join(folder, 'plain.mp4'), read('plain.mp4'));
    writeFileSync(join(folder, 'first.test.mjs'), firstTest());
    assert.match(done(process.execPath, '--test', 'first.test.mjs'), /^# pass 1$/m);
    const program = join(folder, 'node_modules/.bin/mseplay');
    assert.equal(done(program, 'ranges', 'plain.mp4'), read('plain.mp4.txt').toString());
  } finally {
    rmSync(folder, { recursive: true });
  }
});
