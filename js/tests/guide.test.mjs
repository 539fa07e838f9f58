// The tests that docs/TESTING.md shows pass, and the script that one of them keeps prints its end.

import assert from 'node:assert/strict';
import { spawnSync } from 'node:child_process';
import { mkdtempSync, readdirSync, readFileSync, rmSync, writeFileSync } from 'node:fs';
import { tmpdir } from 'node:os';
import { join } from 'node:path';
import test, { mock } from 'node:test';
import { fileURLToPath } from 'node:url';
import { run } from '../src/engine.mjs';

const REPOSITORY = new URL('../../', import.meta.url);

// all that the page shows, as one file
function shownTests() {
  const page = readFileSync(new URL('docs/TESTING.md', REPOSITORY), 'utf8');
  return Array.from(page.matchAll(/^```js\n(.*?)^```$/gms), ([, block]) => block).join('\n');
}

const skip = mock.timers === undefined && 'mock.timers came with node 20.4';

test('the tests that the page shows pass, and a script of them prints the end', { skip }, () => {
  const folder = mkdtempSync(join(tmpdir(), 'guide-'));
  try {
    const kept = join(folder, 'kept');
    const path = join(folder, 'my_player.test.mjs');
    const sources = new URL('js/src/', REPOSITORY).href;
    writeFileSync(path, shownTests().replaceAll('./js/src/', sources).replace("'kept'", JSON.stringify(kept)));
    // a runner that another one starts tells it what it found, and not its status
    const { NODE_TEST_CONTEXT, ...env } = process.env;
    const options = { cwd: fileURLToPath(REPOSITORY), encoding: 'utf8', env };
    const done = spawnSync(process.execPath, ['--test', path], options);
    assert.equal(done.status, 0, done.stdout + done.stderr);
    assert.match(done.stdout, /^\S+ pass 5$/m);
    const files = Object.fromEntries(readdirSync(kept).map((name) => [name, readFileSync(join(kept, name))]));
    assert.match(run(['play', 'script.toml'], files).text, /^event element ended$/m);
  } finally {
    rmSync(folder, { recursive: true });
  }
});
