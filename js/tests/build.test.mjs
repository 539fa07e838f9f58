// js/mseplay.wasm is of the sources that are here. With MSEPLAY_REBUILD=1 it is built anew too, which takes minutes.

import assert from 'node:assert/strict';
import { spawnSync } from 'node:child_process';
import { mkdtempSync, readFileSync, rmSync } from 'node:fs';
import { tmpdir } from 'node:os';
import { join } from 'node:path';
import test from 'node:test';
import { fileURLToPath } from 'node:url';
import { has, skipWithout } from './tools.mjs';

const MODULE = fileURLToPath(new URL('../mseplay.wasm', import.meta.url));
const BUILD = fileURLToPath(new URL('../build/build.py', import.meta.url));
const NOTE = JSON.parse(readFileSync(`${MODULE}.json`, 'utf8'));
const MOST_BYTES = 700_000;

test('the module is of these sources', { skip: skipWithout('python3', 'python3') }, () => {
  const done = spawnSync('python3', [BUILD, '--check'], { encoding: 'utf8' });
  assert.equal(done.status, 0, done.stderr);
});

test('the module is small, and imports nothing', (t) => {
  const bytes = readFileSync(MODULE);
  assert.ok(bytes.length <= MOST_BYTES, `${bytes.length} bytes`);
  assert.deepEqual(WebAssembly.Module.imports(new WebAssembly.Module(bytes)), []);
  t.diagnostic(`${bytes.length} bytes`);
});

const wantsBuild = process.env.MSEPLAY_REBUILD === '1';
const tools = [['rt', 'doc'], ['clang-22'], ['wasm-ld-22']];
const lacking = tools.find((words) => !has(...words));

test('the same sources and tools give the same bytes', {
  skip: wantsBuild ? lacking && `no ${lacking[0]} here` : 'MSEPLAY_REBUILD=1 builds anew',
}, () => {
  const folder = mkdtempSync(join(tmpdir(), 'mseplay-build-'));
  try {
    const out = join(folder, 'mseplay.wasm');
    const way = NOTE.built === 'rt try' ? ['--unproved'] : [];
    const done = spawnSync('python3', [BUILD, ...way, '--to', out], { encoding: 'utf8' });
    assert.equal(done.status, 0, done.stderr);
    assert.ok(readFileSync(out).equals(readFileSync(MODULE)));
  } finally {
    rmSync(folder, { recursive: true });
  }
});
