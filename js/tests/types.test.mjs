// The types: tsc takes a file that uses every export.

import assert from 'node:assert/strict';
import { spawnSync } from 'node:child_process';
import { cpSync, mkdirSync, mkdtempSync, readFileSync, rmSync, symlinkSync, writeFileSync } from 'node:fs';
import { tmpdir } from 'node:os';
import { join } from 'node:path';
import test from 'node:test';
import { fileURLToPath } from 'node:url';
import * as engine from '../src/engine.mjs';
import * as mseplay from '../src/index.mjs';
import * as register from '../src/register.mjs';
import { skipWithout } from './tools.mjs';

const PACKAGE = fileURLToPath(new URL('..', import.meta.url));
const FILE = new URL('types/every_export.ts', import.meta.url);

test('the file uses every export', () => {
  const text = readFileSync(FILE, 'utf8');
  for (const [name, exported] of Object.entries({ mseplay, 'mseplay/engine': engine, 'mseplay/register': register })) {
    const [, names] = new RegExp(`^import \\{([^}]*)\\} from '${name}'`, 'm').exec(text);
    assert.deepEqual(names.split(',').map((each) => each.trim()).filter(Boolean).sort(), Object.keys(exported).sort());
  }
});

test('tsc takes it', { skip: skipWithout('tsc', 'node-typescript') }, () => {
  const folder = mkdtempSync(join(tmpdir(), 'mseplay-types-'));
  try {
    mkdirSync(join(folder, 'node_modules'));
    symlinkSync(PACKAGE, join(folder, 'node_modules', 'mseplay'), 'dir');
    writeFileSync(join(folder, 'package.json'), '{ "type": "module" }');
    cpSync(FILE, join(folder, 'every_export.ts'));
    const module = ['--module', 'node16', '--moduleResolution', 'node16'];
    const words = ['--noEmit', '--strict', ...module, '--target', 'es2022', '--lib', 'es2022,dom'];
    const done = spawnSync('tsc', [...words, 'every_export.ts'], { cwd: folder, encoding: 'utf8' });
    assert.equal(done.status, 0, done.stdout);
  } finally {
    rmSync(folder, { recursive: true });
  }
});
