// The documents: what they show is what is printed, their links lead somewhere, and they are not too long.
//
// A block is indented or fenced. A line `$ COMMAND` in it has below it what the command prints; `...` is for any lines.
// `$ cd FOLDER` counts for the rest of its block, and `> NAME` makes a file for the blocks below.

import assert from 'node:assert/strict';
import { spawnSync } from 'node:child_process';
import { existsSync, mkdtempSync, readdirSync, readFileSync, rmSync, writeFileSync } from 'node:fs';
import { tmpdir } from 'node:os';
import { dirname, join, normalize } from 'node:path';
import { chdir, cwd } from 'node:process';
import test, { after, before } from 'node:test';
import { fileURLToPath, pathToFileURL } from 'node:url';
import { main } from '../src/front/main.mjs';
import { DATA } from './cases.mjs';

const TOP = fileURLToPath(new URL('../../', import.meta.url));
const read = (path) => readFileSync(join(TOP, path), 'utf8');
const inFolder = (folder) => readdirSync(join(TOP, folder)).filter((name) => name.endsWith('.md')).map((name) => join(folder, name));
const SHELVES = [...inFolder('docs'), ...inFolder('docs/proof')];
const DOCUMENTS = ['README.md', 'CONTRIBUTING.md', ...inFolder('docs'), ...inFolder('docs/proof'), ...inFolder('js'), ...inFolder('clients'), ...inFolder('examples'),
  ...inFolder('bench')];
// commands that are tried elsewhere: clients/tests/test_sessions.py
const ELSEWHERE = new Set(['session']);
const MOST_WORDS = 40000;
const MOST_WORDS_OF_README = 1300;
const CRATES = read('crates.txt').split('\n').filter((line) => /^\w/.test(line)).map((line) => /^\w+/.exec(line)[0]);

let home;
let made;

before(() => {
  home = cwd();
  made = mkdtempSync(join(tmpdir(), 'mseplay-documents-'));
});

after(() => {
  chdir(home);
  rmSync(made, { recursive: true });
});

const withoutFences = (text) => text.replace(/^```.*?^```$/gms, '');

/** The blocks of a document, without their indents. */
function blocksOf(text) {
  const fenced = Array.from(text.matchAll(/^```[a-z]*\n(.*?)^```$/gms), ([, block]) => block);
  const indented = Array.from(withoutFences(text).matchAll(/(?:^ {4}.*\n)+/gm), ([block]) => block.replace(/^ {4}/gm, ''));
  return [...fenced, ...indented];
}

/** The commands of a block with the folder that each is called in, null where none is said, and the lines below it. */
function commandsOf(block) {
  let folder = null;
  const commands = [];
  for (const part of block.split(/^(?=\$ )/m).filter((each) => each.startsWith('$ '))) {
    const [first, ...told] = part.replace(/\n+$/, '').split('\n');
    const words = first.slice(2).split(' ');
    if (words[0] === 'cd') folder = join(folder ?? TOP, words[1]);
    else commands.push({ words, told, folder });
  }
  return commands;
}

/** What main prints, on standard output and on standard error. */
async function printed(words, folder) {
  const bytes = { 1: [], 2: [] };
  chdir(folder);
  await main(words, (file, put) => bytes[file].push(Buffer.from(put)));
  return [Buffer.concat(bytes[1]), Buffer.concat(bytes[2])];
}

/** Runs `mseplay` over the examples; a file that a block above made is taken for its name. */
async function runOverExamples(words) {
  const at = words.indexOf('>');
  const line = (at < 0 ? words : words.slice(0, at)).map((word) => (existsSync(join(made, word)) ? join(made, word) : word));
  const [out] = await printed(line, DATA);
  if (at < 0) return out.toString();
  writeFileSync(join(made, words[at + 1]), out);
  return '';
}

/** What a command of a document prints; undefined where it is tried elsewhere. */
async function shown({ words: [program, ...words], folder }) {
  if (program === 'mseplay') return runOverExamples(words);
  if (program === 'node') {
    assert.match(words[0], /js\/bin\/mseplay\.mjs$/);
    assert.ok(existsSync(join(folder ?? TOP, words[0])), words[0]);
    return (await printed(words.slice(1), folder ?? TOP)).join('');
  }
  if (program === 'python3') return spawnSync(program, words, { cwd: folder ?? TOP, encoding: 'utf8' }).stdout;
  assert.ok(ELSEWHERE.has(program), `no test runs ${program}`);
  return undefined;
}

function isTold(text, told) {
  const escaped = (line) => line.replace(/[.*+?^${}()|[\]\\]/g, '\\$&');
  const pattern = told.map((line) => (line === '...' ? '(?:.*\\n)*?' : `${escaped(line)}\\n`)).join('');
  return new RegExp(`^${pattern}$`).test(text);
}

test('each command of the documents prints what is shown below it', async () => {
  let count = 0;
  for (const path of DOCUMENTS) {
    for (const command of blocksOf(read(path)).flatMap(commandsOf)) {
      const text = await shown(command);
      if (text === undefined) continue;
      assert.ok(isTold(text, command.told), `${path}: ${command.words.join(' ')} prints\n${text}`);
      count += 1;
    }
  }
  chdir(home);
  assert.ok(count >= 25, `${count} commands`);
});

test('the test that the README shows passes', async () => {
  const [block] = blocksOf(read('README.md')).filter((each) => each.startsWith('import '));
  const path = join(made, 'first.test.mjs');
  writeFileSync(path, block.replaceAll('./js/src/', new URL('../src/', import.meta.url).href));
  chdir(TOP);
  await import(pathToFileURL(path));
  chdir(home);
});

/** The anchor of a heading, as the pages of forges make it. */
function anchorOf(heading) {
  const text = heading.replace(/\[([^\]]*)\]\([^)]*\)/g, '$1').replaceAll('`', '').trim().toLowerCase();
  return text.replace(/[^\p{L}\p{N}_\- ]/gu, '').replaceAll(' ', '-');
}

const anchorsOf = (path) => new Set(Array.from(withoutFences(read(path)).matchAll(/^#+ (.*)$/gm), ([, heading]) => anchorOf(heading)));

test('each link leads to a file, and to a heading of it', () => {
  let count = 0;
  for (const path of DOCUMENTS) {
    for (const [, to] of read(path).matchAll(/\]\(([^)\s]+)\)/g)) {
      if (/^[a-z]+:/.test(to)) continue;
      const [file, anchor] = to.split('#');
      const target = file === '' ? path : normalize(join(dirname(path), file));
      assert.ok(existsSync(join(TOP, target)), `${path}: ${to}`);
      if (anchor !== undefined && target.endsWith('.md')) assert.ok(anchorsOf(target).has(anchor), `${path}: ${to}`);
      count += 1;
    }
  }
  assert.ok(count > 100, `${count} links`);
});

const countWords = (text) => text.split(/\s+/).filter(Boolean).length;

test('docs/ and the front of the README are short enough', () => {
  const words = SHELVES.reduce((sum, path) => sum + countWords(read(path)), 0);
  assert.ok(words <= MOST_WORDS, `docs/ has ${words} words`);
  const front = countWords(read('README.md').split('\n## What is proved\n')[0]);
  assert.ok(front <= MOST_WORDS_OF_README, `the README has ${front} words before "What is proved"`);
});

test('the README names each crate, and each document of docs/', () => {
  const readme = read('README.md');
  for (const crate of CRATES) assert.ok(readme.includes(`\`${crate}\``), crate);
  for (const path of SHELVES) assert.ok(readme.includes(`(${path}`), path);
});

/** The first cells of the tables below a heading of docs/SCRIPTS.md. */
function firstCells(heading, column = 0) {
  const section = read('docs/SCRIPTS.md').split(`\n${heading}\n`)[1].split(/\n##+ /)[0];
  const rows = section.split('\n').filter((line) => line.startsWith('| '));
  return rows.map((row) => row.slice(2, -2).split(' | ')[column]);
}

test('the card has each command, status, line, answer, event, fault and error of docs/SCRIPTS.md', () => {
  const card = read('docs/CARD.md');
  const words = new Set(card.split(/[^\w:]+/).flatMap((word) => [word, word.replaceAll(':', '')]));
  const named = (cells) => cells.flatMap((cell) => Array.from(cell.matchAll(/`([^`]+)`/g), ([, name]) => name));
  const calls = named(firstCells('### Call lines')).map((line) => line.split(' ')[0]);
  const steps = named(firstCells('### Step lines')).map((line) => line.split(' ')[0]);
  const faults = named([...firstCells('## Faults', 1), ...firstCells('## Faults'), ...firstCells('## A classic file as fragments', 1)])
    .filter((name) => /^[A-Z][A-Za-z]+( BOX)?$/.test(name));
  const events = named(firstCells('### Rules', 1)).filter((name) => /^[a-z]{5,}$/.test(name) && name !== 'false');
  const commands = Array.from(read('docs/SCRIPTS.md').matchAll(/^- `(\w+) /gm), ([, name]) => name);
  const errors = named([...firstCells('### Faults of a script', 2), ...firstCells('## Commands', 2)]).filter((each) => each.startsWith('error: '));
  const keys = named([...firstCells('### Keys'), ...firstCells('### Rules')]);
  for (const [what, list, least] of [['call', calls, 26], ['step', steps, 4], ['fault', faults, 35], ['event', events, 20],
    ['command', commands, 6], ['key', keys, 11], ['error', errors, 9]]) {
    assert.ok(list.length >= least, `${list.length} of ${what}`);
    for (const name of list) assert.ok(words.has(name.split(' ')[0].replaceAll(':', '')) || card.includes(name), `${what} ${name}`);
  }
  for (const name of ['script not toml', 'key NAME', 'too many KEY', 'blob N', 'step N', 'rule N']) assert.ok(card.includes(name), name);
  for (let status = 0; status <= 10; status += 1) assert.match(card, new RegExp(`^(STATUS)? .*(^|\\s)${status} [a-z]`, 'm'), `status ${status}`);
});

const python = spawnSync('python3', ['--version']).status === 0;
const skip = !python && 'python3 is not installed';

test('names in the documents are those of the code, and the drawn pictures are not stale', { skip }, () => {
  for (const words of [['bench/names_in_docs.py'], ['docs/pictures/draw.py', '--check']]) {
    const { status, stdout, stderr } = spawnSync('python3', words, { cwd: TOP, encoding: 'utf8' });
    assert.equal(status, 0, stdout + stderr);
  }
});
