// The help of bin/mseplay.mjs on standard error, and its options.

import assert from 'node:assert/strict';
import { spawn, spawnSync } from 'node:child_process';
import { once } from 'node:events';
import { chmodSync, mkdirSync, mkdtempSync, readFileSync, rmSync, writeFileSync } from 'node:fs';
import { tmpdir } from 'node:os';
import { join } from 'node:path';
import { chdir, cwd, getuid } from 'node:process';
import test, { after, before } from 'node:test';
import { fileURLToPath } from 'node:url';
import * as table from '../src/front/fault_table.mjs';
import { faultHelp } from '../src/front/faults.mjs';
import { asJSON, inSeconds } from '../src/front/lines.mjs';
import { main } from '../src/front/main.mjs';
import { readKeys, stringsOf } from '../src/front/toml.mjs';
import { isTime, isTinyTime, secondsOf } from '../src/front/times.mjs';
import { cases, DATA, read } from './cases.mjs';

const PROGRAM = fileURLToPath(new URL('../bin/mseplay.mjs', import.meta.url));
const SCRIPTS = readFileSync(new URL('../../docs/SCRIPTS.md', import.meta.url), 'utf8');
let folder;
let home;

before(() => {
  home = cwd();
  folder = mkdtempSync(join(tmpdir(), 'mseplay-help-'));
  chdir(folder);
  writeFileSync('plain.mp4', read('plain.mp4'));
  writeFileSync('no-tfdt.mp4', read('no-tfdt.mp4'));
});

after(() => {
  chdir(home);
  rmSync(folder, { recursive: true });
});

/** What the program does with words: its status, and what it prints. */
function done(...words) {
  const printed = { 1: [], 2: [] };
  const status = main(words, (file, bytes) => printed[file].push(Buffer.from(bytes)));
  return { status, out: Buffer.concat(printed[1]).toString(), help: Buffer.concat(printed[2]).toString() };
}

/** The help behind a script. */
function helpOfScript(text) {
  writeFileSync('script.toml', text);
  return done('play', 'script.toml').help;
}

const COMMANDS = ['ranges FILE', 'pieces N FILE', 'play SCRIPT', 'make N', 'remux FILE', 'feed T FILE'];

test('words that are no command: what is wrong with them, and the six commands', () => {
  const rows = [
    [[], 'a command is missing'],
    [['rangs', 'a'], 'there is no command rangs; is it ranges?'],
    [['encode', 'a'], 'there is no command encode'],
    [['ranges'], 'ranges is called with FILE: one word and not 0'],
    [['feed', 'a'], 'feed is called with T FILE: two words and not 1'],
    [['pieces', '0', 'a'], 'N is a number from 1 to 2147483648'],
    [['make', '10001'], 'N is a number from 1 to 10000'],
    [['feed', '1.5', 'a'], 'a time is ticks, n/scale, inf or nan'],
    [['feed', 'inf', 'a'], 'the time that feed begins at is finite'],
    [['ranges', 'a', '--json'], '--json stands before the command'],
    [['--sconds', 'ranges', 'a'], 'there is no option --sconds; is it --seconds?'],
  ];
  for (const [words, why] of rows) {
    const { status, out, help } = done(...words);
    assert.deepEqual([status, out, help.split('\n')[0]], [1, 'error: words\n', why]);
    for (const command of COMMANDS) assert.ok(help.includes(`\n  ${command} `), command);
    assert.deepEqual(done('--quiet', ...words), { status: 1, out: 'error: words\n', help: '' });
  }
});

test('--help and --version print beside the one line', () => {
  const help = done('--help');
  assert.deepEqual([help.status, help.out], [1, 'error: words\n']);
  const named = [...COMMANDS, '--seconds', '--json', '--strict', '--quiet'];
  for (const word of named) assert.ok(help.help.includes(word), word);
  const version = done('--version');
  assert.deepEqual([version.status, version.out], [1, 'error: words\n']);
  assert.match(version.help, /^mseplay \d+\.\d+\.\d+, module [0-9a-f]{12}\n$/);
});

test('a script with a fault: the line, the text that is there, and what may stand there', () => {
  const rows = [
    ['steps = [\n  "attach",\n  # "seek 1"\n  "add video/mp4",\n  "drain",\n\n  "seek 1.5",\n]',
      'script.toml:7: step 3 "seek 1.5": a time is ticks, n/scale, inf or nan'],
    ['steps = ["atach"]', 'script.toml:1: step 0 "atach": atach is no call and no step; is it attach?'],
    ["steps = [\n'append 0']",
      'script.toml:2: step 0 "append 0": it is written append K B, or append K B F L, with one space between words'],
    ['steps = ["append 00 1"]', 'script.toml:1: step 0 "append 00 1": '
      + 'K is the number of a source buffer: digits without leading zeros, below 2^32'],
    ['steps = ["add "]', 'script.toml:1: step 0 "add ": it is written add TYPE, and a TYPE is not empty'],
    ['steps = ["mode 0 both"]', 'script.toml:1: step 0 "mode 0 both": a mode is segments or sequence'],
    ['steps = [\n1]', 'script.toml:2: step 0: a step line is a text'],
    ['quota = 0', 'script.toml:1: key quota: quota is a whole number from 1 to 1,099,511,627,776'],
    ['\n\nstep = ["attach"]',
      'script.toml:3: key step: the keys of a script are quota, drain, gap, blobs, steps, rules; is it steps?'],
    ['[rules]\nlistener = 0', 'script.toml:1: key rules: rules is a list of tables, each under [[rules]]'],
    ['"k\u00e9y" = 1', 'script.toml:1: key k?y: the keys of a script are quota, drain, gap, blobs, steps, rules'],
    ['blobs = [\n  "hex 00",\n  "hex 0",\n]', 'script.toml:3: blob 1 "hex 0": hex has two digits for each byte'],
    ['blobs = ["file"]', 'script.toml:1: blob 0 "file": a blob is file NAME or hex DIGITS'],
    ['[[rules]]\nlistener = 0\non = "updateend"\ncalls = ["attach"]',
      'script.toml:3: rule 0 on "updateend": '
      + 'an event begins with its target: source, sourcebuffers, activesourcebuffers, element, or buffer K'],
    ['steps = []\n\n[[rules]]\nlistener = 0\non = "buffer 0 updateend"\ncalls = ["attach"]\n\n'
      + '[[rules]]\nlistener = 1\non = "source sourceopen"',
      'script.toml:8: rule 1: it lacks calls'],
    ['[[rules]]\nlistener = 0\non = "source sourceopen"\ncalls = [\n "state",\n "drain",\n]',
      'script.toml:6: rule 0 "drain": drain stands in steps alone, and a rule makes calls'],
    ['[[rules]]\nlistener = 16\non = "source sourceopen"\ncalls = ["state"]',
      'script.toml:2: rule 0 "listener": a listener is a number from 0 to 15'],
    ['[[rules]]\nlistener = 1\nevery = 2\non = "source sourceopen"\ncalls = ["state"]',
      'script.toml:3: rule 0 "every": the keys of a rule are listener, on, times, repeat, calls'],
    ['steps = [\n "attach', 'script.toml:2: not TOML: a text that has no end'],
    ['quota = 1\nsteps = [\n "attach"\n', 'script.toml:2: not TOML: a list that has no end'],
    ['quota = 1\nquota = 2', 'script.toml:2: not TOML: the key quota stands twice'],
    [Buffer.from([0x23, 0xff]), 'script.toml: not TOML: the bytes are no UTF-8'],
  ];
  for (const [text, help] of rows) assert.equal(helpOfScript(text), `${help}\n`);
  const many = Array.from({ length: 1001 }, () => '"hex "').join(',');
  assert.equal(helpOfScript(`\nblobs = [${many}]`), 'script.toml:2: too many blobs: at most 1,000\n');
});

test('each case of a script with a fault has help, and a line that is told is one of the script', () => {
  let [told, all] = [0, 0];
  chdir(DATA);
  try {
    for (const { status, kind, words } of cases()) {
      if (status !== 2 || kind !== 'run') continue;
      const { help } = done(...words);
      const place = new RegExp(`^${words[1].replace(/[.+]/g, '\\$&')}(?::(\\d+))?: .`);
      const [, number] = place.exec(help) ?? assert.fail(help);
      const count = read(words[1]).toString('latin1').split('\n').length;
      assert.ok(number === undefined || Number(number) <= count, help);
      told += number === undefined ? 0 : 1;
      all += 1;
    }
  } finally {
    chdir(folder);
  }
  assert.ok(all >= 50 && told >= all / 2, `${told} of ${all}`);
});

test('no caution and no help where all is right', () => {
  chdir(DATA);
  try {
    for (const { status, kind, words } of cases().filter((_, i) => i % 7 === 0)) {
      if (status !== 0 || kind !== 'run') continue;
      const lines = done(...words).help.split('\n').slice(0, -1);
      const isCaution = (line) => /less than a microsecond|more such times|Look at: /.test(line);
      assert.ok(lines.every(isCaution), lines[0]);
    }
  } finally {
    chdir(folder);
  }
});

test('a bare number of ticks below a microsecond has a caution', () => {
  const text = 'steps = [\n "attach",\n "seek 5",\n "seek 5/1", "seek 0", "seek 141120",\n "remove 0 -1 inf",\n]';
  assert.equal(helpOfScript(text),
    'script.toml:3: "seek 5": 5 is 5 ticks, less than a microsecond; 5 seconds are 5/1\n'
    + 'script.toml:5: "remove 0 -1 inf": -1 is -1 tick, less than a microsecond; -1 seconds are -1/1\n');
  const many = Array.from({ length: 8 }, (_, i) => `"seek ${i + 1}"`);
  assert.match(helpOfScript(`steps = [${many}]`), /^(script.toml:1: .*\n){5}script.toml: 3 more such times\n$/);
  const rule = '[[rules]]\nlistener = 0\non = "source sourceopen"\ncalls = ["seek 5"]';
  assert.match(helpOfScript(rule), /^script.toml:4: "seek 5": /);
  assert.equal(done('feed', '5', 'plain.mp4').help, '5 is 5 ticks, less than a microsecond; 5 seconds are 5/1\n');
  assert.equal(done('feed', '0', 'plain.mp4').help, '');
  for (const word of ['141119', '-141119', '1']) assert.ok(isTinyTime(word), word);
  for (const word of ['141120', '0', '1/1', 'inf', 'x']) assert.ok(!isTinyTime(word), word);
});

test('a fault has what to look at, in the words of docs/SCRIPTS.md', () => {
  const { status, help } = done('ranges', 'no-tfdt.mp4');
  assert.equal(status, 9);
  assert.equal(help, `Moof NoTfdt: ${table.MOOF_FAULTS[3].means}. Look at: ${table.MOOF_FAULTS[3].look}\n`);
  const rows = SCRIPTS.split('\n').filter((line) => /^\| (\d+ \| )?`\w/.test(line));
  const cells = rows.map((row) => row.replaceAll('`', '').slice(2, -2).split(' | '));
  const ours = Object.values(table).flat();
  for (const { name, means, look } of ours) {
    const isRow = (row) => row.at(-1) === look && row.at(-2) === means && row.at(-3).split(', ').includes(name);
    assert.ok(cells.some(isRow), name);
  }
  const numbered = cells.filter((row) => row.length === 4 && /^\d+$/.test(row[0])).map((row) => row[1]);
  for (const { name } of [...table.FAULTS, ...table.REMUX_FAULTS]) assert.ok(numbered.includes(name), name);
  assert.equal(table.FAULTS.length, 18);
  assert.equal(table.REMUX_FAULTS.length, 9);
  assert.match(faultHelp('fault 9 Init Missing stsd buffer 0 at 24'), /^Init Missing stsd: the box is not there/);
  assert.match(faultHelp('fault 24 Moov Missing stts at 24'), /^Moov Missing stts: the box is not there/);
  assert.match(faultHelp('fault 23 Fragmented at 24'), /^Fragmented: the file is fragmented already/);
  assert.equal(faultHelp('duration inf'), undefined);
});

test('--seconds prints times as seconds', () => {
  const { out, status } = done('--seconds', 'ranges', 'plain.mp4');
  assert.equal(status, 0);
  assert.equal(out, 'duration inf\nbuffer 0 phase waiting held 0 used 12 buffered [0,0.1)\n'
    + 'track 0 1 video avc1 frames 3 ranges [0,0.1)\n');
  const rows = [
    ['call seek 211680000000: done', 'call seek 1.5: done'],
    ['call append 0 0 141120000000 5: done', 'call append 0 0 141120000000 5: done'],
    ['call remove 0 -141120000000 inf: refused TypeError', 'call remove 0 -1 inf: refused TypeError'],
    ['listener 3 buffered 0: ranges [0,4704000000) [141120000000,282240000000)',
      'listener 3 buffered 0: ranges [0,0.033333333) [1,2)'],
    ['call seekable: range [0,14112000000]', 'call seekable: range [0,0.1]'],
    ['call add position 5: refused NotSupportedError', 'call add position 5: refused NotSupportedError'],
    ['call state: source open duration nan level 0 position 141120000000 paused true seeking false error 0',
      'call state: source open duration nan level 0 position 1 paused true seeking false error 0'],
    ['frame 1 pts 4704000000 dts 0 dur 4704000000 bytes 4 sync false',
      'frame 1 pts 0.033333333 dts 0 dur 0.033333333 bytes 4 sync false'],
    ['feed 0 1 at 14112000000 none', 'feed 0 1 at 0.1 none'],
    ['event element seeking', 'event element seeking'],
  ];
  for (const [line, wanted] of rows) assert.equal(inSeconds(line), wanted);
  assert.deepEqual(['1', '-1', '-141120000000', '70', '71'].map(secondsOf), ['0', '0', '-1', '0', '0.000000001']);
});

test('--json prints a line of JSON for each line', () => {
  const { out } = done('--json', 'feed', '1/30', 'plain.mp4');
  const [first, frame] = out.trimEnd().split('\n').map((line) => JSON.parse(line));
  assert.deepEqual(first, { feed: { buffer: 0, track: 1, at: '4704000000', wanted: 1 } });
  assert.deepEqual(frame, { frame: 0, pts: '0', dts: '0', dur: '4704000000', bytes: 4, sync: true });
  assert.equal(done('--json', '--seconds', 'ranges', 'plain.mp4').out.split('\n')[1],
    '{"buffer":0,"phase":"waiting","held":0,"used":12,"buffered":[["0","0.1"]]}');
  const rows = [
    ['call add a: b: done', { call: 'add a: b', answer: 'done' }],
    ['listener 2 abort 0: refused InvalidStateError', { listener: 2, call: 'abort 0', refused: 'InvalidStateError' }],
    ['event buffer 0 updateend', { event: 'updateend', target: 'buffer 0' }],
    ['fault 9 Init Missing stsd buffer 0 at 24', { fault: 9, name: 'Init Missing stsd', buffer: 0, offset: 24 }],
    ['call seekable: range none', { call: 'seekable', range: null }],
    ['made 1 bytes 1756 frames 30', { made: 1, bytes: 1756, frames: 30 }],
    ['error: no file a', { error: 'no file a' }],
    ['end Wait', { end: 'Wait' }],
  ];
  for (const [line, wanted] of rows) assert.deepEqual(JSON.parse(asJSON(line, false)), wanted);
});

test('each line that a case prints is read, and its seconds are those of its ticks', () => {
  let count = 0;
  for (const { kind, text, words } of cases()) {
    if (kind !== 'run' || words[0] === 'remux') continue;
    for (const line of new Set(read(text).toString().split('\n').slice(0, -1))) {
      const found = JSON.parse(asJSON(line, false));
      assert.ok(!('line' in found) && Object.values(found).every((value) => value !== undefined), line);
      inSeconds(line);
      count++;
    }
  }
  assert.ok(count > 5000);
});

test('--strict ends with 10 where a call was refused, a track had a fault, or no track came', () => {
  writeFileSync('note.txt', 'no media');
  const steps = '"attach", "add video/mp4", "append 0 0", "drain"';
  writeFileSync('refused.toml', `blobs = ["file plain.mp4"]\nsteps = [${steps}, "abort 7"]\n`);
  writeFileSync('faulty.toml', `blobs = ["file no-tfdt.mp4"]\nsteps = [${steps}]\n`);
  writeFileSync('good.toml', `blobs = ["file plain.mp4"]\nsteps = [${steps}]\n`);
  const rows = [
    [['ranges', 'plain.mp4'], 0, 0], [['ranges', 'note.txt'], 0, 10], [['ranges', 'no-tfdt.mp4'], 9, 9],
    [['ranges', 'lost'], 8, 8],
    [['play', 'refused.toml'], 0, 10], [['play', 'faulty.toml'], 0, 10], [['play', 'good.toml'], 0, 0],
    [['feed', '0', 'plain.mp4'], 0, 0], [['feed', '0', 'note.txt'], 0, 10], [['make', '1'], 0, 0], [['x'], 1, 1],
  ];
  for (const [words, status, strict] of rows) {
    assert.equal(done(...words).status, status, words.join(' '));
    assert.deepEqual([done('--strict', ...words).status, done('--strict', ...words).out], [strict, done(...words).out]);
  }
});

test('files that are missing, are folders, or cannot be read', () => {
  mkdirSync('some');
  writeFileSync('play.toml', 'blobs = ["file plain.mp4", "file some", "file lost"]\n');
  writeFileSync('lost.toml', 'blobs = ["file plain.mp4", "file l\u00f6st"]\n');
  writeFileSync('bad.toml', 'blobs = ["file some"]\nsteps = ["x"]\n');
  const rows = [
    [['ranges', 'lost.mp4'], 8, 'error: no file lost.mp4\n'], [['ranges', 'some'], 3, 'error: read some\n'],
    [['ranges', ''], 8, 'error: no file \n'], [['ranges', 'plain.mp4/x'], 3, 'error: read plain.mp4/x\n'],
    [['play', 'play.toml'], 3, 'error: read some\n'], [['play', 'lost.toml'], 8, 'error: no file l?st\n'],
    [['play', 'bad.toml'], 2, 'error: script step 0\n'],
  ];
  for (const [words, status, out] of rows) assert.deepEqual([done(...words).status, done(...words).out], [status, out]);
  if (getuid?.() !== 0) {
    writeFileSync('closed', '');
    chmodSync('closed', 0);
    assert.deepEqual(done('ranges', 'closed').out, 'error: read closed\n');
  }
});

test('a broken pipe ends the program quietly', async () => {
  writeFileSync('long.toml', `steps = [${'"state",'.repeat(50_000)}]\n`);
  const program = spawn(process.execPath, [PROGRAM, 'play', 'long.toml'], { stdio: ['ignore', 'pipe', 'pipe'] });
  const help = [];
  program.stderr.on('data', (bytes) => help.push(bytes));
  program.stdout.once('data', () => program.stdout.destroy());
  const [status, signal] = await once(program, 'close');
  assert.deepEqual([status, signal, Buffer.concat(help).toString()], [4, null, '']);
});

test('help goes to standard error alone', () => {
  const ran = spawnSync(process.execPath, [PROGRAM, 'ranges', 'no-tfdt.mp4'], { encoding: 'utf8' });
  assert.equal(ran.status, 9);
  assert.equal(ran.stdout, done('ranges', 'no-tfdt.mp4').out);
  assert.equal(ran.stderr, done('ranges', 'no-tfdt.mp4').help);
});

test('texts of TOML are read as they are written', () => {
  const text = 'a = "x\\u00e9\\t\\"#" # "no"\n'
    + 'b = [\'c:\\d\', """\nm"n\\\n   o""", \'\'\'p\'\'\'\']\n"k e" = { q = 1 }\n';
  assert.deepEqual(stringsOf(text), ['x\u00e9\t"#', 'c:\\d', 'm"no', "p'", 'k e']);
  const keys = readKeys(text);
  assert.deepEqual([...keys.keys()], ['a', 'b', 'k e']);
  const found = keys.get('b').value.items.map(({ value, line }) => [value, line]);
  assert.deepEqual(found, [['c:\\d', 2], ['m"no', 2], ["p'", 4]]);
  // 2^110 ticks are a number of 34 digits, so only times with a small scale are beyond it
  for (const word of ['0', '-1', '1/1', '-1001/30000', 'inf', 'nan', '9'.repeat(24)]) assert.ok(isTime(word), word);
  for (const word of ['-0', '+1', '1.5', '01', '1/0', '1/4294967296', '', ' 1', '1'.repeat(25), `${'9'.repeat(24)}/1`]) {
    assert.ok(!isTime(word), word);
  }
});
