// The program for node: README.md, "The program".

import { readFileSync, writeSync } from 'node:fs';
import { run } from '../engine.mjs';
import { faultHelp } from './faults.mjs';
import { inspectFiles } from './inspect.mjs';
import { runInFolder } from './files.mjs';
import { asJSON, inSeconds, isPoor } from './lines.mjs';
import { scriptCautions, scriptHelp } from './script.mjs';
import { commandsHelp, splitWords, wordsCautions, wordsHelp } from './words.mjs';

/** The status where a put failed, and that of `--strict`. */
const WRITE = 4;
const POOR = 10;
const PIECE = 1 << 16;

const here = (name) => readFileSync(new URL(`../../${name}`, import.meta.url), 'utf8');

/** Writes all bytes to a file that is open. A reader that went away, or a full disk, is an error. */
function put(file, bytes) {
  for (let at = 0; at < bytes.length;) {
    try {
      at += writeSync(file, bytes, at, Math.min(PIECE, bytes.length - at));
    } catch (error) {
      if (error.code !== 'EAGAIN') throw error;
      Atomics.wait(new Int32Array(new SharedArrayBuffer(4)), 0, 0, 1);
    }
  }
}

function versionHelp() {
  const { version } = JSON.parse(here('package.json'));
  return [`mseplay ${version}, module ${JSON.parse(here('mseplay.wasm.json')).module.slice(0, 12)}`];
}

/** The lines of help behind what a run printed. */
function helpOf(words, { result, main }, lines) {
  if (words[0] === '--version') return versionHelp();
  if (words[0] === '--help') return commandsHelp();
  if (lines[0] === 'error: words') return [wordsHelp(words), ...commandsHelp()];
  if (lines[0]?.startsWith('error: script ')) return [scriptHelp(lines[0], words[1], main)];
  const cautions = words[0] === 'play' && main ? scriptCautions(words[1], main) : wordsCautions(words);
  return [...cautions, ...lines.map(faultHelp).filter(Boolean)];
}

/** Whether a command prints a file and no lines. */
const isFile = (words, { status }) => words[0] === 'remux' && status === 0;

function shown(options, lines) {
  const isSeconds = options.has('seconds');
  if (options.has('json')) return lines.map((line) => asJSON(line, isSeconds));
  return isSeconds ? lines.map(inSeconds) : undefined;
}

/** Does what the words ask for, and puts what is printed and the help; the status, of `inspect` a promise of it. */
export function main(all, write = put) {
  const { options, words } = splitWords(all);
  if (words[0] === 'inspect') return inspectFiles(words.slice(1), write, options).catch(() => WRITE);
  const ran = runInFolder(run, words);
  const { result } = ran;
  const lines = isFile(words, result) ? undefined : result.text.split('\n').slice(0, -1);
  const changed = lines && shown(options, lines);
  try {
    write(1, changed ? new TextEncoder().encode(changed.map((line) => `${line}\n`).join('')) : result.bytes);
    const help = options.has('quiet') || !lines ? [] : helpOf(words, ran, lines);
    if (help.length > 0) write(2, new TextEncoder().encode(`${help.join('\n')}\n`));
  } catch {
    return WRITE;
  }
  return options.has('strict') && result.status === 0 && lines && isPoor(lines) ? POOR : result.status;
}
