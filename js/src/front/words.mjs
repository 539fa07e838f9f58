// The words of the program: what stands before the command, and what is wrong with words that are no command.

import { nearest } from './calls.mjs';
import { isTime, isTinyTime, TIME_HELP, tinyTimeHelp } from './times.mjs';

/** What each command is called with, and what it prints. */
const COMMANDS = {
  ranges: ['FILE', 'what one source buffer makes of a file'],
  pieces: ['N FILE', 'the same, from appends of N bytes each'],
  play: ['SCRIPT', 'each call of a script with its answer, each event, and what is buffered'],
  make: ['N', 'a line about a file of N segments that it makes, and the same of it'],
  remux: ['FILE', 'a classic file as fragments, to be redirected to a file'],
  feed: ['T FILE', 'the frames that a decoder is given from the time T on'],
};

const OPTIONS = {
  '--seconds': 'times are printed as seconds',
  '--json': 'each line is printed as a line of JSON',
  '--strict': 'the status is 10 where a call was refused, a track had a fault or no track came, and it would be 0',
  '--quiet': 'no help is printed',
};

const isCount = (word, most) => /^[1-9][0-9]*$/.test(word) && BigInt(word) <= most;

/** The options before the command, and the words of the command. */
export function splitWords(all) {
  const count = all.findIndex((word) => !Object.hasOwn(OPTIONS, word));
  const front = count < 0 ? all : all.slice(0, count);
  return { options: new Set(front.map((word) => word.slice(2))), words: all.slice(front.length) };
}

const row = ([name, text]) => `  ${name.padEnd(18)}${text}`;

/** The six commands, and the options. */
export function commandsHelp() {
  const commands = Object.entries(COMMANDS).map(([name, [words, text]]) => [`${name} ${words}`, text]);
  return ['mseplay [OPTIONS] COMMAND, where COMMAND is one of', ...commands.map(row),
    'or, which the native program does not have,',
    row(['inspect FILE..', 'a row for each segment of the files, in the order of their names, and what is wrong in them']),
    row(['inspect --jobs N FILE..', 'each file by itself, and those of folders; inspect alone tells its options']),
    'and OPTIONS, which the native program does not have, are', ...Object.entries(OPTIONS).map(row),
    'A path is from the folder that it is called in.',
    'A time is ticks, of which a second has 141,120,000,000, or n/scale.'];
}

/** What is wrong with words that are no command. */
export function wordsHelp(words) {
  const [name, ...rest] = words;
  if (name === undefined) return 'a command is missing';
  if (name.startsWith('--')) {
    const names = Object.keys(OPTIONS);
    return `there is no option ${name}${nearest(name, names)}`;
  }
  if (!Object.hasOwn(COMMANDS, name)) return `there is no command ${name}${nearest(name, Object.keys(COMMANDS))}`;
  const form = COMMANDS[name][0];
  const late = rest.find((word) => Object.hasOwn(OPTIONS, word));
  if (late) return `${late} stands before the command`;
  const count = form.split(' ').length;
  const wanted = count === 1 ? 'one word' : 'two words';
  if (rest.length !== count) return `${name} is called with ${form}: ${wanted} and not ${rest.length}`;
  if (name === 'pieces' && !isCount(rest[0], 1n << 31n)) return 'N is a number from 1 to 2147483648';
  if (name === 'make' && !isCount(rest[0], 10_000n)) return 'N is a number from 1 to 10000';
  if (name === 'feed' && !isTime(rest[0])) return TIME_HELP;
  if (name === 'feed') return 'the time that feed begins at is finite';
  return 'they are no command';
}

/** The cautions for the words of a command. */
export function wordsCautions(words) {
  return words[0] === 'feed' && words.length === 3 && isTinyTime(words[1]) ? [tinyTimeHelp(words[1])] : [];
}
