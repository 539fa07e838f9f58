// The words behind `inspect`: its options, and the names of files and folders.

import { availableParallelism, cpus } from 'node:os';
import { nearest } from '../front/calls.mjs';

const MOST_JOBS = 256;

/** Each option, and what stands behind it. */
const OPTIONS = {
  '--jobs': 'N', '--from': 'FILE', '--resume': 'FILE', '--remux': null, '--json': null, '--seconds': null,
  '--quiet': null,
};
/** Options which say that each file is a stream of its own. */
const APART = ['jobs', 'from', 'resume', 'remux', 'json'];

export const INSPECT_HELP = [
  'inspect is called with FILE..: one file, or an initialization segment and media segments',
  'or with options, and then each file is a stream of its own:',
  '  --jobs N           so many files at a time; one a processor where it is left out',
  '  --from FILE        the names of files and folders, one a line; - is standard input',
  '  --json             a line of JSON for each file',
  '  --seconds          times in these lines as seconds',
  '  --remux            classic files are made into fragments, and these are inspected',
  '  --resume FILE      the lines of JSON go into FILE, and what it has is not done again',
  '  --quiet            nothing of how far it has come is printed',
];

/** Words that are none. */
export class WordsError extends Error {}

function split(word) {
  const at = word.indexOf('=');
  return at < 0 ? [word, undefined] : [word.slice(0, at), word.slice(at + 1)];
}

function jobsOf(word) {
  if (word === undefined) return availableParallelism?.() ?? cpus().length;
  if (!/^[1-9][0-9]{0,2}$/.test(word) || Number(word) > MOST_JOBS) {
    throw new WordsError(`--jobs: a number from 1 to ${MOST_JOBS}, not ${word}`);
  }
  return Number(word);
}

/**
 * What the words say. `front` are the options before the command. `isApart` is whether each file is a stream of its
 * own.
 */
export function inspectWords(words, front = new Set()) {
  const options = new Map([...front].map((name) => [name, true])), names = [];
  for (let at = 0; at < words.length; at++) {
    if (words[at] === '--') {
      names.push(...words.slice(at + 1));
      break;
    }
    if (!words[at].startsWith('--')) {
      names.push(words[at]);
      continue;
    }
    const [option, value] = split(words[at]);
    if (!Object.hasOwn(OPTIONS, option)) {
      throw new WordsError(`there is no option ${option}${nearest(option, Object.keys(OPTIONS))}`);
    }
    const isAlone = OPTIONS[option] === null;
    const told = isAlone ? true : value ?? words[++at];
    if (told === undefined || (isAlone && value !== undefined)) {
      throw new WordsError(isAlone ? `${option} stands alone` : `${option} is called with ${OPTIONS[option]}`);
    }
    options.set(option.slice(2), told);
  }
  const has = (name) => options.get(name) === true;
  const isApart = APART.some((name) => options.has(name));
  return {
    names, isApart, jobs: jobsOf(options.get('jobs')), from: options.get('from'), resume: options.get('resume'),
    isRemuxed: has('remux'), isJSON: has('json') || options.has('resume'), isSeconds: has('seconds'),
    isQuiet: has('quiet'),
  };
}
