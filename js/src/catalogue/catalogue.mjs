// `mseplay inspect` of many files, each a stream of its own.

import { unreadLine } from './line.mjs';
import { filesOf, readList } from './names.mjs';
import { inspectAll } from './pool.mjs';
import { Progress } from './progress.mjs';
import { resume } from './resume.mjs';

const READ = 3;
const FAULT = 9;

const encoder = new TextEncoder();

/** The lines that are printed of a file without `--json`: its sentences, each behind its name. */
function textOf(name, { text, says }) {
  const told = says ?? [JSON.parse(text).error.text];
  return told.map((one) => `${name}: ${one}\n`).join('');
}

const unreadAnswer = ({ name, error }) =>
  ({ text: JSON.stringify(unreadLine(name, error.code, error.text)), isFaulty: false, isUnread: true });

const passedText = (count) =>
  `${count} ${count === 1 ? 'file' : 'files'} of folders passed over, whose names are not of media\n`;

/** How far it has come is put to standard error, unless it is to be quiet. */
function progressOf(files, words, put) {
  const all = { files: files.length, bytes: files.reduce((sum, { size }) => sum + size, 0) };
  const columns = process.stderr.isTTY ? process.stderr.columns || 80 : 0;
  const silent = () => {};
  return new Progress({ put: words.isQuiet ? silent : (text) => put(2, encoder.encode(text)), all, columns });
}

/** A run over files. Its states are those of the whole catalogue, with what was done before. */
class Run {
  status = { isFaulty: false, isUnread: false };

  constructor(words, put, out, progress) { Object.assign(this, { words, put, out, progress }); }

  take({ isFaulty, isUnread }) {
    this.status.isFaulty ||= isFaulty;
    this.status.isUnread ||= isUnread;
  }

  heard(file, answer) {
    const text = this.words.isJSON ? `${answer.text}\n` : textOf(file.name, answer);
    if (this.out === 1) this.progress.clear();
    this.put(this.out, encoder.encode(text));
    this.take(answer);
    this.progress.add({ size: file.size, ...answer });
  }
}

/**
 * Inspects the files of the words. The status is 9 where one had a fault, else 3 where one could not be read, else 0.
 */
export async function catalogue(words, put) {
  const listed = words.from === undefined ? [] : readList(words.from);
  const { files, passedOver } = filesOf([...words.names, ...listed]);
  const kept = words.resume === undefined ? { file: 1, done: new Map(), close: () => {} } : resume(words.resume);
  try {
    const left = files.filter(({ name }) => !kept.done.has(name));
    const progress = progressOf(left, words, put);
    const run = new Run(words, put, kept.file, progress);
    for (const { name } of files) if (kept.done.has(name)) run.take(kept.done.get(name));
    for (const file of left.filter(({ error }) => error)) run.heard(file, unreadAnswer(file));
    await inspectAll(left.filter(({ error }) => !error), words, (file, answer) => run.heard(file, answer));
    progress.end();
    if (passedOver > 0 && !words.isQuiet) put(2, encoder.encode(passedText(passedOver)));
    return run.status.isFaulty ? FAULT : run.status.isUnread ? READ : 0;
  } finally {
    kept.close();
  }
}
