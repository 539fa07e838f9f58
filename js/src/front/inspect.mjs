// `mseplay inspect FILE..`: the front end's own command, which the native program does not have.

import { run, Session } from '../engine.mjs';
import { catalogue } from '../catalogue/catalogue.mjs';
import { fileSource } from '../catalogue/file_source.mjs';
import { ResumeError } from '../catalogue/resume.mjs';
import { INSPECT_HELP, inspectWords, WordsError } from '../catalogue/words.mjs';
import { inspect } from '../inspect/files.mjs';
import { byName } from '../inspect/plan.mjs';
import { textTable } from '../inspect/table.mjs';
import { faultHelp } from './faults.mjs';

const WORDS = 1;
const READ = 3;
const NO_FILE = 8;
const FAULT = 9;

const encoder = new TextEncoder();
const bytesOf = (lines) => encoder.encode(lines.map((line) => `${line}\n`).join(''));

async function linesOf(sources) {
  const told = await inspect({ run, Session }, [...sources].sort(byName), { help: faultHelp });
  const { rows, sentences, notes, fault, inspection } = told;
  inspection.close();
  return { lines: [...textTable(rows), '', ...sentences.map(({ text }) => text), ...notes], status: fault ? FAULT : 0 };
}

const readStatus = (error) => (error.code === 'ENOENT' ? NO_FILE : READ);

// All files as one stream.
async function inspectTogether(names, put) {
  const sources = [];
  try {
    for (const name of names) sources.push(fileSource(name));
    const { lines, status } = await linesOf(sources);
    put(1, bytesOf(lines));
    return status;
  } catch (error) {
    if (error.code === undefined || error.code === 'EPIPE') throw error;
    const name = names[sources.length] ?? names.at(-1);
    const help = error.code === 'EISDIR' ? '; with --jobs N the files of a folder are inspected, each by itself' : '';
    put(2, bytesOf([`${name}: ${error.message}${help}`]));
    return readStatus(error);
  } finally {
    sources.forEach((source) => source.close());
  }
}

// Each file by itself. A list that cannot be read, or a file that is not to be gone on with, is told.
async function inspectApart(words, put) {
  try {
    return await catalogue(words, put);
  } catch (error) {
    const isTold = error instanceof ResumeError || (['open', 'read'].includes(error.syscall) && error.code !== 'EPIPE');
    if (!isTold) throw error;
    put(2, bytesOf([error.message]));
    return error instanceof ResumeError ? WORDS : readStatus(error);
  }
}

/** Inspects files, and prints what there is to tell; the status. `front` are the options before the command. */
export async function inspectFiles(all, put, front) {
  let words;
  try {
    words = inspectWords(all, front);
    if (words.names.length === 0 && words.from === undefined) throw new WordsError('');
  } catch (error) {
    if (!(error instanceof WordsError)) throw error;
    put(2, bytesOf([error.message, ...INSPECT_HELP].filter(Boolean)));
    return WORDS;
  }
  return words.isApart ? inspectApart(words, put) : inspectTogether(words.names, put);
}
