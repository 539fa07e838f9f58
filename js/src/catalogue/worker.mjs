// A thread that inspects one file after the other. It is given names, and answers each with its line.

import { parentPort, workerData } from 'node:worker_threads';
import { load } from '../engine/load.mjs';
import { fileSource } from './file_source.mjs';
import { lineOf, stateOfLine, unreadLine } from './line.mjs';

/** The memory of a module never shrinks, so behind a file of more bytes a new instance takes its place. */
const LARGE = 1 << 26;

const { module, isRemuxed, isSeconds } = workerData;
let engine = await load(module);

async function inspectOne(name) {
  let source, isSpent = false;
  try {
    source = fileSource(name);
    isSpent = source.size > LARGE;
    return await lineOf(engine, source, { isRemuxed, isSeconds });
  } catch (error) {
    isSpent = true;
    return unreadLine(name, error.code ?? error.name, error.message);
  } finally {
    source?.close();
    if (isSpent) engine = await load(module);
  }
}

parentPort.on('message', async (name) => {
  const line = await inspectOne(name);
  parentPort.postMessage({ text: JSON.stringify(line), says: line.says, ...stateOfLine(line) });
});
