// The worker: the engine, and what takes time. The page asks by name; each answer has the number of its question.

import { load } from "../../../js/src/engine/load.mjs";
import { faultHelp } from "../../../js/src/front/faults.mjs";
import { inspect } from "../../../js/src/inspect/files.mjs";
import { blobSource } from "../../../js/src/inspect/reader.mjs";
import { groupsAt } from "./fed.mjs";

const TOLD_EACH = 40; // milliseconds
let engine = null, live = null, ready = null;

// Tells the page how far it is, now and then.
function toldNowAndThen(tell) {
  let last = performance.now();
  return (row, part) => {
    if (performance.now() - last < TOLD_EACH) return;
    tell({ file: row.file, part });
    last = performance.now();
  };
}

const handlers = {
  async start({ module }) {
    engine = await load(module);
  },

  // Files of media, to a session that goes on.
  async inspect({ files, gap }, tell) {
    const found = await inspect(engine, files.map(file => blobSource(file.path, file.blob)),
      { help: faultHelp, heard: toldNowAndThen(tell), gap });
    live?.inspection.close();
    live = found;
    return { ...shown(), rows: found.rows, sentences: found.sentences, notes: found.notes, classic: found.classic,
      buffers: found.buffers, fault: found.fault };
  },

  // Steps of the live session, as a seek; gives what is told then.
  step({ lines }) {
    needLive();
    for (const line of lines) live.inspection.step(line);
    return shown();
  },

  // What a decoder is given at a time, of each buffer.
  async feed({ ticks }) {
    needLive();
    return groupsAt(engine, live, ticks);
  },

  // The script of all that was done, with its files.
  script() {
    needLive();
    const { steps, sources, keys } = live.inspection;
    return { steps, keys, files: sources.map(({ name }) => name) };
  },

  // The bytes of a file of the script that is none of those dropped, as one that remux wrote.
  file({ name }) {
    needLive();
    const source = live.inspection.sources.find(source => source.name === name);
    return source.read(0, source.size);
  },

  // One run of the program.
  async run({ words, files }) {
    const bytes = {};
    for (const [name, blob] of Object.entries(files)) bytes[name] = new Uint8Array(await blob.arrayBuffer());
    const { status, text } = engine.run(words, bytes);
    return { status, text };
  },
};

// A worker that was stopped takes its session along.
function needLive() {
  if (!live) throw new Error("the session of these files has ended, since work was stopped: drop them again");
}

const shown = () => ({ lines: live.inspection.lines, block: live.inspection.block() });

addEventListener("message", async ({ data: { id, name, facts } }) => {
  if (name === "start") ready = handlers.start(facts);
  try {
    await ready;
    if (name === "start") { postMessage({ id, answer: null }); return; }
    postMessage({ id, answer: await handlers[name](facts, heard => postMessage({ id, heard })) });
  } catch (error) {
    postMessage({ id, error: `${error?.message ?? error}` });
  }
});
