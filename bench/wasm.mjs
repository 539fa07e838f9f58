// What wasm.py measures in node: each mode in a process of its own. Prints one line of JSON.

import { readFileSync } from 'node:fs';
import { performance } from 'node:perf_hooks';

const [mode, word] = process.argv.slice(2);
const source = (path) => new URL(`../js/${path}`, import.meta.url).href;

/** The seconds of the processor, of all threads of this process, that some work takes. */
async function processorSeconds(work) {
  const before = process.cpuUsage();
  await work();
  const { user, system } = process.cpuUsage(before);
  return (user + system) / 1e6;
}

/** From the import until `run` and `Session` are there: by the clock, and by the processor. */
async function load() {
  const start = performance.now();
  const processor = await processorSeconds(() => import(source('src/engine.mjs')));
  return { processor, clock: (performance.now() - start) / 1000 };
}

/** The first call of `run` in a process, the least of five later ones, and the memory that the module took. */
async function ranges() {
  const [{ Instance }, { run }] = await Promise.all([
    import(source('src/engine/instance.mjs')), import(source('src/engine/run.mjs')),
  ]);
  const instance = new Instance(new WebAssembly.Module(readFileSync(new URL(source('mseplay.wasm')))));
  const file = readFileSync(word);
  let status;
  const once = () => processorSeconds(() => { ({ status } = run(instance, ['ranges', 'a'], { a: file })); });
  const first = await once();
  const memory = instance.memory.buffer.byteLength;
  const later = [];
  for (let i = 0; i < 5; i += 1) later.push(await once());
  if (status !== 0) throw new Error(`status ${status}`);
  return { first, later: Math.min(...later), memory };
}

/** So many appends of three frames, each awaited with its three events. */
async function appends() {
  const { append, open, PICTURES } = await import(source('tests/kit.mjs'));
  const { source: media, video } = await open();
  const buffer = media.addSourceBuffer('video/mp4');
  await append(buffer, PICTURES.init);
  const processor = await processorSeconds(async () => {
    for (let i = 0; i < Number(word); i += 1) {
      buffer.timestampOffset = i * PICTURES.seconds;
      await append(buffer, PICTURES.segment);
    }
  });
  if (video.buffered.end(0) !== Number(word) * PICTURES.seconds) throw new Error(`${video.buffered.end(0)}`);
  return { processor };
}

/** A player that appends 150 segments, and plays them with 1,200 advances of the clock. */
async function plays() {
  const { PICTURES, PLAIN } = await import(source('tests/kit.mjs'));
  const { Player } = await import(source('tests/players.mjs'));
  const { Clock, HTMLVideoElement, settled } = await import(source('src/index.mjs'));
  const [segments, ticks] = [150, 1200];
  const processor = await processorSeconds(async () => {
    const clock = new Clock();
    const video = new HTMLVideoElement({ clock });
    const player = new Player(video, segments, PLAIN);
    video.play();
    await settled(video);
    if (player.next !== segments) throw new Error(`${player.next} segments`);
    for (let i = 0; i < ticks; i += 1) {
      clock.advance((segments * PICTURES.seconds) / ticks);
      await settled(video);
    }
  });
  return { processor };
}

console.log(JSON.stringify(await { load, ranges, appends, plays }[mode]()));
