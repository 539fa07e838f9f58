// What happens to the three players: the same in node and in a browser. `env` has the media, an element, and
//
// - `pass(seconds)`: lets so much time pass;
// - `refuse(buffer)`: has the next append to a buffer refused, as a full buffer does;
// - `breakDecoder(video, source)`: has the decoder fail.

import { ChainedPlayer } from './chained.mjs';
import { LossyPlayer } from './lossy.mjs';
import { rangesOf, repeated, segmentsOf, typeOf } from './media.mjs';
import { PromisedPlayer } from './promised.mjs';

const STEP = 0.1;
const MOST_SECONDS = 40;

async function until(env, isSo) {
  for (let passed = 0; !isSo(); passed += STEP) {
    if (passed > MOST_SECONDS) throw new Error(`waited in vain until ${isSo}`);
    await env.pass(STEP);
  }
}

// Eight seconds of pictures and of sound, of which one is missing.
export async function runChained(env) {
  const { init, segments } = segmentsOf(env.plain);
  const pictures = Array.from({ length: 8 }, (_, index) => {
    const place = index % segments.length;
    return { bytes: segments[place], offset: index - place, index };
  }).filter(({ index }) => index !== 5);
  const sound = Array.from({ length: 6 }, (_, index) => {
    return { bytes: repeated(env.sound, 5), offset: index === 4 ? 6 : undefined, index };
  });
  const { video } = env;
  let isDisturbed = false;
  const player = new ChainedPlayer(video, [
    { name: 'pictures', type: typeOf(init), init, segments: pictures },
    { name: 'sound', type: 'audio/aac', segments: sound },
  ], (name, index, buffer) => {
    if (isDisturbed || name !== 'pictures' || index !== 4) return;
    isDisturbed = true;
    env.refuse(buffer);
  });
  await until(env, () => video.readyState >= video.HAVE_FUTURE_DATA);
  await video.play();
  await until(env, () => player.isOver);
  const buffered = [video.buffered, ...player.tracks.map(({ buffer }) => buffer.buffered)].map(rangesOf);
  player.destroy();
  await until(env, () => player.log.includes('source sourceclose'));
  return { log: player.log, jumps: player.jumps, failure: player.failure, buffered };
}

// Four seconds of pictures with an ad in them, and of sound.
export async function runPromised(env) {
  const [main, ad] = [segmentsOf(env.plain), segmentsOf(env.late)];
  const { video } = env;
  const player = new PromisedPlayer(video);
  // promises wait while time passes
  let done = false;
  let failure = null;
  let buffered = null;
  const steps = async () => {
    await player.open();
    const mainType = typeOf(main.init);
    const [pictures, sound] = [player.add('pictures', mainType), player.add('sound', 'audio/mp4; codecs="opus"')];
    const adts = { bytes: repeated(env.sound, 5), type: 'audio/aac', count: 3 };
    await Promise.all([
      player.loadPictures(pictures, { ...main, type: mainType }, { ...ad, type: typeOf(ad.init), start: 0.08 }),
      player.loadSound(sound, { bytes: env.opus, length: 1 }, adts),
    ]);
    player.end();
    await player.play();
    await player.seek(1);
    await pictures.remove(0, 0.5);
    buffered = [pictures.buffer, sound.buffer].map((each) => rangesOf(each.buffered));
    await player.destroy();
  };
  steps().catch((error) => { failure = `${error}`; }).finally(() => { done = true; });
  await until(env, () => done);
  return { log: player.log, failure, buffered };
}

// Three seconds of pictures, over a network that fails, a decoder that fails, and a page that takes the source away.
export async function runLossy(env) {
  const { init, segments } = segmentsOf(env.plain);
  const parts = [init, ...segments];
  const { video } = env;
  const failures = new Set();
  let breaks;
  const isBroken = new Promise((keep) => { breaks = keep; });
  const player = new LossyPlayer(video, typeOf(init), parts.length, async (index, life) => {
    if (index === 2 && !failures.has(life)) {
      failures.add(life);
      throw new Error('the network is lost');
    }
    // the last part comes when the decoder has failed, so that the source is open until then
    if (index === 3 && life === 1) await isBroken;
    return parts[index];
  });
  await until(env, () => video.currentTime >= 1.3 && !player.life.buffer.updating);
  env.breakDecoder(video, player.life.source);
  await until(env, () => player.lives === 2);
  breaks();
  await until(env, () => video.currentTime >= 1.5);
  const buffered = rangesOf(video.buffered);
  video.removeAttribute('src');
  video.load();
  await until(env, () => player.lives === 3 && video.currentTime >= 0.5);
  player.destroy();
  await until(env, () => player.log.includes(`source ${player.lives} sourceclose`));
  const state = [video.readyState, video.networkState, video.paused, video.currentTime, video.error];
  return { log: player.log, buffered, state };
}

export const RUNS = { chained: runChained, promised: runPromised, lossy: runLossy };
