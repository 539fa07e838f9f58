// The same classes in a page, beside the browser's own.

import assert from 'node:assert/strict';
import test, { after, before } from 'node:test';
import { chromium, openPage } from './chromium.mjs';
import { PLAIN } from './kit.mjs';
import { OddPlayer } from './players.mjs';

const skip = chromium === undefined && 'no Chromium here: it is in the Debian package chromium';
let page;
before(async () => {
  if (!skip) page = await openPage();
});
after(() => page?.close());

// calls a function in the page with the classes, the players, and the bytes of plain.mp4
function inPage(body, ...values) {
  return page.evaluate(`(async () => {
    const mseplay = await import('/js/src/index.mjs');
    const players = await import('/js/tests/players.mjs');
    const plain = new Uint8Array(await (await fetch('/crates/case_runs/data/plain.mp4')).arrayBuffer());
    return (${body})(mseplay, players, plain, ...${JSON.stringify(values)});
  })()`);
}

test('a player hears the same in a page as in node', { skip }, async () => {
  for (const seed of [1, 2, 3]) {
    const here = new OddPlayer(seed, PLAIN);
    await here.play();
    const there = await inPage(async (mseplay, { OddPlayer: Odd }, plain, number) => {
      const player = new Odd(number, plain);
      await player.play();
      return player.log;
    }, seed);
    assert.deepEqual(there, here.log);
  }
});

test('the classes of the browser stay beside those of the engine', { skip }, async () => {
  const found = await inPage(async ({ MediaSource }) => {
    const { register } = await import('/js/src/register.mjs');
    const own = globalThis.MediaSource;
    register()();
    const stays = globalThis.MediaSource === own && MediaSource !== own;
    const unregister = register({ replace: true });
    const video = document.createElement('video');
    const source = new globalThis.MediaSource();
    video.src = URL.createObjectURL(source);
    const state = [source instanceof MediaSource, source.readyState, document.createElement('div').tagName];
    unregister();
    return [stays, ...state, globalThis.MediaSource === own, document.createElement('video').tagName];
  });
  assert.deepEqual(found, [true, true, 'open', 'DIV', true, 'VIDEO']);
});

test('a page gets the files of its script', { skip }, async () => {
  const [names, text] = await inPage(async (mseplay, { Player }, plain) => {
    const video = new mseplay.HTMLVideoElement();
    new Player(video, 2, plain);
    await mseplay.settled(video);
    const files = mseplay.saveScript(video, 'no-such-folder', 'kept.toml');
    const { run } = await import('/js/src/engine.mjs');
    return [Object.keys(files), run(['play', 'kept.toml'], files).text];
  });
  assert.deepEqual(names, ['kept.toml', 'media0.bin']);
  assert.match(text, /^event source sourceended$/m);
});

test('the classes work in a worker', { skip }, async () => {
  const end = await inPage(async (mseplay, players, plain) => {
    const code = `
      const { HTMLVideoElement, MediaSource } = await import('${location.origin}/js/src/index.mjs');
      onmessage = ({ data }) => {
        const video = new HTMLVideoElement();
        const source = new MediaSource();
        video.srcObject = source;
        const buffer = source.addSourceBuffer('video/mp4');
        buffer.onupdateend = () => postMessage(video.buffered.end(0));
        buffer.appendBuffer(data);
      };
      postMessage('ready');`;
    const worker = new Worker(URL.createObjectURL(new Blob([code], { type: 'text/javascript' })), { type: 'module' });
    const told = () => new Promise((keep) => { worker.onmessage = ({ data }) => keep(data); });
    await told();
    worker.postMessage(plain);
    return told();
  });
  assert.equal(end, 0.1);
});
