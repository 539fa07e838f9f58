// The classes where a player's code names them.

import assert from 'node:assert/strict';
import { once } from 'node:events';
import test from 'node:test';
import * as mseplay from '../src/index.mjs';
import { register } from '../src/register.mjs';
import { PLAIN } from './kit.mjs';
import { VIDEO } from './players.mjs';

const NAMES = ['MediaSource', 'SourceBuffer', 'SourceBufferList', 'TimeRanges', 'HTMLVideoElement', 'HTMLAudioElement'];

// A player that names what a browser has, and nothing else.
async function playInBrowser(bytes) {
  const video = document.createElement('video');
  const source = new self.MediaSource();
  const url = URL.createObjectURL(source);
  video.src = url;
  await new Promise((keep) => { source.onsourceopen = keep; });
  URL.revokeObjectURL(url);
  const buffer = source.addSourceBuffer(VIDEO);
  buffer.appendBuffer(bytes);
  await new Promise((keep) => { buffer.onupdateend = keep; });
  return { video, source, buffer, url };
}

test('a player that names what a browser has runs unchanged', async () => {
  const before = Object.getOwnPropertyNames(globalThis).sort();
  const { createObjectURL, revokeObjectURL } = URL;
  const unregister = register();
  try {
    const { video, source, buffer, url } = await playInBrowser(PLAIN);
    assert.ok(video instanceof HTMLVideoElement && video instanceof mseplay.HTMLVideoElement);
    assert.ok(source instanceof MediaSource && buffer instanceof SourceBuffer);
    assert.ok(video.buffered instanceof TimeRanges && source.sourceBuffers instanceof SourceBufferList);
    assert.equal(video.src, url);
    assert.match(url, /^blob:/);
    assert.equal(video.buffered.end(0), 0.1);
    assert.ok(document.createElement('AUDIO') instanceof HTMLAudioElement);
    assert.throws(() => document.createElement('div'), { name: 'NotSupportedError' });
    const late = document.createElement('video');
    late.src = url;
    await once(late, 'error');
    assert.equal(late.error.code, 4);
  } finally {
    unregister();
  }
  assert.deepEqual(Object.getOwnPropertyNames(globalThis).sort(), before);
  assert.deepEqual([URL.createObjectURL, URL.revokeObjectURL], [createObjectURL, revokeObjectURL]);
});

test('addresses of what is no media source stay what they were', () => {
  const unregister = register();
  try {
    const url = URL.createObjectURL(new Blob(['text']));
    assert.match(url, /^blob:nodedata:/);
    URL.revokeObjectURL(url);
    assert.throws(() => URL.createObjectURL('text'), TypeError);
  } finally {
    unregister();
  }
});

// a window that has some of the names
function windowWith(things) {
  return { URL: class { static createObjectURL() { return 'blob:old'; } }, ...things };
}

test('what is there stays, unless it is to be replaced', () => {
  class Own {}
  const createElement = (name) => `own ${name}`;
  const document = { createElement };
  const window = windowWith({ MediaSource: Own, document });
  const unregister = register({ window });
  assert.deepEqual([window.MediaSource, window.document.createElement], [Own, createElement]);
  assert.equal(window.TimeRanges, mseplay.TimeRanges);
  assert.equal(window.URL.createObjectURL({}), 'blob:old');
  assert.match(window.URL.createObjectURL(new mseplay.MediaSource()), /^blob:mseplay/);
  assert.equal(globalThis.MediaSource, undefined);
  unregister();
  assert.deepEqual(Object.keys(window).sort(), ['MediaSource', 'URL', 'document']);

  const again = register({ window, replace: true });
  assert.equal(window.MediaSource, mseplay.MediaSource);
  assert.ok(window.document.createElement('video') instanceof mseplay.HTMLVideoElement);
  assert.equal(window.document.createElement('div'), 'own div');
  again();
  assert.deepEqual([window.MediaSource, window.document.createElement], [Own, createElement]);
});

test('what somebody else put there since stays', () => {
  const window = windowWith({});
  const unregister = register({ window });
  window.MediaSource = 'mine';
  unregister();
  assert.deepEqual([window.MediaSource, ...NAMES.slice(1).map((name) => window[name])],
    ['mine', undefined, undefined, undefined, undefined, undefined]);
});

test('elements that are made have the clock and the settings that were handed in', async () => {
  const clock = new mseplay.Clock();
  const window = windowWith({});
  register({ window, clock, quota: 12 });
  const video = window.document.createElement('video');
  const source = new window.MediaSource();
  video.srcObject = source;
  const buffer = source.addSourceBuffer(VIDEO);
  buffer.appendBuffer(PLAIN);
  await once(buffer, 'updateend');
  assert.throws(() => buffer.appendBuffer(PLAIN), { name: 'QuotaExceededError' });
  await video.play();
  clock.advance(0.05);
  assert.equal(video.currentTime, 0.05);
});
