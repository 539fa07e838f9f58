// Small things that pages see of the classes, as browsers do them.

import assert from 'node:assert/strict';
import { once } from 'node:events';
import test from 'node:test';
import * as mseplay from '../src/index.mjs';
import { register } from '../src/register.mjs';
import { append, open, PLAIN } from './kit.mjs';
import { ADTS, hear, OF_BUFFER, rangesOf, VIDEO } from './players.mjs';

test('each class has its name', async () => {
  const { video, source } = await open();
  const buffer = source.addSourceBuffer(VIDEO);
  source.endOfStream('network');
  const objects = [video, new mseplay.HTMLAudioElement(), source, source.sourceBuffers, buffer, buffer.buffered,
    video.error, video.textTracks, video.audioTracks, video.videoTracks, video.addTextTrack('metadata')];
  assert.deepEqual(objects.map(String), ['[object HTMLVideoElement]', '[object HTMLAudioElement]',
    '[object MediaSource]', '[object SourceBufferList]', '[object SourceBuffer]', '[object TimeRanges]',
    '[object MediaError]', '[object TextTrackList]', '[object AudioTrackList]', '[object VideoTrackList]',
    '[object TextTrack]']);
});

test('bytes that went to somebody else are appended as none', async () => {
  const { source } = await open();
  const buffer = source.addSourceBuffer(VIDEO);
  for (const view of [(data) => data, (data) => new Uint8Array(data), (data) => new DataView(data)]) {
    const data = Uint8Array.from(PLAIN).buffer;
    const handed = view(data);
    structuredClone(data, { transfer: [data] });
    const heard = [];
    hear(heard, buffer, OF_BUFFER);
    await append(buffer, handed);
    assert.deepEqual(heard, ['updatestart', 'update', 'updateend']);
  }
  assert.equal(buffer.buffered.length, 0);
  assert.throws(() => buffer.appendBuffer(null), TypeError);
  assert.throws(() => buffer.appendBuffer(), TypeError);
});

test('an address that was taken back is an error of the element, and what is attached stays', async () => {
  const unregister = register();
  try {
    const source = new mseplay.MediaSource();
    const url = URL.createObjectURL(source);
    const video = document.createElement('video');
    video.src = url;
    URL.revokeObjectURL(url);
    await once(source, 'sourceopen');
    assert.deepEqual([video.currentSrc, source.readyState, video.error], [url, 'open', null]);
    const late = document.createElement('video');
    late.src = url;
    await once(late, 'error');
    assert.deepEqual([late.error.code, late.networkState, late.currentSrc], [4, late.NETWORK_NO_SOURCE, url]);
    assert.throws(() => URL.createObjectURL(null), TypeError);
  } finally {
    unregister();
  }
});

test('the offset behind appends in mode "sequence" is where the next frame goes', async () => {
  const { source } = await open();
  const buffer = source.addSourceBuffer(VIDEO);
  buffer.mode = 'sequence';
  for (const offset of [0, 0.1, 0.2]) {
    await append(buffer, offset === 0 ? PLAIN : PLAIN.subarray(595));
    assert.equal(buffer.timestampOffset, offset);
  }
  assert.deepEqual(rangesOf(buffer.buffered), [[0, 0.3]]);
  const sound = source.addSourceBuffer('audio/aac');
  await append(sound, ADTS);
  await append(sound, ADTS);
  assert.equal(sound.timestampOffset, 4096 / 48000);
});

test('lists take numbers as keys, and events have their target', async () => {
  const { source } = await open();
  const added = once(source.sourceBuffers, 'addsourcebuffer');
  const buffer = source.addSourceBuffer(VIDEO);
  const [event] = await added;
  assert.equal(event.target, source.sourceBuffers);
  assert.deepEqual([source.sourceBuffers[0], source.sourceBuffers[1], source.sourceBuffers.length],
    [buffer, undefined, 1]);
  let self = null;
  buffer.onupdateend = function heard(ofEvent) { self = [this, ofEvent.target, ofEvent.type]; };
  await append(buffer, PLAIN);
  assert.deepEqual(self, [buffer, buffer, 'updateend']);
  buffer.onupdateend = 'no function';
  assert.equal(buffer.onupdateend, null);
});
