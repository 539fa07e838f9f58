// Errors say what happened.

import assert from 'node:assert/strict';
import { once } from 'node:events';
import test from 'node:test';
import { faultInWords } from '../src/faults.mjs';
import { FAULTS, INIT_FAULTS, MOOF_FAULTS } from '../src/front/fault_table.mjs';
import { HTMLVideoElement, MediaSource, settled } from '../src/index.mjs';
import { append, example, open, PICTURES, PLAIN } from './kit.mjs';
import { VIDEO } from './players.mjs';

// the message of the error that a call throws
function messageOf(call) {
  try {
    call();
  } catch (error) {
    return error.message;
  }
  return 'nothing was thrown';
}

const OF_BYTES = [
  ['classic.mp4', '9 Init NoMvex at 44: a classic file; remux makes fragments of it'],
  ['no-tfdt.mp4', '10 Moof NoTfdt at 595: a traf has no tfdt, without which its samples have no time'],
  ['base-offset.mp4', '10 Moof BaseOffset at 595: a tfhd has a base data offset; with ffmpeg, add -movflags '
    + 'default_base_moof'],
  ['no-ftyp.mp4', '4 MoovPlace at 0: a moov with no ftyp before it'],
];

for (const [name, message] of OF_BYTES) {
  test(`the error of ${name} is its fault in words`, async () => {
    const { video, source } = await open();
    source.addSourceBuffer(VIDEO).appendBuffer(example(name));
    await once(video, 'error');
    assert.equal(video.error.message, message);
    const [buffer] = source.sourceBuffers;
    assert.equal(messageOf(() => buffer.appendBuffer(PLAIN)), 'appendBuffer: the element has an error');
  });
}

test('errors without a fault say what was called, or what is missing', async () => {
  const { video, source } = await open();
  await append(source.addSourceBuffer(VIDEO), PLAIN);
  source.endOfStream('network');
  assert.equal(video.error.message, 'endOfStream("network") was called');
  const other = new HTMLVideoElement();
  other.src = 'video.mp4';
  await once(other, 'error');
  assert.equal(other.error.message, 'src is no address of a media source');
  await assert.rejects(other.play(), { message: 'play(): src is no address of a media source' });
});

test('a call says by which condition it was refused', async () => {
  const { video, source } = await open({ quota: 12 });
  const buffer = source.addSourceBuffer(VIDEO);
  const said = (call, message) => assert.equal(messageOf(call), message);
  said(() => buffer.remove(0, 1), 'remove(0, 1): the media source has no duration');
  await append(buffer, PLAIN);
  said(() => buffer.appendBuffer(PLAIN), 'appendBuffer: the source buffer is full, and no coded frame may be evicted');
  source.duration = 9;
  said(() => buffer.remove(5, 4), 'remove(5, 4): the end is not behind the start');
  said(() => buffer.remove(-1, 4), 'remove(-1, 4): the start is negative');
  said(() => buffer.remove(10, 14), 'remove(10, 14): the start is behind the duration');
  said(() => buffer.remove(NaN, 4), 'remove(NaN, 4): the start is not finite');
  said(() => buffer.remove(0, NaN), 'remove(0, NaN): the end is not a number');
  said(() => { buffer.timestampOffset = Infinity; }, 'timestampOffset = Infinity: the offset is not finite');
  said(() => { buffer.appendWindowEnd = 0; },
    'appendWindowEnd = 0: the end is not behind the start of the append window');
  said(() => { source.duration = 0.01; }, 'duration = 0.01: a coded frame begins behind it: remove it first');
  said(() => { source.duration = -1; }, 'duration = -1: the duration is negative');
  said(() => source.setLiveSeekableRange(5, 4), 'setLiveSeekableRange(5, 4): the start is behind the end');
  said(() => source.addSourceBuffer(''), 'addSourceBuffer(""): the type is empty');
  said(() => source.addSourceBuffer('video/ogg'), 'addSourceBuffer("video/ogg"): the type is not supported');
  said(() => buffer.changeType('video/ogg'), 'changeType("video/ogg"): the type is not supported');
  said(() => { video.currentTime = NaN; }, 'currentTime = NaN: the time is not finite');
  said(() => source.endOfStream('lost'), 'endOfStream("lost"): there is no such error of a stream');
});

test('a call that comes while work runs, or too late, says so', async () => {
  const { video, source } = await open();
  const said = (call, message) => assert.equal(messageOf(call), message);
  const buffer = source.addSourceBuffer(VIDEO);
  await append(buffer, PICTURES.init);
  buffer.appendBuffer(PICTURES.segment);
  said(() => buffer.appendBuffer(PLAIN), 'appendBuffer: the source buffer is updating');
  said(() => { buffer.mode = 'sequence'; }, 'mode = "sequence": the source buffer is updating');
  said(() => source.endOfStream(), 'endOfStream(): a source buffer is updating');
  said(() => { source.duration = 5; }, 'duration = 5: a source buffer is updating');
  await settled(video);
  source.duration = 5;
  buffer.remove(0, 1);
  said(() => buffer.abort(), 'abort(): a removal runs');
  await settled(video);
  await append(buffer, PICTURES.segment.subarray(0, 145));
  said(() => { buffer.timestampOffset = 1; },
    'timestampOffset = 1: the source buffer is in the middle of a media segment');
  source.removeSourceBuffer(buffer);
  said(() => buffer.abort(), 'abort(): the source buffer was removed');
  said(() => source.removeSourceBuffer(buffer), 'removeSourceBuffer: the source buffer is not in the list');
  said(() => new MediaSource().endOfStream(), 'endOfStream(): the media source is not open');
});

test('each fault has a sentence', () => {
  const tables = [[FAULTS, 0], [INIT_FAULTS, 9], [MOOF_FAULTS, 10]];
  for (const [table, number] of tables) {
    table.forEach(({ name }, i) => {
      if (name === 'Init' || name === 'Moof') return;
      const missing = name === 'Missing BOX' ? 'mvhd' : null;
      const words = faultInWords({ number: number || i + 1, inner: number ? i + 1 : 0, missing, offset: 7 });
      const inner = number === 0 ? '' : `${number === 9 ? 'Init' : 'Moof'} `;
      assert.ok(words.startsWith(`${number || i + 1} ${inner}${name.replace('BOX', 'mvhd')} at 7: `), words);
      assert.doesNotMatch(words, /undefined|null/);
    });
  }
});
