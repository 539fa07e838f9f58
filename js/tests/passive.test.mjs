// Attributes and methods of a media element that the engine does not tell of.

import assert from 'node:assert/strict';
import { once } from 'node:events';
import { readFileSync } from 'node:fs';
import test from 'node:test';
import {
  Clock, HTMLAudioElement, HTMLMediaElement, HTMLVideoElement, MediaSource, NotThereError, settled,
} from '../src/index.mjs';
import { append, open, PLAIN } from './kit.mjs';
import { hear, rangesOf, VIDEO } from './players.mjs';

// The interfaces of the HTML standard, 4.8.8, 4.8.9 and 4.8.11, with Encrypted Media Extensions, 7, and Media Playback
// Quality, 3.
const STANDARD = {
  HTMLMediaElement: ['error', 'src', 'srcObject', 'currentSrc', 'crossOrigin', 'networkState', 'preload', 'buffered',
    'load', 'canPlayType', 'readyState', 'seeking', 'currentTime', 'fastSeek', 'duration', 'getStartDate', 'paused',
    'defaultPlaybackRate', 'playbackRate', 'preservesPitch', 'played', 'seekable', 'ended', 'autoplay', 'loop', 'play',
    'pause', 'controls', 'volume', 'muted', 'defaultMuted', 'audioTracks', 'videoTracks', 'textTracks', 'addTextTrack',
    'mediaKeys', 'setMediaKeys', 'NETWORK_EMPTY', 'NETWORK_IDLE', 'NETWORK_LOADING', 'NETWORK_NO_SOURCE',
    'HAVE_NOTHING', 'HAVE_METADATA', 'HAVE_CURRENT_DATA', 'HAVE_FUTURE_DATA', 'HAVE_ENOUGH_DATA'],
  HTMLVideoElement: ['width', 'height', 'videoWidth', 'videoHeight', 'poster', 'playsInline',
    'getVideoPlaybackQuality'],
};
const EVENTS = ['abort', 'canplay', 'canplaythrough', 'durationchange', 'emptied', 'encrypted', 'ended', 'error',
  'loadeddata', 'loadedmetadata', 'loadstart', 'pause', 'play', 'playing', 'progress', 'ratechange', 'resize', 'seeked',
  'seeking', 'stalled', 'suspend', 'timeupdate', 'volumechange', 'waiting', 'waitingforkey'];

const FIRST_VALUES = {
  playbackRate: 1, defaultPlaybackRate: 1, volume: 1, muted: false, autoplay: false, loop: false, controls: false,
  defaultMuted: false, preload: 'metadata', crossOrigin: null, currentSrc: '', src: '', srcObject: null,
  networkState: 0, readyState: 0, mediaKeys: null, preservesPitch: true, paused: true, ended: false, seeking: false,
  error: null, currentTime: 0,
};

// the names in the first column of the README's table, and those whose row says that they are not there
function namesOfTable() {
  const text = readFileSync(new URL('../README.md', import.meta.url), 'utf8');
  const table = text.split('\n### What of a media element is there')[1].split('\n## ')[0];
  const rows = Array.from(table.matchAll(/^\| (`.*?) \| (.*) \|$/gm), ([, names, words]) => ({
    names: names.match(/\w+/g), isThere: !words.startsWith('not there'),
  }));
  const namesOf = (isSo) => rows.filter(isSo).flatMap(({ names }) => names);
  return { all: namesOf(() => true), notThere: namesOf(({ isThere }) => !isThere) };
}

test('each name of the standard is there, or throws a NotThereError on reading and on writing', () => {
  const video = new HTMLVideoElement();
  const notThere = [];
  for (const name of [...STANDARD.HTMLMediaElement, ...STANDARD.HTMLVideoElement]) {
    assert.ok(name in video, name);
    try {
      assert.notEqual(video[name], undefined, name);
    } catch (error) {
      assert.ok(error instanceof NotThereError, `${name}: ${error}`);
      assert.throws(() => { video[name] = 1; }, NotThereError);
      notThere.push(name);
    }
  }
  const told = namesOfTable();
  assert.deepEqual(notThere.sort(), told.notThere.sort());
  for (const name of [...STANDARD.HTMLMediaElement, ...STANDARD.HTMLVideoElement]) {
    assert.equal(told.all.filter((each) => each === name).length, 1, `${name} in the table of the README`);
  }
  for (const type of EVENTS) {
    assert.equal(video[`on${type}`], null);
    let heard = 0;
    video[`on${type}`] = () => { heard += 1; };
    video.dispatchEvent(new Event(type));
    video[`on${type}`] = null;
    video.dispatchEvent(new Event(type));
    assert.equal(heard, 1, type);
  }
});

test('attributes have their first values', () => {
  for (const element of [new HTMLVideoElement(), new HTMLAudioElement()]) {
    for (const [name, value] of Object.entries(FIRST_VALUES)) assert.equal(element[name], value, name);
    for (const list of [element.audioTracks, element.videoTracks, element.textTracks]) {
      assert.deepEqual([list.length, [...list], list.getTrackById('1')], [0, [], null]);
      list.addEventListener('addtrack', () => {});
    }
    assert.equal(element.played.length, 0);
  }
  assert.equal(HTMLMediaElement.NETWORK_NO_SOURCE, 3);
});

test('attributes in markup and properties are the same', () => {
  const video = new HTMLVideoElement();
  video.setAttribute('AUTOPLAY', '');
  video.loop = true;
  video.setAttribute('preload', 'NONE');
  video.crossOrigin = 'use-credentials';
  video.setAttribute('playsinline', '');
  video.width = 640;
  video.poster = 'first.png';
  assert.deepEqual([video.autoplay, video.getAttribute('loop'), video.preload], [true, '', 'none']);
  assert.deepEqual([video.getAttribute('crossorigin'), video.playsInline], ['use-credentials', true]);
  assert.deepEqual([video.getAttribute('width'), video.height, video.getAttribute('poster')], ['640', 0, 'first.png']);
  video.removeAttribute('autoplay');
  video.loop = false;
  assert.deepEqual([video.autoplay, video.hasAttribute('loop'), video.getAttribute('loop')], [false, false, null]);
  video.preload = 'nothing of the kind';
  assert.equal(video.preload, 'metadata');
});

test('rate, volume and muting are told where they change, in the order of all events', async () => {
  const { video, source } = await open();
  await append(source.addSourceBuffer(VIDEO), PLAIN);
  await settled(video);
  const heard = [];
  hear(heard, video, EVENTS);
  video.play();
  video.volume = 0.5;
  video.volume = 0.5;
  video.muted = true;
  video.pause();
  video.playbackRate = 2;
  video.playbackRate = 2;
  video.defaultPlaybackRate = 1.5;
  await settled(video);
  assert.deepEqual(heard, ['play', 'playing', 'volumechange', 'volumechange', 'timeupdate', 'pause', 'ratechange',
    'ratechange']);
  assert.deepEqual([video.volume, video.muted, video.playbackRate, video.defaultPlaybackRate], [0.5, true, 2, 1.5]);
  assert.throws(() => { video.volume = 1.1; }, { name: 'IndexSizeError' });
  assert.throws(() => { video.volume = NaN; }, TypeError);
  assert.throws(() => { video.playbackRate = -1; }, { name: 'NotSupportedError' });
  assert.throws(() => { video.playbackRate = Infinity; }, TypeError);
  video.load();
  assert.equal(video.playbackRate, 1.5);
});

test('time passes by the rate, and not at all at 0', async () => {
  const clock = new Clock();
  const { video, source } = await open({ clock });
  await append(source.addSourceBuffer(VIDEO), PLAIN);
  await Promise.all([video.play(), settled(video)]);
  video.playbackRate = 2;
  clock.advance(0.02);
  assert.equal(video.currentTime, 0.04);
  video.playbackRate = 0;
  clock.advance(10);
  assert.equal(video.currentTime, 0.04);
  video.playbackRate = 0.5;
  clock.advance(0.02);
  assert.equal(video.currentTime, 0.05);
  video.currentTime = 0.08;
  await settled(video);
  clock.advance(0.02);
  assert.deepEqual(rangesOf(video.played), [[0, 0.05], [0.08, 0.09]]);
});

test('an element with autoplay plays when all data have come, but not behind a pause', async () => {
  const video = new HTMLVideoElement();
  video.autoplay = true;
  const heard = [];
  hear(heard, video, ['loadedmetadata', 'canplay', 'canplaythrough', 'play', 'playing']);
  const source = new MediaSource();
  video.srcObject = source;
  await append(source.addSourceBuffer(VIDEO), PLAIN);
  await settled(video);
  assert.ok(video.paused);
  source.endOfStream();
  await settled(video);
  assert.ok(!video.paused);
  assert.deepEqual(heard, ['loadedmetadata', 'canplay', 'canplaythrough', 'play', 'playing']);

  for (const isBehind of [true, false]) {
    const other = new HTMLVideoElement();
    other.setAttribute('autoplay', '');
    const second = new MediaSource();
    if (!isBehind) other.pause();
    other.srcObject = second;
    if (isBehind) other.pause();
    await append(second.addSourceBuffer(VIDEO), PLAIN);
    second.endOfStream();
    await settled(other);
    assert.equal(other.paused, isBehind, 'loading forgets a pause before it');
  }
});

test('an element with loop begins again', async () => {
  const clock = new Clock();
  const { video, source } = await open({ clock });
  await append(source.addSourceBuffer(VIDEO), PLAIN);
  source.endOfStream();
  video.loop = true;
  await Promise.all([video.play(), settled(video)]);
  const heard = [];
  hear(heard, video, ['timeupdate', 'seeking', 'seeked', 'pause', 'ended']);
  clock.advance(0.2);
  assert.ok(!video.ended);
  await settled(video);
  assert.deepEqual([video.currentTime, video.paused], [0, false]);
  assert.deepEqual(heard, ['timeupdate', 'seeking', 'timeupdate', 'seeked']);
  video.loop = false;
  clock.advance(0.2);
  await settled(video);
  assert.deepEqual([video.ended, heard.at(-1)], [true, 'ended']);
});

test('methods that ask or add', async () => {
  const video = new HTMLVideoElement();
  assert.equal(video.canPlayType(VIDEO), 'probably');
  assert.equal(video.canPlayType('video/mp4'), 'maybe');
  assert.equal(video.canPlayType('video/webm; codecs="vp9"'), '');
  assert.equal(video.getVideoPlaybackQuality().totalVideoFrames, 0);
  await assert.rejects(video.setMediaKeys(null), { name: 'NotSupportedError' });
  video.fastSeek(3);
  assert.equal(video.currentTime, 3);
  const added = once(video.textTracks, 'addtrack');
  const track = video.addTextTrack('captions', 'English', 'en');
  await added;
  assert.deepEqual([track.kind, track.label, track.language, track.mode], ['captions', 'English', 'en', 'hidden']);
  assert.deepEqual([video.textTracks.length, video.textTracks[0]], [1, track]);
  const cue = { startTime: 0, endTime: 1 };
  track.addCue(cue);
  assert.deepEqual([...track.cues], [cue]);
  track.removeCue(cue);
  assert.throws(() => track.removeCue(cue), { name: 'NotFoundError' });
  assert.throws(() => video.addTextTrack('songs'), TypeError);
});

test('the state of the network', async () => {
  const { video, source } = await open();
  assert.equal(video.networkState, video.NETWORK_LOADING);
  await append(source.addSourceBuffer(VIDEO), PLAIN);
  source.endOfStream();
  assert.equal(video.networkState, video.NETWORK_IDLE);
  video.currentTime = 0;
  source.sourceBuffers[0].remove(0, 1);
  assert.equal(video.networkState, video.NETWORK_LOADING);
});
