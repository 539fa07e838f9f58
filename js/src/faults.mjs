// A fault of a byte stream in a sentence. Its names and more words stand in the table of the program's help.

import { FAULTS, INIT_FAULTS, MOOF_FAULTS } from './front/fault_table.mjs';

const SENTENCES = {
  SizeZero: 'the size of the box is 0, "up to the end of the file", which a byte stream does not have',
  BoxSize: 'the size of the box is less than its own header; the length of the box before it may be wrong',
  TooLarge: 'a moov or moof above 16 MiB, a media segment above 128 MiB, or a box above 2^40 bytes',
  MoovPlace: 'a moov with no ftyp before it',
  MoofPlace: 'a moof behind an ftyp, before its moov',
  NoInit: 'a moof before any initialization segment',
  InSegment: 'a box while samples of the segment before it have not come; its mdat is too short or missing',
  OutsideMdat: 'a sample lies in no mdat of its segment; look at the data offsets of trun',
  NoTracks: 'neither a video nor an audio track',
  Codec: 'a track has a sample entry that is not known, or is encrypted',
  TracksDiffer: 'other tracks than in the first initialization segment, or another codec',
  TimeRange: 'a time of a frame, moved by the timestamp offset, is beyond 2^110 ticks',
  Sync: 'no ADTS sync word where a frame must begin',
  Rate: 'no sampling frequency of ADTS has this index',
  Length: 'an ADTS frame is shorter than its own header',
  Counts: 'a track received 2^62 frames, or a buffer would store 2^62 bytes',
};

// those of an initialization segment
const OF_INIT = {
  Size: 'a box in the moov ends before its fields',
  Missing: 'a box of the moov is not there',
  HasSamples: 'the moov has samples, which belong into fragments; with ffmpeg, add -movflags empty_moov',
  NoMvex: 'a classic file; remux makes fragments of it',
  EditList: 'an edit list other than empty edits and then one edit at rate 1',
  ZeroTimescale: 'the timescale of the movie or of a track is 0',
  DuplicateTrack: 'two tracks have one number',
  TooManyTracks: 'more than 64 tracks',
};

// those of a movie fragment
const OF_MOOF = {
  Size: 'a box in the moof ends before its fields',
  NoTraf: 'the moof has no traf',
  NoTfhd: 'a traf has no tfhd',
  NoTfdt: 'a traf has no tfdt, without which its samples have no time',
  BaseOffset: 'a tfhd has a base data offset; with ffmpeg, add -movflags default_base_moof',
  UnknownTrack: 'a tfhd names a track that the moov does not have',
  TooManySamples: 'more than 2^20 samples in one moof',
  Place: 'a sample begins before the moof',
};

function inner({ inner: number, missing }, table, sentences) {
  const [name] = table[number - 1].name.split(' ');
  return [missing === null ? name : `${name} ${missing}`, sentences[name]];
}

// The number, the name, the place and the sentence of a fault, as the engine tells it.
export function faultInWords(fault) {
  const { name } = FAULTS[fault.number - 1];
  let [words, sentence] = [name, SENTENCES[name]];
  if (name === 'Init') [words, sentence] = inner(fault, INIT_FAULTS, OF_INIT);
  if (name === 'Moof') [words, sentence] = inner(fault, MOOF_FAULTS, OF_MOOF);
  return `${fault.number} ${words === name ? name : `${name} ${words}`} at ${fault.offset}: ${sentence}`;
}
