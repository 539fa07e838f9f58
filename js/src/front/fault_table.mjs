// The faults of a byte stream and of a classic file, from docs/SCRIPTS.md: what each means, and what to look at.

/** Those of a byte stream, in the order of their numbers, from 1 on. */
export const FAULTS = [
  {
    name: 'SizeZero',
    means: 'a top-level box has the size 0, "up to the end of the file"',
    look: 'the last box: a byte stream has no end of the file, so write its size',
  },
  {
    name: 'BoxSize',
    means: 'the size of a top-level box is less than its own header',
    look: 'the box before it: a wrong length there makes the parser read a header where none is',
  },
  {
    name: 'TooLarge',
    means: 'a moov or moof above 16 MiB, another box above 2^40 bytes, or a media segment above 128 MiB from its '
      + 'moof on',
    look: 'the length of fragments, or a size of 64 bits that is no size',
  },
  {
    name: 'MoovPlace',
    means: 'a moov with no ftyp before it since the last segment',
    look: 'whether the initialization segment begins with ftyp',
  },
  {
    name: 'MoofPlace',
    means: 'a moof behind an ftyp, before its moov',
    look: 'an initialization segment without moov, or a media segment that begins with ftyp in place of styp',
  },
  {
    name: 'NoInit',
    means: 'a moof before any initialization segment',
    look: 'whether the initialization segment was appended first',
  },
  {
    name: 'InSegment',
    means: 'ftyp, styp, moov or moof while the segment of the last moof has not ended: samples of it, or its '
      + 'mdat, have not come',
    look: 'the mdat before it: it is shorter than the samples of its moof need, or is missing',
  },
  {
    name: 'OutsideMdat',
    means: 'a sample of a moof lies in no mdat of its segment',
    look: 'data offsets of trun, and flag 0x20000 (default base is moof) of tfhd',
  },
  {
    name: 'Init',
    means: 'the moov cannot be read; the inner name says why',
    look: 'see below',
  },
  {
    name: 'Moof',
    means: 'the moof cannot be read; the inner name says why',
    look: 'see below',
  },
  {
    name: 'NoTracks',
    means: 'the moov has neither a video nor an audio track',
    look: 'handlers other than vide and soun are passed over',
  },
  {
    name: 'Codec',
    means: 'a video or audio track has a sample entry that is not known',
    look: 'the first entry of its stsd; encrypted tracks (encv, enca) are among these',
  },
  {
    name: 'TracksDiffer',
    means: 'a second moov has other tracks than the first, or another codec',
    look: 'kinds and counts of tracks, their numbers where a kind has several; changetype lets codecs change',
  },
  {
    name: 'TimeRange',
    means: 'a frame\'s times, moved by the timestamp offset, are beyond 2^110 ticks',
    look: 'the timestamp offset, or decode times of 64 bits at a small timescale',
  },
  {
    name: 'Sync',
    means: 'ADTS: no sync word where a frame must begin',
    look: 'the length of the frame before it, or bytes that are neither frame nor ID3 tag',
  },
  {
    name: 'Rate',
    means: 'ADTS: an index of the sampling frequency above 12',
    look: 'the header of the frame',
  },
  {
    name: 'Length',
    means: 'ADTS: a frame shorter than its own header',
    look: 'the header of the frame',
  },
  {
    name: 'Counts',
    means: 'a track has received 2^62 frames, or a buffer would store 2^62 bytes',
    look: 'no file of today',
  },
];

/** Why an initialization segment cannot be read. Missing has the name of a box behind it. */
export const INIT_FAULTS = [
  {
    name: 'Size',
    means: 'a box in the moov ends before its fields, or a container is no row of whole boxes',
    look: 'the sizes of the boxes inside the moov',
  },
  {
    name: 'Missing BOX',
    means: 'the box is not there (mvhd, tkhd, mdia, hdlr, mdhd, minf, stbl, stsd)',
    look: 'whether the box that holds it has it; of stsd also whether it has an entry; with remux also stts, '
      + 'stsz, stsc, stco',
  },
  {
    name: 'HasSamples',
    means: 'the sample tables of a track are not empty: samples belong into fragments',
    look: 'the entry counts of stts, stsc, stco and co64; with ffmpeg, add -movflags empty_moov',
  },
  {
    name: 'NoMvex',
    means: 'the moov has no mvex: this is a classic file and not a fragmented one',
    look: 'nothing: remux makes fragments of it',
  },
  {
    name: 'EditList',
    means: 'an edit list other than empty edits and then one edit at rate 1',
    look: 'elst of the track; more than 1,000 edits, and an empty part above 2^109 ticks, are refused too',
  },
  {
    name: 'ZeroTimescale',
    means: 'the timescale of the movie or of a track is 0',
    look: 'mvhd, and mdhd of each track',
  },
  {
    name: 'DuplicateTrack',
    means: 'two tracks have one number',
    look: 'the numbers in tkhd',
  },
  {
    name: 'TooManyTracks',
    means: 'more than 64 tracks',
    look: 'how many trak there are',
  },
];

/** Why a movie fragment cannot be read. */
export const MOOF_FAULTS = [
  {
    name: 'Size',
    means: 'a box in the moof ends before its fields, or a container is no row of whole boxes',
    look: 'the sizes inside the moof, and the sample count of trun against its rows',
  },
  {
    name: 'NoTraf',
    means: 'the moof has no traf; a traf has no tfhd; a traf has no tfdt, without which its samples have no time',
    look: 'the boxes of the moof; old packagers leave out tfdt',
  },
  {
    name: 'NoTfhd',
    means: 'the moof has no traf; a traf has no tfhd; a traf has no tfdt, without which its samples have no time',
    look: 'the boxes of the moof; old packagers leave out tfdt',
  },
  {
    name: 'NoTfdt',
    means: 'the moof has no traf; a traf has no tfhd; a traf has no tfdt, without which its samples have no time',
    look: 'the boxes of the moof; old packagers leave out tfdt',
  },
  {
    name: 'BaseOffset',
    means: 'a tfhd has a base data offset (flag 0x1), which means a place in a file, and a byte stream has none',
    look: 'flag 0x1 of tfhd; with ffmpeg, add -movflags default_base_moof',
  },
  {
    name: 'UnknownTrack',
    means: 'a tfhd names a track that the moov does not have',
    look: 'the number in tfhd against those in tkhd, and whether this is the right initialization segment',
  },
  {
    name: 'TooManySamples',
    means: 'more than 2^20 samples in one moof',
    look: 'the sample counts of trun',
  },
  {
    name: 'Place',
    means: 'a sample begins before the moof',
    look: 'negative data offsets of trun',
  },
];

/** Those of a classic file, from 21 on. */
export const REMUX_FAULTS = [
  {
    name: 'Box',
    means: 'a top-level box has no whole header or a bad one, or ends behind the file\'s end',
    look: 'the box at OFFSET, and whether the file was cut',
  },
  {
    name: 'NoMoov',
    means: 'there is no moov',
    look: 'whether it is an MP4, and whole',
  },
  {
    name: 'Fragmented',
    means: 'the file is fragmented already',
    look: 'nothing: ranges reads it as it is. Where ranges then tells Init HasSamples, the movie box has '
      + 'samples too, and fragments behind them: write the file anew with all samples in fragments (with '
      + 'ffmpeg, add -movflags empty_moov)',
  },
  {
    name: 'Moov',
    means: 'the moov cannot be read, or a table is missing or shorter than it says',
    look: 'the box that is named',
  },
  {
    name: 'Tables',
    means: 'the sample tables do not agree with one another',
    look: 'the counts of stts, ctts, stss, stsc and stco against that of stsz',
  },
  {
    name: 'Place',
    means: 'a sample is not inside the file: it was cut, or its samples are in another one',
    look: 'the offsets of stco or co64, and whether the file is whole',
  },
  {
    name: 'Range',
    means: 'a number of the file does not fit its field in a fragmented file',
    look: 'the track\'s number, elst, ctts, and the size of stsd',
  },
  {
    name: 'TooMany',
    means: 'more than 2^22 samples, 2^30 bytes of samples, or a sample above 2^26 bytes',
    look: 'whether the file can be cut into several',
  },
  {
    name: 'NoTracks',
    means: 'no track with video or audio',
    look: 'the handlers in hdlr',
  },
];
