// Each fault: what it means and what to look at, as ../../../js/src/front/fault_table.mjs has them, and words of its
// row in docs/SCRIPTS.md that stand nowhere else in that page, by which a link finds the row. Faults 21 and up are
// those of `remux`.

import { FAULTS as STREAM, INIT_FAULTS, MOOF_FAULTS, REMUX_FAULTS } from "../../../js/src/front/fault_table.mjs";

const WORDS = {
  1: "the last box: a byte stream has no end of the file, so write its size",
  2: "the box before it: a wrong length there makes the parser read a header where none is",
  3: "above 16 MiB, another box above 2^40 bytes, or a media segment above 128 MiB from its",
  4: "whether the initialization segment begins with",
  5: "or a media segment that begins with",
  6: "whether the initialization segment was appended first",
  7: "before it: it is shorter than the samples of its",
  8: "and flag 0x20000 (default base is moof) of",
  9: "",
  10: "",
  11: "has neither a video nor an audio track",
  12: "a video or audio track has a sample entry that is not known",
  13: "kinds and counts of tracks, their numbers where a kind has several",
  14: "a frame's times, moved by the timestamp offset, are beyond 2^110 ticks",
  15: "the length of the frame before it, or bytes that are neither frame nor ID3 tag",
  16: "ADTS: an index of the sampling frequency above 12",
  17: "ADTS: a frame shorter than its own header",
  18: "a track has received 2^62 frames, or a buffer would store 2^62 bytes",
  "Init Size": "the sizes of the boxes inside the",
  "Init Missing": "whether the box that holds it has it; of",
  "Init HasSamples": "the sample tables of a track are not empty: samples belong into fragments",
  "Init NoMvex": "this is a classic file and not a fragmented one",
  "Init EditList": "of the track; more than 1,000 edits, and an empty part above 2^109 ticks, are refused too",
  "Init ZeroTimescale": "the timescale of the movie or of a track is 0",
  "Init DuplicateTrack": "two tracks have one number",
  "Init TooManyTracks": "more than 64 tracks",
  "Moof Size": "and the sample count of",
  "Moof NoTraf": "without which its samples have no time",
  "Moof NoTfhd": "without which its samples have no time",
  "Moof NoTfdt": "without which its samples have no time",
  "Moof BaseOffset": "has a base data offset (flag 0x1), which means a place in a file, and a byte stream has none",
  "Moof UnknownTrack": "and whether this is the right initialization segment",
  "Moof TooManySamples": "more than 2^20 samples in one",
  "Moof Place": "a sample begins before the",
  21: "a top-level box has no whole header or a bad one, or ends behind the file's end",
  22: "whether it is an MP4, and whole",
  23: "the file is fragmented already",
  24: "cannot be read, or a table is missing or shorter than it says",
  25: "the sample tables do not agree with one another",
  26: "a sample is not inside the file: it was cut, or its samples are in another one",
  27: "a number of the file does not fit its field in a fragmented file",
  28: "more than 2^22 samples, 2^30 bytes of samples, or a sample above 2^26 bytes",
  29: "no track with video or audio",
};

const rowsOf = (faults, keyOf) =>
  faults.map((fault, at) => [keyOf(fault, at), [fault.means, fault.look, WORDS[keyOf(fault, at)]]]);

// By number, or by the name of the box and the inner name: what it means, what to look at, and the words.
export const FAULTS = Object.fromEntries([
  ...rowsOf(STREAM, (_, at) => String(at + 1)),
  ...rowsOf(INIT_FAULTS, ({ name }) => `Init ${name.replace(" BOX", "")}`),
  ...rowsOf(MOOF_FAULTS, ({ name }) => `Moof ${name}`),
  ...rowsOf(REMUX_FAULTS, (_, at) => String(at + 21)),
]);

// What a line `error:` means: its first words, a sentence, and the heading of docs/SCRIPTS.md that tells more.
export const ERRORS = [
  [/^words$/, "The words are no command of mseplay.", "commands"],
  [/^read /, "The file is there and could not be read, or it has more than 2^30 bytes.", "commands"],
  [/^no file /, "The file is not there. Nothing was run. Names are paths from the folder that the program runs in.",
    "commands"],
  [/^listener \d+ answered/,
    "A listener answered an event with more than 1,000 calls, and the run ended. Look for a rule that answers the "
      + "event that its own calls bring about.", "commands"],
  [/^more than \d+ listener calls/,
    "Listeners answered more calls than the key drain allows in one line, and the run ended. Look for rules that go "
      + "round in a ring.", "commands"],
  [/^script not toml$/, "The script is no TOML text. Nothing was run.", "faults-of-a-script"],
  [/^script key /, "The script has a key that there is not, or a value out of its range. Nothing was run.",
    "faults-of-a-script"],
  [/^script too many /, "The script has too many members in a list. Nothing was run.", "faults-of-a-script"],
  [/^script blob /,
    "A blob of the script is no text of the kinds that there are; blobs are counted from 0. Nothing was run.",
      "faults-of-a-script"],
  [/^script step /, "A step of the script is no step line; steps are counted from 0. Nothing was run.",
    "faults-of-a-script"],
  [/^script rule /,
    "A rule of the script lacks a key, or has another or a bad value; rules are counted from 0. Nothing was run.",
      "faults-of-a-script"],
];
