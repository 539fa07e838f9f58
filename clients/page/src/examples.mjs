// Scripts to begin with. Their files stand in the page.

import { exampleFile } from "./engine_worker.mjs";

const FILES = new Set([...document.querySelectorAll(".example")].map(element => element.dataset.name));

export const exampleBlob = name => (FILES.has(name) ? exampleFile(name) : undefined);

const script = (about, keys, steps) => `# ${about}\n${keys}steps = [\n${steps.map(step => `  ${step},\n`).join("")}]\n`;
const of = file => `blobs = ["file ${file}"]\n`;
const OPEN = ['"attach"', '"add video/mp4"'];

export const EXAMPLES = [
  { name: "pieces", title: "Append in pieces", first: true,
    text: script("An append in two pieces: the first ends in the middle of a frame, the second brings the rest.",
      of("plain.mp4"),
    [...OPEN, '"append 0 0 0 740"', '"drain"', '"buffered 0"', '"append 0 0 740 11"', '"drain"', '"buffered 0"',
      '"elementbuffered"', '"state"']) },
  { name: "overlap", title: "An overlap",
    text: script("A group of pictures over the middle of what is there: the pictures that it covers go, with all "
      + "that were decoded after them.", of("groups.mp4"),
    [...OPEN, '"append 0 0"', '"drain"', '"buffered 0"', '"offset 0 3/25"', '"append 0 0 631 196"', '"drain"',
      '"buffered 0"', '"elementbuffered"', '"state"']) },
  { name: "eviction", title: "Eviction",
    text: script("The quota is met: the next append evicts what lies before the position.",
      `quota = 24\n${of("plain.mp4")}`,
    [...OPEN, '"duration 2/1"', '"append 0 0"', '"drain"', '"offset 0 1/2"', '"append 0 0 595 156"', '"drain"',
      '"buffered 0"', '"seek 11/20"', '"drain"', '"state"',
      '"offset 0 1/1"', '"append 0 0 595 156"', '"drain"', '"buffered 0"', '"elementbuffered"']) },
  { name: "changetype", title: "changeType",
    text: script("Sound of one container, and then of the other: after changetype the same buffer takes ADTS frames.",
    'blobs = ["file audio.mp4", "hex fff14c80013ffc2100fff14c80013ffc2100"]\n',
    ['"attach"', '"add audio/mp4"', '"append 0 0"', '"drain"', '"buffered 0"', '"changetype 0 audio/aac"',
      '"offset 0 4/1"', '"append 0 1"', '"drain"', '"buffered 0"', '"elementbuffered"', '"state"']) },
  { name: "end", title: "The end of the stream",
    text: script("The end of the stream: the duration falls to the last frame, and playback comes to its end.",
      of("plain.mp4"),
    [...OPEN, '"append 0 0"', '"drain"', '"endofstream"', '"drain"', '"state"', '"elementbuffered"', '"play"',
      '"advance 1/1"', '"drain"', '"state"', '"append 0 0 595 156"', '"drain"', '"elementbuffered"', '"state"']) },
  { name: "seek-into-a-gap", title: "A seek into a gap", first: true,
    text: script("A gap of one frame of sound: a seek into it waits, and one behind it does not.", of("gap.mp4"),
    [...OPEN, '"append 0 0"', '"drain"', '"elementbuffered"', '"state"', '"seek 19500000000"', '"drain"', '"state"',
      '"seek 21073920000"', '"drain"', '"state"']) },
];
