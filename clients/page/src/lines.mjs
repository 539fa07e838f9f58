// Lines. Each is an object with its kind, its text and the parts that the page shows.

import { readTime } from "../../../js/src/inspect/times.mjs";
import { asCount, inParts, quoted } from "./words.mjs";

const TIME = "(?:-?\\d+|nan|inf)";

const RANGES = `(?:none|\\[${TIME},${TIME}\\)(?: \\[${TIME},${TIME}\\))*)`;
const STATE = `source (closed|open|ended) duration (${TIME}) level ([0-4]) position (${TIME}) paused (true|false) seeking (true|false) error (\\d+)`;
const STATE_ANSWER = new RegExp(`^${STATE}$`);
const ANSWER = new RegExp(`^(?:done|ranges ${RANGES}|range none|range \\[${TIME},${TIME}\\]|${STATE}|refused [A-Za-z]+)$`);

const SHAPES = {
  duration: new RegExp(`^duration (${TIME})$`),
  buffer: new RegExp(`^buffer (\\d+)(?: phase (waiting|init|media) held (\\d+) used (\\d+))? buffered (${RANGES})$`),
  track: new RegExp(`^track (\\d+) (\\d+) (video|audio) (\\S+) frames (\\d+) ranges (${RANGES})$`),
  fault: /^fault (\d+) ([A-Za-z]+(?: [A-Za-z0-9?]+)*?)(?: buffer (\d+))? at (\d+)$/,
  made: /^made (\d+) bytes (\d+) frames (\d+)$/,
  state: new RegExp(`^state ${STATE}$`),
  event: /^event (source|sourcebuffers|activesourcebuffers|buffer \d+|element) ([a-z]+)$/,
  call: /^call (.+)$/,
  listener: /^listener (\d+) (.+)$/,
  feed: new RegExp(`^feed (\\d+) (\\d+) at (${TIME}) (?:wanted (\\d+)|none)$`),
  frame: new RegExp(`^frame (\\d+) pts (-?\\d+) dts (-?\\d+) dur (\\d+) bytes (\\d+) sync (true|false)$`),
  end: /^end (GroupEnd|Wait|Lost)$/,
  "error:": /^error: (.+)$/,
};

// The calls: which of their words are times, and where docs/MACHINE.md tells their rules.
const ofBuffer = "a-source-buffer", ofSource = "the-media-source", ofElement = "the-element";

export const CALLS = {
  attach: [[], ofSource], add: [[], ofSource], removebuffer: [[], ofSource], duration: [[1], ofSource],
  endofstream: [[], ofSource], live: [[1, 2], ofSource], clearlive: [[], ofSource], mode: [[], ofBuffer],
  offset: [[2], ofBuffer], windowstart: [[2], ofBuffer], windowend: [[2], ofBuffer], append: [[], ofBuffer],
  abort: [[], ofBuffer], remove: [[2, 3], ofBuffer], changetype: [[], ofBuffer], buffered: [[], ofBuffer],
  state: [[], ofElement], seek: [[1], ofElement], play: [[], ofElement], pause: [[], ofElement],
  advance: [[1], ofElement], elementbuffered: [[], ofElement], seekable: [[], ofElement],
};

const readState = found => ({
  source: found[1], duration: readTime(found[2]), level: Number(found[3]), position: readTime(found[4]),
  paused: found[5] === "true", seeking: found[6] === "true", error: Number(found[7]),
});

// What was called and what it answered; null where it is no call, or no answer.
function readCall(line, told) {
  const at = told.lastIndexOf(": ");
  if (at < 0) return null;
  const [call, answer] = [told.slice(0, at), told.slice(at + 2)];
  const words = call.split(" ");
  if (!Object.hasOwn(CALLS, words[0]) || !ANSWER.test(answer)) return null;
  Object.assign(line, { call, words, answer, refused: answer.startsWith("refused ") });
  if (answer.startsWith("range")) line.rangeText = answer;
  const state = STATE_ANSWER.exec(answer);
  if (state) line.state = readState(state);
  return line;
}

const READERS = {
  duration: (line, found) => Object.assign(line, { time: readTime(found[1]) }),
  buffer: (line, found) => Object.assign(line,
    { buffer: found[1], phase: found[2], held: found[3], used: found[4], rangeText: found[5] }),
  track: (line, found) => Object.assign(line,
    { buffer: found[1], id: found[2], medium: found[3], codec: found[4], frames: BigInt(found[5]),
      rangeText: found[6] }),
  fault: (line, found) => Object.assign(line,
    { code: Number(found[1]), name: found[2], buffer: found[3], offset: found[4] }),
  made: (line, found) => Object.assign(line, { segments: found[1], bytes: found[2], frames: found[3] }),
  state: (line, found) => Object.assign(line, { state: readState(found) }),
  event: (line, found) => Object.assign(line, { target: found[1], event: found[2] }),
  call: (line, found) => readCall(line, found[1]),
  listener: (line, found) => readCall(Object.assign(line, { listener: found[1] }), found[2]),
  feed: (line, found) => Object.assign(line, { id: found[2], time: readTime(found[3]), wanted: found[4] }),
  frame: (line, found) => Object.assign(line,
    { serial: found[1], pts: found[2], dts: found[3], dur: found[4], bytes: found[5], sync: found[6] === "true" }),
  end: (line, found) => Object.assign(line, { why: found[1] }),
  "error:": (line, found) => Object.assign(line, { says: found[1] }),
};

// A line of its text, or null where the program prints none like it.
function readLine(text, number) {
  const space = text.indexOf(" ");
  const word = space < 0 ? text : text.slice(0, space);
  if (!Object.hasOwn(SHAPES, word)) return null;
  const found = SHAPES[word].exec(text);
  return found && READERS[word]({ kind: word === "error:" ? "error" : word, text, number }, found);
}

// What a text is, by its lines: `play`, `feed`, `make`, `ranges` (or pieces), `fault` or `error` alone.
export function kindOf(lines) {
  const has = new Set(lines.map(line => line.kind));
  if (has.has("call") || has.has("event") || has.has("state")) return "play";
  if (has.has("feed")) return "feed";
  if (has.has("made")) return "make";
  if (has.has("duration") || has.has("buffer") || has.has("track")) return "ranges";
  return has.has("fault") ? "fault" : "error";
}

const BLOCK = new Set(["buffer", "track", "fault"]);

// The number of the line at which a second output begins, or 0. Behind the duration stands the block alone.
export function secondOutput(lines) {
  let inBlock = false;
  for (const line of lines) {
    if (inBlock && !BLOCK.has(line.kind)) return line.number;
    if (line.kind === "duration") inBlock = true;
  }
  return 0;
}

// Lines of feed belong to the track of a line feed above them. Where there is none, they are left out.
export function withoutStrays(lines) {
  const first = kindOf(lines) === "feed" ? lines.findIndex(line => line.kind === "feed") : lines.length;
  return lines.filter((line, at) => at > first || !["feed", "frame", "end"].includes(line.kind)
    || (at === first && line.kind === "feed"));
}

// Lines as they stand in the documents are taken too: indented, with `$ mseplay` before them and `...` for some.
function bareLines(text) {
  const lines = (text.includes("\r") ? text.replace(/\r\n?/g, "\n") : text).split("\n");
  const ends = lines.at(-1) === "";
  if (ends) lines.pop();
  const isIndented = line => line.startsWith("    ") || line.trim() === "";
  return { lines: lines.every(isIndented) ? lines.map(line => line.slice(4)) : lines, ends };
}

const isPassedOver = text => text.trim() === "" || text === "..." || text.startsWith("$ mseplay");

// Reads a text; gives the lines and sentences on what was passed over.
export async function readText(text, isOfFile) {
  const bare = bareLines(text);
  const lines = [], unknown = [], notices = [];
  await inParts(bare.lines, (line, index) => {
    if (isPassedOver(line)) return;
    const read = readLine(line, index + 1);
    if (read) lines.push(read); else unknown.push({ text: line, number: index + 1 });
  });
  const last = unknown.at(-1);
  if (last && !bare.ends && last.number === bare.lines.length && lines.length) {
    unknown.pop();
    notices.push(`The text ends in the middle of line ${last.number}, which is left out: ${quoted(last.text)}.`);
  } else if (!bare.ends && isOfFile) {
    notices.push("The text does not end with a line end, so its last line may be cut.");
  }
  if (unknown.length) notices.push(toldUnknown(unknown));
  return { lines, unknown, notices, count: bare.lines.length };
}

function toldUnknown(unknown) {
  const first = unknown[0];
  const more = unknown.length > 1
    ? ` ${asCount(unknown.length - 1, "other line was", "other lines were")} passed over too.` : "";
  return `Line ${first.number} is none that mseplay prints, and was passed over: ${quoted(first.text)}.${more}`;
}
