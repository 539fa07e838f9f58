// The tracks of a text of feed get their frames in decode order, each with its group and its place in it.

import { isTicks, lesser } from "../../../js/src/inspect/times.mjs";
import { inParts, pause } from "./words.mjs";

function takeFeedLine(tracks, line) {
  if (line.kind === "feed") {
    if (!tracks.has(line.id)) {
      tracks.set(line.id, { id: line.id, frames: [], groups: [], none: null, asked: line.time });
    }
    const track = tracks.get(line.id);
    tracks.group = line.wanted === undefined ? null : { line, frames: [], track };
    if (tracks.group) track.groups.push(tracks.group); else track.none = line;
  } else if (line.kind === "frame" && tracks.group) {
    const { group } = tracks;
    line.group = group;
    line.track = group.track;
    line.place = group.frames.push(line);
    group.track.frames.push(line);
  }
}

function readFrame(line) {
  line.from = BigInt(line.pts);
  line.to = line.from + BigInt(line.dur);
  line.decoded = BigInt(line.dts);
}

const byTime = (a, b) => a[0] < b[0] ? -1 : a[0] > b[0] ? 1 : 0;

// What the drawing needs of each track, made once.
export async function prepareFeed(story) {
  story.feed = [];
  const tracks = new Map();
  await inParts(story.lines, line => takeFeedLine(tracks, line));
  story.feed = [...tracks.values()];
  for (const track of story.feed) {
    await inParts(track.frames, readFrame);
    await inParts(track.frames, (frame, at) => { frame.decodeEnd = decodeEnd(frame, track.frames[at + 1]); });
    await inParts(track.groups, placeShown, 500);
    track.shown = track.frames.map(frame => [frame.from, frame.to, frame]).sort(byTime);
    await pause();
    track.decoded = track.frames.map(frame => [frame.decoded, frame.decodeEnd, frame]).sort(byTime);
    await pause();
    track.mean = meanOfFrames(track.frames);
    await pause();
  }
}

// A frame is decoded up to the next one, or as long as it is shown where that is sooner.
function decodeEnd(frame, next) {
  const end = frame.decoded + (frame.to - frame.from);
  return next && next.decoded > frame.decoded ? lesser(end, next.decoded) : end;
}

function placeShown(group) {
  const order = [...group.frames].sort((a, b) => byTime([a.from], [b.from]));
  order.forEach((frame, at) => { frame.shownPlace = at + 1; });
}

function meanOfFrames(frames) {
  const sum = frames.reduce((all, frame) => all + frame.to - frame.from, 0n);
  if (!sum) return null;
  const first = frames[0].to - frames[0].from;
  return { sum, frames: BigInt(frames.length), ticks: sum / BigInt(frames.length),
    exact: frames.every(frame => frame.to - frame.from === first) };
}

export function feedEnds(story) {
  const ends = {};
  const add = time => {
    if (!isTicks(time)) return;
    if (ends.from === undefined || time < ends.from) ends.from = time;
    if (ends.to === undefined || time > ends.to) ends.to = time;
  };
  for (const track of story.feed) {
    add(track.asked);
    add(track.decoded[0]?.[0]);
    add(track.shown[0]?.[0]);
    add(track.shown.at(-1)?.[1]);
    add(track.decoded.at(-1)?.[1]);
  }
  return ends;
}
