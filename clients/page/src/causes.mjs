// Why a row answers none.

import { $, link, make, page } from "./dom.mjs";
import { rowName } from "./rows.mjs";
import { inSeconds, rangesOf } from "../../../js/src/inspect/times.mjs";
import { asCount, countUpTo } from "./words.mjs";

// `none`, each with three causes as they were at the line that told it: first those that the text points to, then the
// most usual ones.
export function drawCauses() {
  const rows = page.story.kind === "feed" ? feedNone()
    : (page.rows ?? []).filter(row => !row.track && !row.browser && row.line?.rangeText
    && /none$/.test(row.line.rangeText));
  $("causes").hidden = !rows.length;
  const parts = rows.slice(0, 3).flatMap(row => {
    const told = row.line ? `, told at line ${row.line.number}` : "";
    return [make("h3", { "data-none-of": row.key }, `${rowName(row)}: none${told}`),
      make("ol", {}, ...threeCauses(row).map(causeItem))];
  });
  if (rows.length > 3) {
    parts.push(make("p", { class: "faint small" }, `The same causes go for ${asCount(rows.length - 3, "other row")}.`));
  }
  $("causes").replaceChildren(make("h2", {}, "Why none?"), ...parts);
}

function threeCauses(row) {
  const causes = row.key === "element" ? causesOfElement(row)
    : row.key === "seekable" ? causesOfSeekable(row) : row.feed ? causesOfFeed(row) : causesOfBuffer(row);
  const pointed = causes.filter(cause => cause.points);
  return [...pointed, ...causes.filter(cause => !cause.points && cause.usual)].slice(0, 3);
}

const causeItem = ({ says, to, points }) => make("li", {},
  points ? make("strong", {}, `This text points here (${points}): `) : "", says + " ",
    to ? link(to, "docs/" + to.split("#")[0]) : "");

function causesOfBuffer(row) {
  const { story } = page, { buffer } = row, { index } = row.line;
  const last = story.blocks.get(buffer), block = last?.index <= index && last.phase ? last : undefined;
  const tracks = block ? story.tracks.get(buffer) ?? [] : null;
  const isHeld = block && (block.phase === "media" || block.held !== "0");
  const isActive = story.fired.get("activesourcebuffers addsourcebuffer")?.[0] <= index;
  const fault = faultBefore(buffer, index);
  const waits = appendWaits(buffer, index);
  const removed = removedBefore(buffer, index);
  const empty = tracks?.find(track => !rangesOf(track).length), full = tracks?.some(track => rangesOf(track).length);
  const noTracks = block ? !tracks.length : story.kind === "play" && !isActive;
  const dropped = tracks?.length && !full && !isHeld && !fault && !removed;
  return [
    { says: "A fault came before the first frame was whole; nothing behind it is read.",
      to: "SCRIPTS.md#faults", points: fault },
    { says: "The append was called and is not worked yet: a script needs drain, or work K, behind it.",
      to: "SCRIPTS.md#step-lines", points: waits },
    { says: "No initialization segment has come. A file that is no fragmented MP4 reads as one long unknown box; a "
      + "script may have left the segment out.",
      to: "SCRIPTS.md#what-an-empty-block-means", usual: !tracks?.length,
        points: noTracks && !fault && !waits ? (block ? "no track line" : "no buffer is active") : null },
    { says: "One of the tracks has nothing: buffered is the time that all tracks have.",
      to: "GUIDE.md#why-is-there-a-gap-and-how-wide-is-it", usual: Boolean(tracks?.length),
        points: empty && full ? `track ${empty.id}` : null },
    { says: "What was there was removed, and with it all frames decoded after it up to the next random access point.",
      to: "GUIDE.md#which-frames-went", points: removed },
    { says: "No frame is whole: the append, or the download, was cut within the first media segment. The rest may "
      + "still come.",
      to: "GUIDE.md#does-it-matter-where-the-network-cut-my-appends", usual: true,
        points: isHeld ? `phase ${block.phase}, held ${block.held}` : null },
    { says: "All frames were dropped: they begin before 0 or outside the append window, or no random access point "
      + "came behind one that does.",
      to: "GUIDE.md#why-does-playback-not-begin-at-0", usual: true, points: dropped ? "tracks, and no frames" : null },
  ];
}

function faultBefore(buffer, index) {
  const fault = page.story.faults.find(line => line.kind === "fault" && line.buffer === buffer);
  const error = page.story.fired.get(`buffer ${buffer} error`)?.[0];
  return fault && (fault.index <= index || error <= index || page.story.kind !== "play") ? `line ${fault.number}`
    : null;
}

function removedBefore(buffer, index) {
  const calls = page.story.removals.get(buffer) ?? [], count = countUpTo(calls, index);
  return count ? `line ${page.story.lines[calls[count - 1]].number}` : null;
}

// Whether an append or a removal of a buffer was called whose `updateend` has not come.
function appendWaits(buffer, index) {
  const called = countUpTo(page.story.queued.get(`buffer ${buffer} updatestart`) ?? [], index);
  const ended = countUpTo(page.story.fired.get(`buffer ${buffer} updateend`) ?? [], index);
  return called > ended ? "its updateend has not come" : null;
}

function causesOfElement(row) {
  const { story } = page, { index } = row.line;
  const isActive = story.fired.get("activesourcebuffers addsourcebuffer")?.[0] <= index;
  const empty = [...story.buffers].find(buffer => /none$/.test(story.last(`buffer ${buffer}`, index)?.rangeText ?? ""));
  return [
    { says: "No source buffer is active: none has received its initialization segment.",
      to: "MACHINE.md#a-step-of-the-machine", usual: true,
        points: isActive ? null : "no event activesourcebuffers addsourcebuffer so far" },
    { says: "One of the active buffers has nothing: the element has the time that all of them have.",
      to: "MACHINE.md#a-step-of-the-machine", usual: true,
        points: isActive && empty !== undefined ? `buffer ${empty} answered none` : null },
    { says: "The buffers have no time in common, as where sound and pictures begin at other times.",
      to: "MACHINE.md#a-step-of-the-machine", usual: true },
  ];
}

function causesOfSeekable(row) {
  const state = page.story.last("state", row.line.index)?.state;
  return [
    { says: "The source is not attached yet.",
      to: "MACHINE.md#the-media-source", usual: true, points: state?.source === "closed" ? "source closed" : null },
    { says: "The duration is not known: no initialization segment has told it, and no call has set it.",
      to: "MACHINE.md#the-media-source", usual: true, points: state?.duration === "nan" ? "duration nan" : null },
    { says: "The duration is infinite and the element has nothing buffered, nor is there a live seekable range.",
      to: "MACHINE.md#the-media-source", usual: true, points: state?.duration === "inf" ? "duration inf" : null },
  ];
}

const feedNone = () => page.story.feed.filter(track => !track.frames.length)
  .map(track => ({ key: `shown ${track.id}`, cls: "feed", name: `track ${track.id}`, feed: track }));

function causesOfFeed({ feed }) {
  const fault = page.story.faults.find(line => line.kind === "fault");
  const at = inSeconds(feed.asked);
  return [
    { says: "A fault came before the first frame was whole.",
      to: "SCRIPTS.md#faults", points: fault ? `fault ${fault.code} ${fault.name}` : null },
    { says: `The track begins later than ${at}, as where pictures are stored in another order than they are shown `
      + `and there is no edit list.`,
      to: "GUIDE.md#why-does-playback-not-begin-at-0", usual: true },
    { says: `${at} lies in a gap of the track: \`ranges\` shows its ranges.`,
      to: "GUIDE.md#why-is-there-a-gap-and-how-wide-is-it", usual: true },
    { says: `${at} is at the end of the track or behind it.`,
      to: "SCRIPTS.md#frames-for-a-decoder", usual: true },
  ];
}
