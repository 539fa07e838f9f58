// The same bytes on this browser's own MediaSource, and the ranges of both over one axis.

import { busyWith } from "./busy.mjs";
import { $, make, page } from "./dom.mjs";
import { ask } from "./engine_worker.mjs";
import { onLeave, shown } from "./screens.mjs";
import { readMovie } from "../../../js/src/inspect/boxes.mjs";
import { codecOf } from "../../../js/src/inspect/codecs.mjs";
import { difference } from "../../../js/src/inspect/ranges.mjs";
import { length, seconds, TICKS } from "../../../js/src/inspect/times.mjs";

const SLACK = 3n * TICKS / 1000000n; // three microseconds: a browser's own clock has no finer one
const PATIENCE = 20000; // milliseconds

onLeave(() => { for (const id of ["beside", "differences"]) $(id).hidden = true; });

export function offerBeside(media) {
  $("beside").hidden = !globalThis.MediaSource || Boolean(media.fault);
}

// Appends each row of the table to the browser, and tells what differs.
export async function showBeside() {
  const { media } = shown;
  const told = await busyWith("appending to this browser", say => appended(media, say));
  if (media !== shown.media) return;
  page.browser = told.ranges;
  page.story.rows = null;
  page.draw();
  tellDifferences(media, told);
}

async function appended(media, say) {
  const source = new MediaSource(), video = document.createElement("video");
  video.muted = true;
  const address = URL.createObjectURL(source);
  video.src = address;
  await event(source, "sourceopen");
  const buffers = [], told = { ranges: new Map(), says: [] };
  try {
    for (const { number, type } of media.buffers) {
      buffers.push(source.addSourceBuffer(await typeFor(media, number, type)));
    }
    await appendRows(media, buffers, say, video);
  } catch (error) {
    told.says.push(`This browser went no further: ${video.error?.message || error.message}`);
  }
  buffers.forEach((buffer, number) => {
    if ([...source.sourceBuffers].includes(buffer)) told.ranges.set(`buffer ${number}`, ticksOf(buffer.buffered));
  });
  told.ranges.set("element", ticksOf(video.buffered));
  URL.revokeObjectURL(address);
  return told;
}

async function appendRows(media, buffers, say, video) {
  for (const [at, row] of media.rows.entries()) {
    say("appending to this browser", at / media.rows.length);
    const blob = await fileOf(media, row.file), buffer = buffers[row.buffer];
    buffer.appendBuffer(await blob.slice(row.from, row.to).arrayBuffer());
    await event(buffer, "updateend");
    if (video.error) throw new Error(video.error.message);
  }
}

// A file of the table: one that was dropped, or one that remux made.
async function fileOf(media, name) {
  media.made ??= new Map();
  const dropped = media.files.find(({ path }) => path === name)?.blob ?? media.made.get(name);
  if (dropped) return dropped;
  media.made.set(name, new Blob([await ask("file", { name })]));
  return media.made.get(name);
}

// A browser wants to know the codecs.
async function typeFor(media, number, type) {
  const row = media.rows.find(row => row.buffer === number && row.kind === "init");
  if (!row) return type;
  const blob = await fileOf(media, row.file), bytes = new Uint8Array(await blob.slice(row.from, row.to).arrayBuffer());
  const codecs = readMovie(bytes).tracks.map(track => codecOf(bytes, track));
  if (codecs.includes(null)) {
    throw new Error("the codec of a track is not told by its sample entry, and a browser wants to know it");
  }
  return `${type}; codecs="${codecs.join(", ")}"`;
}

function event(target, type) {
  return new Promise((done, fail) => {
    const timer = setTimeout(() => fail(new Error(`no ${type} came in ${PATIENCE / 1000} s`)), PATIENCE);
    target.addEventListener(type, () => { clearTimeout(timer); done(); }, { once: true });
  });
}

const ticks = time => BigInt(Math.round(time * 1e9)) * TICKS / 1000000000n;
const ticksOf = ranges => Array.from({ length: ranges.length },
  (_, at) => [ticks(ranges.start(at)), ticks(ranges.end(at))]);

function tellDifferences(media, { ranges, says }) {
  const words = media.buffers.flatMap(({ number, ranges: ours }) => {
    const theirs = ranges.get(`buffer ${number}`) ?? [];
    const wide = list => list.filter(([from, to]) => to - from > SLACK);
    return [...wide(difference(ours, theirs))
      .map(range => `Buffer ${number}: ${rangeWords(range)} is buffered here, and not in this browser.`),
      ...wide(difference(theirs, ours))
      .map(range => `Buffer ${number}: ${rangeWords(range)} is buffered in this browser, and not here.`)];
  });
  const all = [...says, ...words.slice(0, 30)];
  $("differences").hidden = false;
  $("differences").dataset.count = all.length;
  $("differences").replaceChildren(make("h3", {},
    all.length ? `Beside this browser: ${all.length} ${all.length === 1 ? "difference" : "differences"}`
      : "Beside this browser: the same ranges, to three microseconds"),
    ...(all.length ? [make("ul", {}, ...all.map(text => make("li", {}, text)))] : []));
}

const rangeWords = ([from, to]) => `${seconds(from)} s to ${seconds(to)} s (${length(to - from)})`;
