// The position: a click into a lane seeks, and what the element says then and what a decoder is given is told.

import { busyWith, guard } from "./busy.mjs";
import { $, make, page, table, tableRow } from "./dom.mjs";
import { ask } from "./engine_worker.mjs";
import { LEVELS } from "./here.mjs";
import { textOf } from "./media_text.mjs";
import { onLeave, shown } from "./screens.mjs";
import { showText } from "./showing.mjs";
import { grouped, seconds, TICKS } from "../../../js/src/inspect/times.mjs";

export function offerPosition() {
  $("position").hidden = false;
  $("position-time").value = "0";
  $("position-says").textContent = "";
}

onLeave(() => { for (const id of ["position", "fed"]) $(id).hidden = true; });

// The ticks of a text in seconds, or null where it is none.
function ticksOf(text) {
  const found = /^\s*(\d{1,9})(?:[.,](\d{1,12}))?\s*$/.exec(text);
  return found ? BigInt(found[1]) * TICKS + BigInt((found[2] ?? "").padEnd(12, "0")) * TICKS / 10n ** 12n : null;
}

export const seekToField = guard(async () => {
  const ticks = ticksOf($("position-time").value);
  if (ticks === null) { $("position-says").textContent = "A position is a number of seconds, as 12.5."; return; }
  await seekTo(ticks);
});

export const seekByClick = guard(async event => {
  const lane = event.target.closest(".lane");
  if (!shown.media || !lane || event.target.closest("#ahead, button.tell")) return;
  const box = $("axis").getBoundingClientRect(), part = (event.clientX - box.left) / box.width;
  if (part < 0 || part > 1) return;
  const { from, to } = page.view, ticks = from + (to - from) * BigInt(Math.round(part * 1e6)) / 1000000n;
  await seekTo(ticks < 0n ? 0n : ticks);
});

// Seeks in the live session, and shows the lines that came.
export async function seekTo(ticks) {
  const { media } = shown, before = media.lines.length;
  const { found, fed } = await busyWith("seeking", async () => ({
    found: await ask("step", { lines: [`seek ${ticks}`, "drain", "state", "elementbuffered"] }),
      fed: await ask("feed", { ticks }),
  }));
  if (media !== shown.media) return;
  Object.assign(media, found);
  $("position-time").value = seconds(ticks);
  await showText(textOf(media), page.name, { keepsView: true });
  sayPosition(media.lines.slice(before));
  showFed(fed, ticks);
}

function sayPosition(lines) {
  const state = /level (\d) position (-?\d+) .* seeking (\w+) error (\d+)/.exec(lines.find(line =>
    line.startsWith("call state:")) ?? "");
  const events = lines.filter(line => line.startsWith("event ")).map(line => line.slice(line.lastIndexOf(" ") + 1));
  const refused = lines.find(line => line.startsWith("call seek ") && line.includes(": refused "));
  const words = refused ? [refused] : !state ? [] : [
    `position ${seconds(BigInt(state[2]))} s`, `level ${state[1]} (${LEVELS[state[1]]})`,
    state[3] === "true" ? "seeking: nothing is buffered there, so the seek waits" : "the seek is over",
      `events: ${events.join(", ") || "none"}`];
  $("position-says").replaceChildren(words.join(" · "));
  Object.assign($("position-says").dataset, { level: state?.[1] ?? "", events: events.join(" ") });
}

// The frames that a decoder is given, a table for each track.
function showFed(fed, ticks) {
  const parts = fed.flatMap(({ buffer, text, note, before }) =>
    (note ? [make("p", { class: "small" }, `Buffer ${buffer}: ${note}.`)]
      : tracksOf(text).map(track => drawTrack(buffer, track, before))));
  $("fed").hidden = !parts.length;
  $("fed").replaceChildren(make("h2", {}, `What a decoder is given at ${seconds(ticks)} s`), ...parts);
}

function tracksOf(text) {
  const tracks = [];
  for (const line of text.split("\n")) {
    const found = /^feed \d+ (\d+) at (-?\d+) (?:wanted (\d+)|none)/.exec(line);
    if (found) tracks.push({ id: found[1], wanted: found[3], frames: [], end: "" });
    const frame = /^frame (\d+) pts (-?\d+) dts (-?\d+) dur (\d+) bytes (\d+) sync (\w+)/.exec(line);
    if (frame) tracks.at(-1).frames.push(frame);
    if (line.startsWith("end ")) tracks.at(-1).end = line.slice(4);
  }
  return tracks;
}

const MOST_FRAMES = 60;

function drawTrack(buffer, { id, wanted, frames }, before) {
  const head = make("h3", {},
    `Buffer ${buffer}, track ${id}: ${wanted === undefined ? "no frame is shown then"
      : `frame ${grouped(Number(wanted)
      + (before[id]
      ?? 0))} is shown, and ${grouped(frames.length)} of its group are given from the random access point on`}`);
  if (!frames.length) return head;
  const rows = frames.slice(0, MOST_FRAMES).map(([, serial, pts, dts, dur, bytes, sync]) => tableRow(
    `${grouped(Number(serial) + (before[id] ?? 0))}${serial === wanted ? " ◂ shown" : ""}`, seconds(BigInt(pts)),
      seconds(BigInt(dts)), seconds(BigInt(dur)), grouped(bytes), sync === "true" ? "random access point" : ""));
  const more = frames.length > MOST_FRAMES
    ? make("p", { class: "faint small" }, `and ${grouped(frames.length - MOST_FRAMES)} more`) : "";
  const part = make("div", { class: "fed-track", "data-track": id, "data-wanted": wanted }, head,
    table(["frame", "shown (s)", "decoded (s)", "lasts (s)", "bytes", ""], rows), more);
  return part;
}
