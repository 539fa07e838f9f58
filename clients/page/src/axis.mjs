// The marks of the axis, and the flags of position and duration over all lanes.

import { $, make, page } from "./dom.mjs";
import { TICKS, decimal, grouped, isTicks, seconds } from "../../../js/src/inspect/times.mjs";
import { laneWidth, placeOf, wordWidth } from "./view.mjs";

function* steps() {
  for (const step of [1n, 2n, 5n, 10n, 20n, 50n, 100n, 200n, 500n, 1000n, 2000n, 5000n]) yield step;
  for (let unit = 14112n; ; unit *= 10n) for (const times of [1n, 2n, 5n]) yield unit * times;
}

const isOfTicks = step => step < 14112n;
const axisLabel = (time, step) => isOfTicks(step) ? grouped(time) : decimal(time, TICKS, 7);

function axisStep({ from, to }, width) {
  for (const step of steps()) {
    const first = from / step * step, last = to / step * step;
    const longest = Math.max(...[first, first + step, last - step, last].map(time => axisLabel(time, step).length));
    if (Number(step) / Number(to - from) * width > 24 + 7 * longest) return step;
  }
}

export function drawAxis() {
  const { from, to } = page.view, width = laneWidth();
  const step = axisStep(page.view, width);
  const marks = [];
  let time = from / step * step;
  if (time < from) time += step;
  for (; time <= to; time += step) marks.push(drawMark(time, step));
  const hasTimes = page.story.kind === "feed" || page.story.ends.least !== undefined;
  $("axis").replaceChildren(...(hasTimes ? marks : []));
  $("unit").textContent = isOfTicks(step) ? "ticks" : "seconds";
  $("view-text").textContent = hasTimes ? `${seconds(from)} s to ${seconds(to)} s` : "no times are told";
}

function drawMark(time, step) {
  const place = placeOf(time), label = axisLabel(time, step);
  const at = place * laneWidth() / 100, half = wordWidth(label, 12) / 2 + 1;
  const edge = at < half ? " first" : at > laneWidth() - half ? " last" : "";
  return make("div", { class: "mark" + edge, style: `left:${place}%`, "data-time": time }, make("span", {}, label));
}

// The position and the duration, over all lanes.
export function drawFlags() {
  const state = page.story.last("state", page.index)?.state;
  const flags = [], lines = [];
  if (state && isTicks(state.position)) {
    addFlag(flags, lines, `position ${seconds(state.position)} s`, state.position, "position");
  }
  const duration = durationAt(page.story, page.index);
  const asked = page.story.feed?.[0]?.asked;
  if (isTicks(asked)) addFlag(flags, lines, `asked for ${seconds(asked)} s`, asked, "position");
  if (isTicks(duration)) addFlag(flags, lines, `duration ${seconds(duration)} s`, duration, "duration");
  $("flags").replaceChildren(...apart(flags));
  $("overlay").replaceChildren(...lines);
}

function durationAt(story, index) {
  const closing = story.duration;
  return closing && closing.index <= index ? closing.time : story.last("state", index)?.state.duration;
}

function addFlag(flags, lines, text, time, kind) {
  const place = placeOf(time), isSeen = place >= 0 && place <= 100;
  if (isSeen) lines.push(make("i", { class: kind, style: `left:${place}%`, "data-time": time }));
  const width = laneWidth(), sizeOf = words => wordWidth(words + " ▸", 12, 600) + 6;
  const told = sizeOf(text) > width ? text.slice(text.indexOf(" ") + 1) : text, size = sizeOf(told);
  const left = Math.max(0, Math.min(place * width / 100 - size / 2, width - size));
  const words = place < 0 ? "◂ " + told : place > 100 ? told + " ▸" : told;
  flags.push({ left, size, element: make("span", { class: `flag ${kind}`, title: text }, words) });
}

// Two flags side by side where they would meet, or one below the other where the lane is too narrow for that.
function apart(flags) {
  const width = laneWidth(), isNarrow = flags.length === 2 && flags[0].size + flags[1].size > width;
  $("plot").classList.toggle("two-flags", isNarrow);
  if (flags.length === 2 && !isNarrow) {
    const [one, two] = flags[0].left <= flags[1].left ? flags : [flags[1], flags[0]];
    if (one.left + one.size > two.left) two.left = one.left + one.size;
    const over = two.left + two.size - width;
    if (over > 0) { two.left -= over; one.left = Math.max(0, Math.min(one.left, two.left - one.size)); }
  }
  flags.forEach(({ element, left }, at) => {
    element.style.left = left / width * 100 + "%";
    element.style.top = isNarrow && at ? "17px" : "0";
  });
  return flags.map(({ element }) => element);
}
