// A row over the lines: how many seconds are buffered ahead of the position, wherever the lines tell both.

import { $, make, page } from "./dom.mjs";
import { rangesOf, seconds, TICKS } from "../../../js/src/inspect/times.mjs";

const MOST_POINTS = 600;

// The points of a story, made once: at which line, and how many ticks are ahead.
function pointsOf(story) {
  if (story.ahead) return story.ahead;
  story.ahead = [];
  let position = 0n, ranges = null;
  for (const line of story.lines) {
    if (line.state && typeof line.state.position === "bigint") position = line.state.position;
    if (line.words?.[0] === "elementbuffered" && !line.refused) ranges = line;
    if ((line.state || line.words?.[0] === "elementbuffered") && ranges) {
      story.ahead.push({ index: line.index, ticks: aheadOf(rangesOf(ranges), position) });
    }
  }
  return story.ahead;
}

function aheadOf(ranges, position) {
  const range = ranges.find(([from, to]) => from <= position && position < to);
  return range ? range[1] - position : 0n;
}

export function drawAhead() {
  const { story, index } = page, points = story.kind === "play" ? pointsOf(story) : [];
  $("ahead-row").hidden = points.length < 3;
  if (points.length < 3) return;
  const last = points.findLast(point => point.index <= index);
  const most = points.reduce((all, { ticks }) => (ticks > all ? ticks : all), 1n);
  const step = Math.ceil(points.length / MOST_POINTS);
  const place = ({ index: at, ticks }) =>
    `${(at / (story.lines.length - 1) * 100).toFixed(2)},${(100 - Number(ticks * 1000n / most) / 10).toFixed(2)}`;
  const drawn = points.filter((_, at) => at % step === 0);
  const path = drawn.map((point, at) => (at ? `${place({ index: point.index, ticks: drawn[at - 1].ticks })} ` : "")
    + place(point)).join(" ");
  const svg = document.createElementNS("http://www.w3.org/2000/svg", "svg");
  svg.setAttribute("viewBox", "0 0 100 100");
  svg.setAttribute("preserveAspectRatio", "none");
  svg.setAttribute("aria-hidden", "true");
  svg.innerHTML = `<polyline points="${path}" vector-effect="non-scaling-stroke"/>`;
  const words = last ? `${seconds(last.ticks)} s ahead at this line; at most ${seconds(most)} s`
    : "not told up to this line";
  const here = make("i",
    { class: "at", style: `left:${(index / Math.max(1, story.lines.length - 1) * 100).toFixed(2)}%` });
  $("ahead").replaceChildren(svg, here, make("span", { class: "words" }, words));
  $("ahead").dataset.ticks = last ? last.ticks : "";
  $("ahead").onclick = event => {
    const box = $("ahead").getBoundingClientRect();
    page.goTo(Math.round((event.clientX - box.left) / box.width * (story.lines.length - 1)));
  };
}

const secondsAhead = ticks => Number(ticks) / Number(TICKS);
