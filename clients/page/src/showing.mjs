// Shows a text that was printed: reads it, makes its story, and draws it at one of its lines.

import { prepareFeed } from "./feed_frames.mjs";
import { drawAhead } from "./ahead.mjs";
import { drawAxis, drawFlags } from "./axis.mjs";
import { drawCauses } from "./causes.mjs";
import { drawRows } from "./chart.mjs";
import { drawTimes } from "./copy.mjs";
import { $, make, page } from "./dom.mjs";
import { drawFaults } from "./faults.mjs";
import { fillFilter } from "./filter.mjs";
import { drawGaps } from "./gaps.mjs";
import { drawHere } from "./here.mjs";
import { drawList, scrollSoon, scrollTop, showChosen } from "./list.mjs";
import { kindOf, readText, secondOutput, withoutStrays } from "./lines.mjs";
import { feedRowOf } from "./rows.mjs";
import { Story } from "./story.mjs";
import { grouped } from "../../../js/src/inspect/times.mjs";
import { forgetWidth, openingView } from "./view.mjs";
import { asCount, inParts, pause, quoted, shortened } from "./words.mjs";

export function draw() {
  drawAxis();
  drawRows();
  drawFlags();
  drawAhead();
  drawList();
  drawHere();
  drawCauses();
  drawGaps();
  drawTimes();
  drawWhere();
}

function drawWhere() {
  const { story, index } = page, line = story.lines[index];
  $("where").textContent = `line ${grouped(line.number)} of ${grouped(story.lines.at(-1).number)}`;
  $("slider").value = index + 1;
  $("slider").setAttribute("aria-valuetext", `line ${line.number}: ${shortened(line.text, 120)}`);
}

let isDrawing = false;

// Goes to a line. However often it is called before the next picture, it is drawn once.
export function goTo(index) {
  const last = page.story.lines.length - 1;
  page.index = Math.max(0, Math.min(last, index));
  const line = page.story.lines[page.index];
  if (page.chosen?.kind !== "frame" || line.kind !== "frame") page.chosen = null;
  if (line.kind === "frame") followFrame(line);
  if (isDrawing) return;
  isDrawing = true;
  requestAnimationFrame(() => { isDrawing = false; showChosen(); draw(); });
}

Object.assign(page, { draw, goTo, drawWhere, drawList });

// The chosen frame is brought into the view.
function followFrame(frame) {
  const key = page.chosen?.row.key.startsWith("decoded") ? "decoded" : "shown";
  const row = feedRowOf(`${key} ${frame.track.id}`);
  page.chosen = { key: row.key, row, kind: "frame", from: key === "shown" ? frame.from : frame.decoded, to: frame.to };
  const { from, to } = page.view, span = to - from;
  if (frame.from < to && frame.to > from) return;
  page.view = { from: frame.from - span / 2n, to: frame.from - span / 2n + span };
}

// Reads a text and shows it; throws a `NoText` with a sentence where it is none that mseplay printed.
export class NoText extends Error {}

export async function showText(text, name, { isOfFile = false, notices = [], keepsView = false, at = undefined } = {}) {
  document.body.dataset.state = "reading";
  $("live").textContent = "reading";
  const { lines, notices: said } = await readLines(text, name, isOfFile);
  const story = await storyOf(lines);
  await open(story, name, [...notices, ...said, ...whatIsMissing(story)], keepsView, at);
}

async function readLines(text, name, isOfFile) {
  const read = await readText(text, isOfFile);
  if (!read.lines.length) throw new NoText(noLineSays(text, name, read));
  const second = secondOutput(read.lines);
  if (second) {
    read.lines = read.lines.filter(line => line.number < second);
    read.notices.push(`Another output begins at line ${second}; this page shows one at a time, and shows the first.`);
  }
  const lines = withoutStrays(read.lines), strays = read.lines.length - lines.length;
  const left = `${asCount(strays, "line")} of feed ${strays === 1 ? "is"
    : "are"} left out, since no line feed above says of which track.`;
  if (!lines.length) throw new NoText(`${name}: ${left}`);
  if (strays) read.notices.push(left[0].toUpperCase() + left.slice(1));
  return { lines, notices: read.notices };
}

async function storyOf(lines) {
  const story = new Story(kindOf(lines));
  await inParts(lines, line => story.take(line));
  if (story.kind === "feed") await prepareFeed(story);
  return story;
}

// Where the last lines are not there, the text was cut or the run ended early.
function whatIsMissing(story) {
  if (story.faults.some(line => line.kind === "error")) return [];
  const says = [];
  if (story.kind === "play" && !story.duration) {
    says.push("The text stops before its last lines, the state and what is buffered: it was cut, or the run ended "
      + "early. What it has is shown.");
  }
  if (story.kind === "feed" && story.feed.some(track => !track.none)) {
    says.push("The text stops before its last lines: a track of feed ends with none. What it has is shown.");
  }
  if (story.kind === "ranges" && !story.duration) {
    says.push("The text has no line duration, with which a block begins. What it has is shown.");
  }
  if (story.kind === "play" && story.calls.length > 2 && !story.answers.get("element")) says.push("ask");
  return says;
}

async function open(story, name, notices, keepsView, at) {
  const view = page.view;
  Object.assign(page,
    { story, name, chosen: null, firstRow: 0,
      index: Math.min(at ?? Infinity, story.kind === "feed" ? 0 : story.lines.length - 1) });
  $("start").hidden = true;
  $("shown").hidden = false;
  $("says").hidden = true;
  $("walk").hidden = story.kind !== "play" && story.kind !== "feed";
  $("time").hidden = story.kind === "fault" || story.kind === "error";
  for (const id of ["before", "behind"]) $(id).hidden = story.kind !== "play";
  $("slider").max = story.lines.length;
  scrollTop();
  drawNotices(notices);
  tellWhat(story, name);
  drawFaults();
  fillFilter();
  $("legend").hidden = story.kind !== "feed";
  page.view = keepsView && view ? view : openingView(story);
  forgetWidth();
  await pause();
  showChosen();
  scrollSoon();
  draw();
  document.body.dataset.state = "shown";
  if (!keepsView) ($("walk").hidden ? $("lines") : $("slider")).focus({ preventScroll: true });
  $("live").textContent = `${name}: ${asCount(story.lines.length, "line")} shown`;
}

function drawNotices(notices) {
  $("notices").hidden = !notices.length;
  $("notices").replaceChildren(...notices.map(text => text !== "ask" ? make("p", {}, text) : make("p", {},
    "This text does not say what the element has buffered. A script that asks at each step shows more: ",
      make("button", { class: "tell", onclick: () => page.openScript() }, "write it"), ".")));
}

const KINDS = { play: "a script that was played", feed: "frames for a decoder", make: "a file that was made",
  ranges: "what is buffered of a file", fault: "a fault", error: "an error" };

function tellWhat(story, name) {
  const counts = story.kind === "play"
    ? [asCount(story.calls.length, "call"), asCount(story.events.length, "event"),
    asCount(story.heard, "call by listeners", "calls by listeners"), asCount(story.refusals, "refusal")]
    : story.kind === "feed" ? story.feed.map(track => `track ${track.id}: ${asCount(track.frames.length, "frame")}`)
    : [];
  $("what").textContent = `${name}: ${page.kind ?? KINDS[story.kind]}`;
  $("counts").textContent = [asCount(story.lines.length, "line"), ...counts].join(" · ");
  Object.assign($("counts").dataset,
    { calls: story.calls.length, events: story.events.length, refusals: story.refusals, heard: story.heard });
  document.title = `${name} – mseplay`;
}

// Bad input: a sentence, and what was shown before stays.
export function refuse(sentence) {
  $("says").hidden = false;
  $("says").replaceChildren(make("p", {}, sentence));
  $("says").scrollIntoView({ block: "nearest" });
  document.body.dataset.state = page.story ? "shown" : "empty";
}

function noLineSays(text, name, read) {
  if (text.trim() === "") {
    return `${name} is empty. Every command prints at least one line but feed, which prints none for a file in `
      + `which no track was found; so ask ranges about that file.`;
  }
  if (/^\s*<(!doctype|html|head|body|\?xml|svg)/i.test(text)) {
    return `${name} is an HTML or XML page, and not what mseplay printed. Drop the text itself.`;
  }
  if (/^\s*[{[]/.test(text) && /[}\]]\s*$/.test(text)) {
    return `${name} looks like JSON, and not like what mseplay printed.`;
  }
  const first = read.unknown[0];
  return `${name} has no line that mseplay prints. Its first is ${first ? quoted(first.text)
    : "left out"}. docs/SCRIPTS.md tells each line.`;
}
