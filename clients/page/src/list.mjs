// The list of lines. A long one has only those that are seen, and some about them.

import { readWord } from "./copy.mjs";
import { $, make, page } from "./dom.mjs";
import { LEVELS, rangesInSeconds } from "./here.mjs";
import { CALLS } from "./lines.mjs";
import { QUESTIONS } from "./story.mjs";
import { grouped, inSeconds, isTicks, seconds } from "../../../js/src/inspect/times.mjs";
import { asCount, countUpTo, shortened } from "./words.mjs";

const LINE_HEIGHT = 22;
const LINES_AT_ONCE = 400;
const LINES_PRINTED = 3000;
export const isPrinting = matchMedia("print");

// Where the filter leaves some lines out, those that are left.
const countListed = () => page.listed?.length ?? page.story.lines.length;
const indexAt = place => (page.listed ? page.listed[place] : place);

// The place in the list of a line, or of the first one behind it.
function placeOfLine(index) {
  if (!page.listed) return index;
  const at = countUpTo(page.listed, index);
  return page.listed[at - 1] === index ? at - 1 : Math.min(at, Math.max(0, page.listed.length - 1));
}

export function drawList() {
  const count = countListed(), box = $("lines");
  const isShort = count <= LINES_AT_ONCE;
  box.classList.toggle("short", isShort || isPrinting.matches);
  const { from, to } = isPrinting.matches ? printedPart(count) : isShort ? { from: 0, to: count } : seenPart(count);
  const signature = `${page.name}|${page.story.lines.length}|${$("find").value}|${$("only").value}|${from}|${to}|${isPrinting.matches}`;
  if (box.dataset.drawn !== signature || !box.hasChildNodes()) {
    fillList(box, from, to, count, isShort || isPrinting.matches);
  }
  box.dataset.drawn = signature;
  markChosen(box);
  scrollList();
}

// The lines about those that are seen. Where the box is scrolled to is kept, as the width of the lanes is.
export const scrolled = { top: 0, height: 512 };

export function scrollTop() {
  scrolled.top = 0;
  $("lines").dataset.drawn = "";
}

function seenPart(count) {
  const from = Math.max(0, Math.min(Math.floor(scrolled.top / LINE_HEIGHT / 20) * 20 - 20, count - 60));
  return { from, to: Math.min(count, from + 80) };
}

// On paper all lines stand, or of a long text those about the chosen one.
function printedPart(count) {
  const from = count <= LINES_PRINTED ? 0
    : Math.max(0, Math.min(count - LINES_PRINTED, placeOfLine(page.index) - LINES_PRINTED / 2));
  return { from, to: Math.min(count, from + LINES_PRINTED) };
}

function fillList(box, from, to, count, isWhole) {
  const lines = Array.from({ length: to - from }, (_, at) => drawLine(page.story.lines[indexAt(from + at)]));
  if (isWhole) {
    const left = count - (to - from);
    const said = left ? `${asCount(left, "line is", "lines are")} left out on paper.`
      : count ? "" : "No line is like this.";
    box.replaceChildren(...lines, said ? make("p", { class: "faint" }, said) : "");
    return;
  }
  const space = make("div", { style: `position:relative;height:${count * LINE_HEIGHT}px` });
  const part = make("div", { style: `position:absolute;left:0;right:0;top:${from * LINE_HEIGHT}px` }, ...lines);
  space.append(part);
  box.replaceChildren(space);
}

function drawLine(line) {
  const isQuestion = line.words && QUESTIONS.has(line.words[0]);
  const cls = `line of-${line.kind}${line.refused ? " refused" : ""}${isQuestion ? " question" : ""}`;
  return make("div",
    { class: cls, id: `line-${line.index}`, role: "option", "data-index": line.index, "data-number": line.number,
      title: shortened(line.text, 300) },
    make("span", { class: "number" }, String(line.number)), make("span", { class: "text" }, shortened(line.text, 240)),
      make("span", { class: "note" }, noteOf(line)));
}

// What stands behind a line: its times in seconds.
function noteOf(line) {
  if (line.state) return `${LEVELS[line.state.level]} at ${inSeconds(line.state.position)}`;
  if (line.rangeText) {
    return line.rangeText.length > 4000 ? "many ranges"
      : /none$/.test(line.rangeText) ? "" : rangesInSeconds(line, 3) + " s";
  }
  if (line.kind === "frame") return `decoded ${line.place}, shown ${line.shownPlace} at ${seconds(line.from)} s`;
  if (line.time !== undefined) return isTicks(line.time) ? inSeconds(line.time) : "";
  if (line.kind === "fault") return "look above";
  if (line.kind === "event") return faultHeard(line);
  if (line.words) {
    return CALLS[line.words[0]][0].map(at => readWord(line.words[at])).filter(isTicks).map(inSeconds).join(", ");
  }
  return "";
}

// The event by which a page hears of a fault.
function faultHeard(line) {
  const fault = line.event === "error"
    && page.story.faults.find(fault => fault.buffer !== undefined && line.target === `buffer ${fault.buffer}`);
  return fault ? `fault ${fault.code} ${fault.name} at byte ${grouped(fault.offset)}` : "";
}

function markChosen(box) {
  for (const line of box.querySelectorAll(".chosen")) {
    line.classList.remove("chosen");
    line.removeAttribute("aria-selected");
  }
  const line = $(`line-${page.index}`);
  if (!line) return;
  line.classList.add("chosen");
  line.setAttribute("aria-selected", "true");
  box.setAttribute("aria-activedescendant", line.id);
}

// The chosen line is brought into the box; the page itself does not move.
export function showChosen() {
  const top = placeOfLine(page.index) * LINE_HEIGHT;
  const isAbove = top < scrolled.top + LINE_HEIGHT, isBelow = top + 2 * LINE_HEIGHT > scrolled.top + scrolled.height;
  if (!isAbove && !isBelow) return;
  const most = Math.max(0, countListed() * LINE_HEIGHT - scrolled.height);
  scrolled.top = Math.max(0, Math.min(most, isAbove ? top - 3 * LINE_HEIGHT : top + 4 * LINE_HEIGHT - scrolled.height));
  toScroll = true;
}

// The box is scrolled when its lines are there.
let toScroll = false;

export const scrollSoon = () => { toScroll = true; };

function scrollList() {
  if (toScroll) $("lines").scrollTop = scrolled.top;
  toScroll = false;
}

export function keyInList(event) {
  const by = { ArrowDown: 1, ArrowUp: -1, ArrowRight: 1, ArrowLeft: -1, PageDown: 20, PageUp: -20, Home: -Infinity,
    End: Infinity }[event.key];
  if (by === undefined || event.ctrlKey || event.altKey || event.metaKey || !countListed()) return;
  event.preventDefault();
  event.stopPropagation();
  page.goTo(indexAt(Math.max(0, Math.min(countListed() - 1, placeOfLine(page.index) + by))));
}

// The next call of the script before the line or behind it.
export function goToCall(direction) {
  const { calls } = page.story, at = countUpTo(calls, page.index);
  const isCall = at > 0 && calls[at - 1] === page.index;
  const to = direction > 0 ? calls[at] : calls[at - (isCall ? 2 : 1)];
  page.goTo(to ?? (direction > 0 ? Infinity : 0));
}
