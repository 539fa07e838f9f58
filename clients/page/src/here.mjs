// What is known at a line.

import { ROWS_AT_ONCE } from "./chart.mjs";
import { $, link, make, page, redWords, table, tableRow } from "./dom.mjs";
import { CALLS } from "./lines.mjs";
import { rowName } from "./rows.mjs";
import { QUESTIONS, queueAt } from "./story.mjs";
import { grouped, inSeconds, rangesOf, seconds } from "../../../js/src/inspect/times.mjs";
import { asCount, countUpTo, ordinal, shortened } from "./words.mjs";

export const LEVELS = ["nothing", "metadata", "current data", "future data", "enough data"];

const PHASES = { waiting: "between segments", init: "in an initialization segment", media: "in a media segment" };

const ENDS = {
  GroupEnd: "the next frame is the random access point of another group",
  Wait: "the track has received no more frames",
  Lost: "the next frame is not held: it was dropped, or it was removed or replaced",
};

export const lineButton = line => make("button", { class: "tell", onclick: () => page.goTo(line.index) },
  `line ${line.number}`);

export function drawHere() {
  const { story, index } = page, line = story.lines[index];
  const parts = [
    make("h2", {}, `At line ${line.number}`),
    make("code", { id: "full", style: "display:block" }, shortened(line.text, 2000)),
    ...aboutLine(line),
  ];
  if (story.kind === "play") parts.push(...stateAt(story, index), ...queuePart(story, index),
    ...answersAt(story, index));
  else parts.push(...blockFacts(story));
  $("here").replaceChildren(...parts);
}

// A sentence on the line itself.
function aboutLine(line) {
  const said = [];
  if (line.kind === "listener") {
    said.push(make("p", { class: "small" },
      `Listener ${line.listener} made this call when it heard the event above it.`));
  }
  if (line.refused) said.push(make("p", { class: "small" }, redWords(line.answer),
    ": the call threw this error. Its rules are in ",
    link(`MACHINE.md#${CALLS[line.words[0]][1]}`, "docs/MACHINE.md"), "."));
  if (line.kind === "frame") said.push(make("p", { class: "small" }, frameSays(line)));
  if (line.kind === "end") said.push(make("p", { class: "small" }, `${line.why}: ${ENDS[line.why]}.`));
  if (line.kind === "feed") said.push(make("p", { class: "small" }, feedSays(line)));
  return said;
}

const frameSays = line =>
  `Decoded ${ordinal(line.place)}, shown ${ordinal(line.shownPlace)} of the ${asCount(line.group.frames.length,
    "frame")} ` +
  `that are given here. It is shown ${seconds(line.from - line.decoded)} s behind its decode time.`;

function feedSays(line) {
  if (line.wanted !== undefined) {
    return `At ${inSeconds(line.time)} the frame ${line.wanted} of track ${line.id} is shown; the frames below are `
      + `given.`;
  }
  return `At ${inSeconds(line.time)} no frame of track ${line.id} is shown: with this line the track is done.`;
}

function stateAt(story, index) {
  const told = story.last("state", index);
  if (!told) {
    return [make("p", { class: "faint small", id: "state" }, "The state was not told so far: the line ",
      make("code", {}, "state"), " of a script asks.")];
  }
  const { source, duration, level, position, paused, seeking, error } = told.state;
  const words = [
    ["source", source], ["level", `${level} · ${LEVELS[level]}`], ["position", inSeconds(position)],
      ["duration", inSeconds(duration)],
    ["paused", paused ? "yes" : "no"], ["seeking", seeking ? "yes" : "no"], ["error", String(error)],
  ];
  return [make("h3", {}, "State, as told at ", lineButton(told),
    make("span", { class: "faint" }, calledSince(story, told.index, index))),
    make("p", { id: "state", "data-line": told.number, "data-level": level, "data-position": position },
      ...words.flatMap(([name, value], at) => [at ? " · " : "", make("span", { class: "faint" }, name + " "),
      make("strong", {}, value)]))];
}

function calledSince(story, from, to) {
  const low = countUpTo(story.calls, from), high = countUpTo(story.calls, to);
  const names = story.calls.slice(low, Math.min(high, low + 50)).map(at => story.lines[at].words[0])
    .filter(name => !QUESTIONS.has(name));
  const told = [...new Set(names)].slice(0, 4);
  return told.length ? `; since then: ${told.join(", ")}` : "";
}

function answersAt(story, index) {
  const rows = page.rows.filter(row => !row.track && !row.browser);
  return [make("h3", {}, "Last answers"), table(["", "in seconds", "told at"], rows.map(row => {
    const element = tableRow(rowName(row),
      row.line ? answerWords(row.line) : make("span", { class: "faint" }, "not asked so far"),
        row.line ? lineButton(row.line) : "");
    element.dataset.answer = row.key;
    return element;
  }))];
}

function answerWords(line) {
  return line.refused ? redWords(line.answer) : rangesInSeconds(line, 8);
}

export function rangesInSeconds(line, most) {
  const ranges = rangesOf(line);
  if (!ranges.length) return "none";
  const words = ranges.slice(0, most).map(([from, to]) => `${seconds(from)} – ${seconds(to)}`);
  return words.join(", ") + (ranges.length > most ? `, and ${asCount(ranges.length - most, "more", "more")}` : "");
}

// The queue, by target.
function queuePart(story, index) {
  const queue = queueAt(story, index);
  const targets = [...new Set([...story.targets.keys(), ...queue.never.map(({ event }) => targetOf(event))])].sort()
    .slice(0, ROWS_AT_ONCE);
  const rows = targets.map(target => {
    const fired = countUpTo(story.targets.get(target) ?? [], index);
    const chips = chipsOf(queue, target);
    const row = tableRow(target, fired ? `${grouped(fired)}, last ${lastFired(story, target, index)}` : "0",
      chips.length ? chips : "");
    row.dataset.target = target;
    row.dataset.fired = fired;
    return row;
  });
  if (!rows.length) return [];
  return [make("h3", {}, "Events, by target"), table(["target", "fired so far", "to come"], rows),
    make("p", { class: "faint small" },
    make("span", { class: "event-chip" }, "waits in the queue"), " for certain; ",
      make("span", { class: "event-chip later" }, "comes"), " before the next call, and may not be queued yet")];
}

// The events of a target that are to come.
function chipsOf(queue, target) {
  const coming = queue.coming.filter(line => line.target === target).slice(0, 40);
  const never = queue.never.filter(({ event }) => targetOf(event) === target);
  return [
    ...coming.map(line => make("span", { class: "event-chip" + (line.index > queue.lastSure ? " later" : "") },
    line.event)),
    ...never.map(({ event, count }) => make("span", { class: "event-chip never" },
      `${event.slice(target.length + 1)}${count > 1 ? " × " + count : ""}, not fired in this text`)),
  ];
}

const targetOf = event => event.slice(0, event.lastIndexOf(" "));

function lastFired(story, target, index) {
  const fired = story.targets.get(target);
  return story.lines[fired[countUpTo(fired, index) - 1]].event;
}

// Of a block: what its words mean.
function blockFacts(story) {
  if (story.kind === "feed") return [];
  const rows = [];
  const duration = story.duration;
  if (duration) rows.push(tableRow("duration", durationWords(duration.time)));
  for (const line of [...new Set(page.rows.map(row =>
    story.blocks.get(row.buffer ?? row.track?.buffer)))].filter(Boolean)) {
    rows.push(tableRow(`buffer ${line.buffer}`, bufferSays(line)));
    rows.push(tableRow("buffered", rangesInSeconds(line, 8)));
  }
  const made = story.lines[0].kind === "made" ? story.lines[0] : null;
  if (made) {
    rows.unshift(tableRow("made",
      `${asCount(Number(made.segments),
        "segment")} of a second, ${grouped(made.bytes)} bytes, ${grouped(made.frames)} frames`));
  }
  return rows.length ? [table(["", "what it says"], rows)] : [];
}

function bufferSays({ phase, held, used }) {
  if (phase === undefined) return "as a page sees it: a browser tells no phase and no bytes.";
  const bytes = held === "0" ? "No bytes are" : asCount(Number(held), "byte is", "bytes are");
  return `${phase}: the parser is ${PHASES[phase]}. ${bytes} held for an item that has yet to come; the frames that `
    + `are stored have ${asCount(Number(used), "byte")}.`;
}

function durationWords(time) {
  if (time === "nan") return "nan: not known, since no initialization segment has come";
  if (time === "inf") return "inf: the media have no known end";
  return inSeconds(time);
}
