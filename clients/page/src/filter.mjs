// Finds lines: by a text, by what they are, by a buffer or an event. The browser's own search reaches only those in
// view.

import { $, make, page } from "./dom.mjs";
import { asCount } from "./words.mjs";

const wanted = { text: "", is: () => true };

// What can be chosen for the lines of a story.
export function fillFilter() {
  const { story } = page;
  const buffers = [...story.buffers].sort((a, b) => a - b).slice(0, 100);
  const events = [...new Set([...story.fired.keys()].map(key => key.slice(key.lastIndexOf(" ") + 1)))].sort();
  const options = [["", "all lines"], ["calls", "calls"], ["refused", "refusals"], ["listeners", "calls of listeners"],
    ["events", "events"],
    ...buffers.map(buffer => [`buffer ${buffer}`, `buffer ${buffer}`]),
    ...events.map(event => [`event ${event}`, `event ${event}`])];
  $("only").replaceChildren(...options.map(([value, text]) => make("option", { value }, text)));
  $("find").value = "";
  changeFilter();
}

const TESTS = {
  "": () => true, calls: line => line.kind === "call", refused: line => Boolean(line.refused),
    listeners: line => line.kind === "listener", events: line => line.kind === "event",
};

function testOf(value) {
  if (value in TESTS) return TESTS[value];
  const [kind, name] = value.split(" ");
  if (kind === "event") return line => line.event === name;
  const shape = new RegExp(`\\bbuffer ${name}\\b|^(?:call|listener \\d+) (?:${OF_A_BUFFER}) ${name}\\b|^track ${name} `);
  return line => shape.test(line.text);
}

const OF_A_BUFFER = "removebuffer|mode|offset|windowstart|windowend|append|abort|remove|changetype|buffered";

// The lines that are listed: their indices, or null where all are.
export function changeFilter() {
  Object.assign(wanted, { text: $("find").value.trim().toLowerCase(), is: testOf($("only").value) });
  const isAll = !wanted.text && !$("only").value;
  page.listed = isAll ? null
    : page.story.lines.filter(line => wanted.is(line) && line.text.toLowerCase().includes(wanted.text))
    .map(line => line.index);
  $("found").textContent = isAll ? "" : asCount(page.listed.length, "line");
}

// The next line that is listed, as Enter asks for it.
export function nextFound(direction) {
  const listed = page.listed ?? [];
  const next = direction > 0 ? listed.find(index => index > page.index) ?? listed[0]
    : listed.findLast(index => index < page.index) ?? listed.at(-1);
  if (next !== undefined) page.goTo(next);
}
