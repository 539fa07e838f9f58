// Times to copy, and what copies them.

import { $, make, page, table, tableRow } from "./dom.mjs";
import { itemName } from "./items.mjs";
import { CALLS } from "./lines.mjs";
import {
  TICKS, decimal, fraction, grouped, isExact, isTicks, rangesOf, readTime, seconds,
} from "../../../js/src/inspect/times.mjs";
import { shortened } from "./words.mjs";

export function drawTimes() {
  const rows = timesShown().map(([name, time]) => isTicks(time)
    ? tableRow(name, copyButton(String(time), grouped(time)),
    copyButton(decimal(time, TICKS, 12), (isExact(time, 12) ? "" : "≈ ") + decimal(time, TICKS, 12)),
      fractionCell(time))
    : tableRow(name, time, time, ""));
  const about = page.chosen ? itemName(page.chosen.row, page.chosen)
    : "those of this line; choose a bar or a gap for its own";
  $("times").replaceChildren(make("h2", {}, "Times to copy"), make("p", { class: "faint small" }, about),
    rows.length ? table(["", "ticks", "seconds", "n/scale"], rows)
      : make("p", { class: "faint small" }, "This line has no times."));
}

function fractionCell(time) {
  const text = fraction(time);
  return text ? copyButton(text, text)
    : make("span", { class: "faint", title: "No scale up to 4,294,967,295 says this tick: use ticks." },
    "none to the tick");
}

function timesShown() {
  const { chosen, story, index } = page, line = story.lines[index];
  if (chosen && chosen.kind !== "frame") {
    return [["start", chosen.from], ["end", chosen.to], ["length", chosen.to - chosen.from]];
  }
  if (line.kind === "frame") {
    return [["pts", line.from], ["end", line.to], ["dts", line.decoded], ["duration", line.to - line.from],
      ["pts − dts", line.from - line.decoded]];
  }
  if (line.state) return [["position", line.state.position], ["duration", line.state.duration]];
  if (line.time !== undefined) return [[line.kind === "feed" ? "at" : "duration", line.time]];
  const called = line.words
    ? CALLS[line.words[0]][0].map(at => [line.words[0], readWord(line.words[at])]).filter(([, time]) => time !== null)
    : [];
  const ranges = line.rangeText
    ? rangesOf(line).slice(0, 12).flatMap(([from, to], at) => [[`start ${at + 1}`, from], [`end ${at + 1}`, to]]) : [];
  return [...called, ...ranges];
}

export const readWord = word => /^(-?\d+|nan|inf)$/.test(word ?? "") ? readTime(word) : null;
export const copyButton = (value, text) => make("button",
  { class: "copy", "data-copy": value, title: "Copy " + value, onclick: () => copy(value) }, text);

export async function copy(value) {
  try {
    await navigator.clipboard.writeText(value);
  } catch {
    copyOldWay(value);
  }
  say(`Copied ${shortened(value, 60)}`);
}

function copyOldWay(value) {
  const field = make("textarea", { style: "position:fixed;left:-100rem" });
  const focused = document.activeElement;
  document.body.append(field);
  field.value = value;
  field.select();
  document.execCommand("copy");
  field.remove();
  focused?.focus?.();
}

export function say(sentence) {
  $("live").textContent = sentence;
  if (!page.story) return;
  $("where").textContent = sentence;
  clearTimeout(say.timer);
  say.timer = setTimeout(page.drawWhere, 2500);
}
