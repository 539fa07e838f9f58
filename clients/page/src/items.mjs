// Bars and gaps in a lane: how each is drawn, named, chosen and reached.

import { $, make, page } from "./dom.mjs";
import { feedRowOf, framesOf, meanFrame, rowName } from "./rows.mjs";
import { greater, grouped, length, lesser, seconds } from "../../../js/src/inspect/times.mjs";
import { laneWidth, placeOf, wordWidth } from "./view.mjs";
import { asCount } from "./words.mjs";

export function itemName(row, item) {
  const width = item.to - item.from;
  const about = `from ${seconds(item.from)} s to ${seconds(item.to)} s, ${length(width)}`;
  if (item.kind === "gap") return `${rowName(row)}: gap ${about}, ${grouped(width)} ticks`;
  if (item.kind === "many") return `${rowName(row)}: ${item.count} ranges ${about}; zoom in to see each`;
  return `${rowName(row)}: ${about}`;
}

export function drawItem(row, item, laneWidth) {
  const from = placeOf(greater(item.from, page.view.from)), to = placeOf(lesser(item.to, page.view.to));
  const pixels = (to - from) * laneWidth / 100;
  const narrow = item.kind === "gap" && pixels < 2;
  const isChosen = page.chosen && page.chosen.key === row.key && page.chosen.kind === item.kind
    && page.chosen.from === item.from;
  const button = make("button", {
    class: item.kind + (item.kind === "gap" && pixels >= 8 ? " wide" : "") + (isChosen ? " chosen-bar" : ""),
      tabindex: -1,
    style: `left:${narrow ? `calc(${from}% - 1px)` : from + "%"};width:${to - from}%`,
    "data-from": item.from, "data-to": item.to, "data-count": item.count, "aria-label": itemName(row, item),
      title: itemName(row, item),
    onclick: () => choose(row, item),
  });
  const label = item.kind === "many" ? asCount(item.count, "range") : `${seconds(item.from)} – ${seconds(item.to)} s`;
  if (item.kind !== "gap" && pixels > label.length * 6 && pixels > wordWidth(label, 12) + 8) button.append(label);
  return button;
}

// Words over the gaps, as far as they do not meet.
export function gapWords(row, items, laneWidth) {
  const words = [];
  let free = 0;
  if (items.some(item => item.kind === "many")) return words;
  for (const item of items) {
    if (item.kind !== "gap") continue;
    const mean = row.track && meanFrame(row.track);
    const short = length(item.to - item.from);
    const long = mean ? `${short} · ${framesOf(item.to - item.from, mean)}` : short;
    const text = wordWidth(long, 11.2, 600) < laneWidth ? long : short;
    const middle = laneWidth * (placeOf(greater(item.from, page.view.from))
      + placeOf(lesser(item.to, page.view.to))) / 200;
    const width = wordWidth(text, 11.2, 600);
    const left = Math.max(0, Math.min(middle - width / 2, laneWidth - width));
    if (left < free) continue;
    free = left + width + 8;
    words.push(make("span", { class: "gap-word", style: `left:${left / laneWidth * 100}%` }, text));
  }
  return words;
}

// What is chosen, and the keys in the lanes.
export function choose(row, item) {
  page.chosen = { key: row.key, row, kind: item.kind, from: item.from, to: item.to };
  page.draw();
  itemLike(page.chosen)?.focus();
}

export const itemsIn = root => [...root.querySelectorAll(".bar, .gap, .many, .frame")];
export const focusedItem = () => document.activeElement?.closest?.("#rows [data-from]") ? keyOf(document.activeElement)
  : null;
const keyOf = element =>
  ({ key: element.closest("[data-row]").dataset.row, kind: element.classList[0], from: BigInt(element.dataset.from) });

// What is chosen where an item of the lanes is.
export function chosenOf(element) {
  const { key, kind, from } = keyOf(element);
  const row = page.rows.find(row => row.key === key) ?? feedRowOf(key);
  return { key, row, kind, from, to: BigInt(element.dataset.to) };
}

export function itemLike({ key, kind, from }) {
  const row = [...$("rows").querySelectorAll("[data-row]")].find(row => row.dataset.row === key);
  return row && itemsIn(row).find(item => item.classList[0] === kind && item.dataset.from === String(from));
}

// One item of all lanes is reached by Tab; the arrow keys go on from there.
export function setTabStop() {
  const all = itemsIn($("rows"));
  const stop = (page.chosen && itemLike(page.chosen)) || all[0];
  for (const item of all) item.tabIndex = item === stop ? 0 : -1;
}
