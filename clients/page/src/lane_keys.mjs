// Zoom, moves and keys in the lanes.

import { copy } from "./copy.mjs";
import { $, page } from "./dom.mjs";
import { chosenOf, itemsIn } from "./items.mjs";
import { greater, lesser } from "../../../js/src/inspect/times.mjs";
import { wholeView } from "./view.mjs";

// The view is moved and zoomed about what is chosen, else about its middle.
export function zoom(above, below) {
  const { from, to } = page.view, chosen = page.chosen;
  const isSeen = chosen && chosen.to > from && chosen.from < to;
  const middle = isSeen ? (greater(chosen.from, from) + lesser(chosen.to, to)) / 2n : (from + to) / 2n;
  const span = greater((to - from) * above / below, 4n);
  setView(middle - span / 2n, middle - span / 2n + span);
}

export function move(above, below) {
  const by = (page.view.to - page.view.from) * above / below;
  setView(page.view.from + by, page.view.to + by);
}

function setView(from, to) {
  const whole = wholeView(page.story);
  const span = lesser(to - from, 4n * (whole.to - whole.from));
  page.view = { from, to: from + span };
  if (page.view.to <= whole.from) page.view = { from: whole.from, to: whole.from + span };
  if (page.view.from >= whole.to) page.view = { from: whole.to - span, to: whole.to };
  page.draw();
}

function nextItem(item, key) {
  const row = item.closest("[data-row]"), items = itemsIn(row);
  items.sort((a, b) => Number(BigInt(a.dataset.from) - BigInt(b.dataset.from)));
  const at = items.indexOf(item);
  if (key === "ArrowRight") return items[at + 1];
  if (key === "ArrowLeft") return items[at - 1];
  if (key === "Home") return items[0];
  if (key === "End") return items.at(-1);
  const rows = [...$("rows").querySelectorAll("[data-row]")].filter(row => itemsIn(row).length);
  const other = rows[rows.indexOf(row) + (key === "ArrowDown" ? 1 : -1)];
  return other && nearest(itemsIn(other), item);
}

function nearest(items, item) {
  const middle = element => { const box = element.getBoundingClientRect(); return box.left + box.width / 2; };
  const wanted = middle(item);
  return items.reduce((best, one) => Math.abs(middle(one) - wanted) < Math.abs(middle(best) - wanted) ? one : best);
}

export function keyInLanes(event) {
  const item = event.target.closest("[data-from]");
  if (event.ctrlKey || event.altKey || event.metaKey) return;
  if (item && "+-".includes(event.key)) page.chosen = chosenOf(item);
  if (event.key === "+") zoom(1n, 2n);
  else if (event.key === "-") zoom(2n, 1n);
  else if (event.key === "0") { page.view = wholeView(page.story); page.draw(); }
  else if (item && event.key === "Enter") copy(item.dataset.from);
  else if (item && /^(Arrow|Home|End)/.test(event.key)) moveFocus(nextItem(item, event.key));
  else return;
  event.preventDefault();
  event.stopPropagation();
}

function moveFocus(item) {
  if (!item) return;
  item.focus();
  item.click();
}
