// The rows of the chart: each has a name and a lane of ranges over the axis.

import { $, make, page, redWords } from "./dom.mjs";
import { feedRows } from "./feed.mjs";
import { drawItem, focusedItem, gapWords, itemLike, itemsIn, setTabStop } from "./items.mjs";
import { itemsOfLine, rowAt, rowName, rowsOf } from "./rows.mjs";
import { grouped } from "../../../js/src/inspect/times.mjs";
import { laneWidth } from "./view.mjs";

export const ROWS_AT_ONCE = 40;

function drawRow(row) {
  const lane = make("div", { class: "lane" });
  const told = row.line && page.story.kind === "play" && !row.track && !row.browser ? `line ${row.line.number}` : "";
  const name = make("div", { class: "name" }, row.name,
    make("small", {}, [row.small, told].filter(Boolean).join(" · ")));
  if (row.fault) {
    name.append(make("small", { style: "color:var(--bad)" },
      `✕ fault ${row.fault.code} at byte ${grouped(row.fault.offset)}`));
  }
  fillLane(lane, row);
  return make("div", { class: `row ${row.cls}`, "data-row": row.key, role: "group", "aria-label": rowName(row) }, name,
    lane);
}

function fillLane(lane, row) {
  const words = laneWords(row);
  if (words) {
    lane.classList.add("words");
    lane.append(...words);
    return;
  }
  const width = laneWidth();
  const items = itemsOfLine(row.line);
  lane.classList.toggle("crowded", items.some(item => item.kind === "many"));
  lane.append(...items.map(item => drawItem(row, item, width)), ...gapWords(row, items, width));
  if (!items.length) { lane.classList.add("words"); lane.append("nothing in this part"); }
}

// What stands in a lane without ranges; null where there are some.
function laneWords(row) {
  if (!row.line) {
    return [row.track ? "told in the last lines" : `not told so far: the line `,
      row.track ? "" : make("code", {}, row.ask), row.track ? "" : " of a script asks"];
  }
  if (row.line.refused) return [redWords(row.line.answer)];
  if (!/\bnone$/.test(row.line.rangeText)) return null;
  return ["none",
    make("button", { class: "tell", onclick: () => $("causes").scrollIntoView({ block: "nearest" }) }, "why?")];
}

export function drawRows() {
  const kept = new Map([...$("rows").children].map(child => [child.dataset.signature, child]));
  const rows = page.story.kind === "feed" ? page.story.feed : rowsOf(page.story);
  page.firstRow = Math.min(page.firstRow, Math.max(0, rows.length - 1));
  const part = rows.slice(page.firstRow, page.firstRow + ROWS_AT_ONCE);
  const seen = page.story.kind === "feed" ? [] : part.map(row => rowAt(page.story, page.index, row));
  const drawn = seen.map(row => {
    const chosen = page.chosen?.key === row.key ? `${page.chosen.kind} ${page.chosen.from}` : "";
    const signature = [row.key, row.small, row.line?.index, row.fault?.index, page.view.from, page.view.to,
      laneWidth(), chosen].join("|");
    const element = kept.get(signature) ?? drawRow(row);
    element.dataset.signature = signature;
    return element;
  });
  if (page.story.kind === "feed") drawn.push(...feedRows(part));
  const focused = focusedItem();
  $("rows").replaceChildren(...drawn);
  page.rows = seen;
  drawPager(rows.length);
  setTabStop();
  if (focused) (itemLike(focused) ?? itemsIn($("rows")).find(item => item.tabIndex === 0))?.focus();
}

function drawPager(count) {
  $("pager").hidden = count <= ROWS_AT_ONCE;
  if ($("pager").hidden) return;
  const go = by => () => { page.firstRow = Math.max(0, Math.min(count - 1, page.firstRow + by)); page.draw(); };
  const last = Math.min(count, page.firstRow + ROWS_AT_ONCE);
  $("pager").replaceChildren(make("button", { onclick: go(-ROWS_AT_ONCE) }, "Rows before"),
    `rows ${grouped(page.firstRow + 1)} to ${grouped(last)} of ${grouped(count)}`,
      make("button", { onclick: go(ROWS_AT_ONCE) }, "Rows behind"));
}
