// The table of segments.

import { $, make } from "./dom.mjs";
import { onLeave } from "./screens.mjs";
import { cellsOf, HEADS, isOdd } from "../../../js/src/inspect/table.mjs";
import { grouped } from "../../../js/src/inspect/times.mjs";
import { asCount } from "./words.mjs";

const ROWS_AT_ONCE = 200;
const NARROW = new Set([2]);
const state = { rows: [], first: 0, odd: false, go: null };

// Shows rows; `go(row)` is called where a person asks for one.
export function showSegments(rows, go) {
  Object.assign(state, { rows, first: 0, odd: false, go });
  drawSegments();
}

onLeave(() => {
  state.rows = [];
  $("segments").hidden = true;
});

// Shows the row of a place in a file.
export function showPlace(file, at) {
  const rows = listed(), place = rows.findIndex(row => row.file === file && row.from <= at && at < row.to);
  if (place < 0) return;
  state.first = Math.floor(place / ROWS_AT_ONCE) * ROWS_AT_ONCE;
  drawSegments();
  const drawn = $("segments").querySelector(`[data-row-number="${rows[place].number}"]`);
  drawn?.scrollIntoView({ block: "center" });
  drawn?.querySelector("button")?.focus({ preventScroll: true });
}

const listed = () => (state.odd ? state.rows.filter(isOdd) : state.rows);

function drawSegments() {
  const rows = listed(), part = rows.slice(state.first, state.first + ROWS_AT_ONCE);
  const odd = state.rows.filter(isOdd).length;
  $("segments").hidden = !state.rows.length;
  const check = make("input", { type: "checkbox", id: "odd", checked: state.odd });
  check.addEventListener("change", () => {
    Object.assign(state, { odd: check.checked, first: 0 });
    drawSegments();
    $("odd").focus();
  });
  const head = make("tr", {},
    ...HEADS.map((text, at) => make("th", { scope: "col", class: NARROW.has(at) ? "number" : "" }, text)));
  const body = part.map(drawRow);
  const scroll = make("div",
    { class: "scroll", tabindex: 0, role: "region", "aria-label": "Segments, a table that scrolls" },
    make("table", { id: "segment-table" }, make("thead", {}, head), make("tbody", {}, ...body)));
  $("segments").replaceChildren(make("div", { class: "chart-head" }, make("h2", {}, "Segments"),
    make("span", { class: "faint small grow" },
      `${asCount(state.rows.length, "row")}, ${grouped(odd)} with something to look at`),
    make("label", { class: "small" }, check, " only these")), scroll, pager(rows.length));
}

function pager(count) {
  if (count <= ROWS_AT_ONCE) return "";
  const go = by => () => {
    state.first = Math.max(0, Math.min(Math.floor((count - 1) / ROWS_AT_ONCE) * ROWS_AT_ONCE, state.first + by));
    drawSegments();
  };
  return make("div", { class: "pager" }, make("button", { onclick: go(-ROWS_AT_ONCE) }, "Rows before"),
    `rows ${grouped(state.first + 1)} to ${grouped(Math.min(count, state.first + ROWS_AT_ONCE))} of ${grouped(count)}`,
    make("button", { onclick: go(ROWS_AT_ONCE) }, "Rows behind"));
}

function drawRow(row) {
  const cells = cellsOf(row), odd = isOdd(row);
  const drawn = cells.map((cell, at) => make("td", { class: NARROW.has(at) ? "number" : "" },
    ...(at === 0
    ? [make("button",
    { class: "tell", onclick: () => state.go(row), title: "Show this segment in the bars and lines" }, cell)]
      : Array.isArray(cell)
      ? cell.map(line => make("div", { class: /^(gap|overlap|before all)/.test(line) ? "odd-word" : "" }, line || " "))
      : [odd && at === cells.length - 1 && cell ? make("strong", {}, `▲ ${cell}`) : cell])));
  return make("tr",
    { class: odd ? "odd" : "", "data-row-number": row.number, "data-file": row.file, "data-from": row.from,
      "data-to": row.to, "data-odd": String(odd) }, ...drawn);
}
