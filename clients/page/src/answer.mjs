// The sentences on what is wrong, with their places.

import { $, make } from "./dom.mjs";
import { onLeave } from "./screens.mjs";
import { showPlace } from "./segment_table.mjs";

const MARKS = { fine: "✓", priming: "✓", more: "…", late: "▲", overlap: "▲" };

export function showAnswer(sentences, notes, order) {
  const isFine = sentences[0].kind === "fine";
  $("answer").hidden = false;
  $("answer").className = isFine ? "answer fine" : "answer wrong";
  $("answer").replaceChildren(make("h2", {}, isFine ? "What is wrong: nothing" : "What is wrong, and where"),
    make("ul", {}, ...sentences.map(itemOf)), ...notes.map(note => make("p", { class: "small" }, note)), order);
}

onLeave(() => { $("answer").hidden = true; });

function itemOf({ kind, text, file, at }) {
  const place = file === undefined ? ""
    : make("button", { class: "tell", onclick: () => showPlace(file, at) }, "its row");
  return make("li", { "data-kind": kind, "data-file": file, "data-at": at },
    make("span", { class: "sign", "aria-hidden": "true" }, MARKS[kind] ?? "✕"), " ", text, " ", place);
}
