// The page: what is pressed, dropped and pasted, and its keys.

import { asked, askOf, copyAsked, playAsked, saveAsked, writeAsked } from "./asking.mjs";
import { showBeside } from "./beside.mjs";
import { guard, stopAll } from "./busy.mjs";
import { $, linkToWords, make, page } from "./dom.mjs";
import { fillExamples, openExample, openScript, scrollNumbers, typed } from "./editor.mjs";
import { exampleFile, warm } from "./engine_worker.mjs";
import { FAULTS, ERRORS } from "./fault_table.mjs";
import { changeFilter, nextFound } from "./filter.mjs";
import { askAtSteps, droppedFiles, takeFiles, takeText } from "./incoming.mjs";
import { keyInLanes, move, zoom } from "./lane_keys.mjs";
import { CALLS } from "./lines.mjs";
import { goToCall, isPrinting, keyInList, scrolled } from "./list.mjs";
import { seekByClick, seekTo, seekToField } from "./position.mjs";
import { copyLink, saveZip, scriptInLink } from "./saving.mjs";
import { shown } from "./screens.mjs";
import { draw, goTo, refuse } from "./showing.mjs";
import { forgetWidth, wholeView } from "./view.mjs";

const on = (id, event, work) => $(id).addEventListener(event, work);

function chooseFile() {
  $("file").value = "";
  $("file").click();
}

const ofFiles = list => [...list].map(file => ({ path: file.webkitRelativePath || file.name, blob: file }));

for (const id of ["open", "open-too", "open-script"]) on(id, "click", chooseFile);
on("file", "change", guard(() => takeFiles(ofFiles($("file").files))));
on("show", "click", guard(() => takeText($("paste").value, "The pasted text")));
on("write", "click", guard(() => openExample("pieces")));
on("to-script", "click", guard(askAtSteps));
on("save", "click", guard(saveZip));
on("print", "click", () => print());
on("stop", "click", stopAll);
on("ask", "click", guard(writeAsked));
on("copy-asked", "click", copyAsked);
on("save-asked", "click", saveAsked);
on("play-asked", "click", guard(playAsked));
on("editor-text", "input", typed);
on("editor-text", "scroll", scrollNumbers);
on("editor-examples", "change", guard(() => {
  if ($("editor-examples").value) return openExample($("editor-examples").value);
}));
on("editor-link", "click", guard(copyLink));
on("editor-close", "click", () => { $("editor").hidden = true; });
on("beside", "click", guard(showBeside));
on("seek", "click", seekToField);
on("position-time", "keydown", event => { if (event.key === "Enter") seekToField(); });
on("plot", "click", seekByClick);
on("find", "input", refilter);
on("only", "change", refilter);
on("find", "keydown", event => {
  if (event.key === "Enter") { event.preventDefault(); nextFound(event.shiftKey ? -1 : 1); }
});
on("all", "click", () => { page.view = wholeView(page.story); draw(); });
on("in", "click", () => zoom(1n, 2n));
on("out", "click", () => zoom(2n, 1n));
on("left", "click", () => move(-1n, 2n));
on("right", "click", () => move(1n, 2n));
on("rows", "keydown", keyInLanes);
on("lines", "keydown", keyInList);
on("lines", "scroll", () => {
  scrolled.top = $("lines").scrollTop;
  if (page.story) page.drawList();
});
on("lines", "click", event => {
  const line = event.target.closest(".line");
  if (line) goTo(Number(line.dataset.index));
});
on("slider", "input", () => goTo(Number($("slider").value) - 1));
on("before", "click", () => goToCall(-1));
on("behind", "click", () => goToCall(1));
new ResizeObserver(() => { scrolled.height = $("lines").clientHeight || 512; }).observe($("lines"));

function refilter() {
  if (!page.story) return;
  changeFilter();
  scrolled.top = 0;
  $("lines").dataset.drawn = "";
  draw();
}

addEventListener("dragover", event => { event.preventDefault(); document.body.classList.add("dragging"); });
addEventListener("dragleave", event => { if (!event.relatedTarget) document.body.classList.remove("dragging"); });
addEventListener("drop", guard(async event => {
  event.preventDefault();
  document.body.classList.remove("dragging");
  const text = event.dataTransfer.getData("text/plain");
  const files = event.dataTransfer.files.length ? await droppedFiles(event.dataTransfer) : null;
  return files ? takeFiles(files) : takeText(text, "The dropped text");
}));

// A pasted text is taken as it comes, and not put into the field first, which would be slow for a long one. In the
// editor and in fields a paste is what it is everywhere.
addEventListener("paste", guard(async event => {
  if (event.target.closest?.("#editor-text, input")) return;
  event.preventDefault();
  const files = [...event.clipboardData.files], text = event.clipboardData.getData("text/plain");
  await (files.length && !text ? takeFiles(ofFiles(files)) : takeText(text, "The pasted text"));
}));

// The arrow keys go over the lines wherever nothing else needs them.
addEventListener("keydown", event => {
  if (!page.story || event.ctrlKey || event.altKey || event.metaKey) return;
  if (event.target.closest("input, textarea, select, pre, .scroll")) return;
  if (event.key === "ArrowRight" || event.key === "ArrowLeft") {
    event.preventDefault();
    goTo(page.index + (event.key === "ArrowRight" ? 1 : -1));
  }
});

// Paper has another width, and all lines.
function drawAnew() {
  if (!page.story) return;
  forgetWidth();
  draw();
}
isPrinting.addEventListener("change", drawAnew);
addEventListener("beforeprint", drawAnew);

const openLink = guard(async () => {
  const text = await scriptInLink(location.hash);
  if (text !== null) await openScript(text, "script.toml", new Map());
});
addEventListener("hashchange", openLink);

const FILES = [["gap.mp4", "A file with a gap"], ["classic.mp4", "A classic file"],
  ["groups.mp4", "A file without a fault"]];
for (const [name, title] of FILES) {
  const open = guard(() => takeFiles([{ path: name, blob: exampleFile(name) }]));
  $("examples").append(make("button", { "data-file": name, onclick: open }, title), " ");
}
fillExamples();
warm();
openLink();

// For the console and the tests: what is shown, and the ways in.
globalThis.mseplay = { page, shown, asked, take: guard(takeText), takeFiles: guard(takeFiles), askOf: guard(askOf),
  goTo, seekTo: guard(seekTo), refuse, FAULTS, ERRORS, CALLS, linkToWords };
