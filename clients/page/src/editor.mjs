// A script that can be edited. It is run as it is typed, and what it prints is shown below.

import { busyWith } from "./busy.mjs";
import { Stopped, ask, stop } from "./engine_worker.mjs";
import { $, make, page } from "./dom.mjs";
import { EXAMPLES, exampleBlob } from "./examples.mjs";
import { onLeave, leave, shown } from "./screens.mjs";
import { showText } from "./showing.mjs";
import { ScriptFault, Toml } from "./toml.mjs";
import { scriptCautions, scriptHelp } from "../../../js/src/front/script.mjs";
import { isTicks, rangesIn } from "../../../js/src/inspect/times.mjs";
import { shortened } from "./words.mjs";

const WAIT = 120; // milliseconds behind the last key
let timer = 0, number = 0, isRunning = false; // a script that takes long is stopped where another is typed

onLeave(() => {
  clearTimeout(timer);
  number++;
  isRunning = false;
  $("editor").hidden = true;
});

export function fillExamples() {
  const options = EXAMPLES.map(({ name, title }) => make("option", { value: name }, title));
  $("editor-examples").replaceChildren(make("option", { value: "" }, "choose one…"), ...options);
  const buttons = EXAMPLES.filter(({ first }) => first)
    .map(({ name, title }) => make("button", { "data-example": name, onclick: () => openExample(name) },
    `Script: ${title.toLowerCase()}`));
  $("examples").append(...buttons.flatMap(button => [button, " "]));
}

export function openExample(name) {
  const example = EXAMPLES.find(one => one.name === name);
  return openScript(example.text, `${name}.toml`, new Map(), { toType: true });
}

// Opens a script in the editor with files, a Map of names to Blobs, and runs it. What a browser did may stand beside
// it.
export async function openScript(text, name, files, { toType = false, browser = null } = {}) {
  leave();
  shown.script = { name, files, browser, told: "" };
  page.kind = "a script";
  $("start").hidden = true;
  $("editor").hidden = false;
  $("says").hidden = true;
  $("save").disabled = false;
  $("editor-text").value = text;
  drawNumbers();
  await runScript(false);
  if (toType) $("editor-text").focus({ preventScroll: true });
}

export const scriptText = () => $("editor-text").value;

// A key was pressed: the script is run once no other follows.
export function typed() {
  drawNumbers();
  $("editor-examples").value = "";
  clearTimeout(timer);
  timer = setTimeout(() => runScript(true), WAIT);
}

// A file for the script was dropped.
export async function addFiles(files) {
  for (const { path, blob } of files) shown.script.files.set(path, blob);
  await runScript(true);
}

async function runScript(keepsView) {
  const { script } = shown, text = scriptText(), mine = ++number;
  if (isRunning) stop();
  isRunning = true;
  try {
    const files = { ...filesFor(text, script.files), "script.toml": new Blob([text]) };
    const { status, text: told } = await busyWith(`playing ${script.name}`,
      () => ask("run", { words: ["play", "script.toml"], files }));
    if (mine !== number || script !== shown.script) return;
    if (/^error: (script|no file|read) /.test(told)) saysError(errorSays(text, told.trim()));
    else await showTold(script, told, status, keepsView && script.told !== "");
  } catch (error) {
    if (mine !== number) return;
    if (!(error instanceof Stopped)) saysError({ line: 0, text: `The script could not be run: ${error.message}.` });
    else saysError({ line: 0, text: "The script was stopped." });
  } finally {
    if (mine === number) isRunning = false;
  }
}

async function showTold(script, told, status, keepsView) {
  const at = keepsView ? page.index : undefined, isAtEnd = page.story && page.index === page.story.lines.length - 1;
  script.told = told;
  page.browser = script.browser === null ? null : browserRanges(script.browser);
  $("editor-says").className = "";
  const cautions = scriptCautions("line", new TextEncoder().encode(scriptText()))
    .map(caution => `Take care: ${caution.replace(/^line:/, "line ")}.`);
  $("editor-says").textContent = [status ? `It ended with the status ${status}.`
    : "It is played as you type; the slider below goes over its steps.", ...cautions].join(" ");
  markLine(0);
  if (told.trim()) await showText(told, script.name, { keepsView, at: isAtEnd ? undefined : at });
}

// A sentence on a line `error: ..`, and the line of the script that it is about.
function errorSays(text, error) {
  const name = /^error: (?:no file|read) (.*)$/.exec(error)?.[1];
  if (name !== undefined) {
    return { line: lineOf(text, name), text: `the file ${name} is not here: drop it on this page.` };
  }
  const [, line, says] = /^script(?::(\d+))?: (.*)$/s.exec(scriptHelp(error, "script", new TextEncoder().encode(text)));
  return { line: Number(line ?? 0), text: says };
}

function lineOf(text, name) {
  const at = text.indexOf(name);
  return at < 0 ? 0 : text.slice(0, at).split("\n").length;
}

// What a browser.txt ends with: the ranges of each buffer, as a page sees them.
function browserRanges(text) {
  const found = [...text.matchAll(/^buffer (\d+) buffered (.*)$/gm)];
  return new Map(found.map(([, buffer, ranges]) => [`buffer ${buffer}`,
    [...rangesIn(ranges)].filter(range => range.every(isTicks))]));
}

function saysError({ line, text }) {
  $("editor-says").className = "bad";
  $("editor-says").textContent = `✕ ${line ? `Line ${line}: ` : ""}${text}`;
  $("editor-says").dataset.line = line;
  markLine(line);
}

// The files that the script names: those that were dropped, else those of the examples.
function filesFor(text, files) {
  const found = {};
  for (const name of filesNamed(text)) {
    const blob = files.get(name) ?? files.get(name.split("/").at(-1)) ?? exampleBlob(name);
    if (blob) found[name] = blob;
  }
  $("editor-files").textContent = Object.keys(found).length ? `with ${shortened(Object.keys(found).join(", "), 90)}`
    : "";
  return found;
}

export function filesNamed(text) {
  try {
    const blobs = new Toml(text).read().top.blobs?.members ?? [];
    return blobs.filter(({ value }) => typeof value === "string" && value.startsWith("file "))
      .map(({ value }) => value.slice(5));
  } catch (fault) {
    if (fault instanceof ScriptFault) return [];
    throw fault;
  }
}

export const filesOfScript = () => filesFor(scriptText(), shown.script.files);

function drawNumbers() {
  const count = scriptText().split("\n").length, rows = Math.max(8, Math.min(28, count + 1));
  $("editor-text").rows = rows;
  $("editor-numbers").replaceChildren(...Array.from({ length: count }, (_, at) => make("span", {}, `${at + 1}\n`)));
  $("editor-numbers").scrollTop = $("editor-text").scrollTop;
}

function markLine(line) {
  [...$("editor-numbers").children].forEach((span, at) => span.classList.toggle("bad", at + 1 === line));
}

export const scrollNumbers = () => { $("editor-numbers").scrollTop = $("editor-text").scrollTop; };
