// A script that is written anew, with questions behind each of its steps.

import { askAtEachStep } from "./ask.mjs";
import { copy } from "./copy.mjs";
import { $, page } from "./dom.mjs";
import { openScript } from "./editor.mjs";
import { saveBlob } from "./saving.mjs";
import { ScriptFault } from "./toml.mjs";
import { asCount, shortened } from "./words.mjs";
import { grouped } from "../../../js/src/inspect/times.mjs";

export const asked = { text: "", name: "", asked: "", files: new Map() };

function openAsking() {
  $("script").hidden = false;
  $("ask").disabled = !asked.text;
  $("script").scrollIntoView({ block: "nearest" });
  if (!asked.text) $("open-script").focus();
}

page.openScript = openAsking;

export function askOf(text, name, files = new Map()) {
  Object.assign(asked, { text, name, files });
  openAsking();
  writeAsked();
}

export function writeAsked() {
  let written;
  try {
    written = askAtEachStep(asked.text, page.story);
  } catch (fault) {
    if (!(fault instanceof ScriptFault)) throw fault;
    $("script-says").textContent = `${asked.name} is no script that this page can read: ${fault.message}.`;
    return;
  }
  asked.asked = written.text;
  $("script-says").textContent = askedSays(written);
  $("asked").hidden = false;
  $("asked").textContent = shortened(written.text, 20000);
  for (const id of ["ask", "copy-asked", "save-asked", "play-asked"]) $(id).disabled = false;
}

function askedSays({ steps, left, sure }) {
  const told = `${asCount(steps - left, "step has", "steps have")} questions behind them`;
  const all = left ? `${told}; a script has at most 100,000 steps, so the last ${grouped(left)} have none.`
    : `${told}.`;
  const buffers = sure ? "Which buffers there are is taken from the text that is shown."
    : "Each add is taken to be done; a buffer that is not there answers refused NoSuchBuffer, which changes nothing.";
  return `${asked.name}: ${all} ${buffers} Questions change nothing of what happens. Play it here, or save it `
    + `beside the first one and play it there.`;
}

export const copyAsked = () => copy(asked.asked);
export const saveAsked = () => saveBlob(new Blob([asked.asked], { type: "application/toml" }), askedName());
export const playAsked = () => { $("script").hidden = true; return openScript(asked.asked, askedName(), asked.files); };

const askedName = () => asked.name.replace(/(\.toml)?$/, "-asked.toml");
