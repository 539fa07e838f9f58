// What is under way: a bar that moves, a button that stops it, and sentences on what went wrong.

import { $ } from "./dom.mjs";
import { Stopped, stop } from "./engine_worker.mjs";
import { NoText, refuse } from "./showing.mjs";

let count = 0;

// Does a work with the bar shown; `say(words, part)` moves it. A later work stops an earlier one.
export async function busyWith(words, work) {
  const number = ++count;
  const say = (told, part) => {
    if (number !== count) return;
    $("doing").textContent = told;
    if (part === undefined) $("progress").removeAttribute("value"); else $("progress").value = part;
  };
  say(words);
  const timer = setTimeout(() => { $("busy").hidden = number !== count; }, 150);
  try {
    return await work(say);
  } finally {
    clearTimeout(timer);
    if (number === count) $("busy").hidden = true;
  }
}

export function stopAll() {
  count++;
  $("busy").hidden = true;
  stop();
}

// Runs what a person asked for: where it fails there is a sentence, and what was shown before stays.
export const guard = work => async (...facts) => {
  try {
    return await work(...facts);
  } catch (error) {
    if (error instanceof Stopped) return refuse("It was stopped. What was shown before stays.");
    if (error instanceof NoText) return refuse(error.message);
    console.warn(error);
    return refuse(`It did not work out, and what was shown before stays: ${error.message}.`);
  }
};
