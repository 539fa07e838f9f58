// The page's side of the worker. To stop is to end the worker: the next question starts another one.

import { $ } from "./dom.mjs";

export class Stopped extends Error {}

let worker = null, asked = new Map(), count = 0;

const bytesOf = text => Uint8Array.from(atob(text.trim()), character => character.charCodeAt(0));

export const exampleFile = name =>
  new Blob([bytesOf(document.querySelector(`.example[data-name="${name}"]`).textContent)]);

function start() {
  const address = URL.createObjectURL(new Blob([$("worker").textContent], { type: "text/javascript" }));
  worker = new Worker(address);
  worker.addEventListener("message", hear);
  worker.addEventListener("error", event => failAll(new Error(event.message || "the worker could not be started")));
  ask("start", { module: bytesOf($("engine").textContent) }).catch(failAll);
}

function hear({ data: { id, answer, heard, error } }) {
  const question = asked.get(id);
  if (!question) return;
  if (heard !== undefined) { question.heard?.(heard); return; }
  asked.delete(id);
  if (error === undefined) question.done(answer); else question.fail(new Error(error));
}

function failAll(error) {
  const questions = [...asked.values()];
  asked = new Map();
  for (const { fail } of questions) fail(error);
}

// Asks the worker; `heard` is called with what it tells before its answer.
export function ask(name, facts = {}, heard = undefined) {
  if (!worker) start();
  const id = count++;
  return new Promise((done, fail) => {
    asked.set(id, { done, fail, heard });
    worker.postMessage({ id, name, facts });
  });
}

// Starts the worker before it is needed.
export const warm = () => { if (!worker) start(); };

export function stop() {
  worker?.terminate();
  worker = null;
  failAll(new Stopped("stopped"));
}
