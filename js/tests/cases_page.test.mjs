// The cases of the repository through `run` in headless Chromium, and a session and a worker there.

import assert from 'node:assert/strict';
import test from 'node:test';
import { cases, isAsWanted, runsOf } from './cases.mjs';
import { chromium, openPage } from './chromium.mjs';

const skip = chromium === undefined && 'no chromium here: it is in the Debian package chromium';

/** What the page runs: a case gives its status, and the printed bytes as a text of one character each. */
const SET_UP = `(async () => {
  const { run, Session } = await import('/js/src/engine.mjs');
  const bytesOf = (text) => Uint8Array.from(atob(text), (c) => c.charCodeAt(0));
  globalThis.runAll = (rows) => rows.map(([words, files]) => {
    const { status, bytes } = run(words, new Map(files.map(([name, text]) => [name, bytesOf(text)])));
    let text = '';
    for (let at = 0; at < bytes.length; at += 30000) text += String.fromCharCode(...bytes.subarray(at, at + 30000));
    return [status, btoa(text)];
  });
  globalThis.session = new Session();
})()`;

/** Waits until the page is that of the repository. */
async function arrived(page) {
  while (!(await page.evaluate("location.protocol === 'http:' && document.readyState === 'complete'"))) {
    await new Promise((keep) => { setTimeout(keep, 20); });
  }
}

async function tryRuns(page, runs) {
  const coded = (files) => [...files].map(([name, bytes]) => [name, bytes.toString('base64')]);
  const rows = runs.map(({ words, files }) => [words, coded(files)]);
  const found = await page.evaluate(`runAll(${JSON.stringify(rows)})`);
  found.forEach(([status, text], i) => {
    assert.ok(isAsWanted({ status, bytes: Buffer.from(text, 'base64') }, runs[i].wanted), runs[i].line);
  });
}

test('each case in Chromium', { skip }, async (t) => {
  const page = await openPage();
  try {
    await arrived(page);
    await page.evaluate(SET_UP);
    let [count, size, some] = [0, 0, []];
    for (const each of cases()) {
      for (const run of each.kind === 'fronts' || each.kind === 'cut' ? firstOf(runsOf(each), 20) : runsOf(each)) {
        some.push({ line: each.line, ...run });
        for (const bytes of run.files.values()) size += bytes.length;
        if (size > 4e6 || some.length === 200) {
          await tryRuns(page, some);
          [size, some] = [0, []];
        }
        count++;
      }
    }
    await tryRuns(page, some);
    t.diagnostic(`${count} runs`);
    assert.ok(count >= 865);
    const lines = await page.evaluate("session.step('attach').lines");
    assert.deepEqual(lines, ['call attach: done']);
    assert.equal(await page.evaluate(`new Promise((keep, refuse) => {
      const engine = location.origin + '/js/src/engine.mjs';
      const code = "import { run } from '" + engine + "'; postMessage(run(['make', '1']).status)";
      const worker = new Worker(URL.createObjectURL(new Blob([code], { type: 'text/javascript' })), { type: 'module' });
      worker.onmessage = ({ data }) => keep(data);
      worker.onerror = refuse;
    })`), 0);
  } finally {
    await page.close();
  }
});

function* firstOf(runs, count) {
  for (const run of runs) {
    if (count-- === 0) return;
    yield run;
  }
}
