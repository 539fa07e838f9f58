// Headless Chromium, driven over its debugging pipe, and a web server over the repository.

import { spawn, spawnSync } from 'node:child_process';
import { mkdtempSync, rmSync } from 'node:fs';
import { readFile } from 'node:fs/promises';
import { createServer } from 'node:http';
import { tmpdir } from 'node:os';
import { extname, join, normalize } from 'node:path';
import { fileURLToPath } from 'node:url';

const REPOSITORY = fileURLToPath(new URL('../../', import.meta.url));
const TYPES = { '.mjs': 'text/javascript', '.html': 'text/html', '.wasm': 'application/wasm' };
const NAMES = ['chromium', 'chromium-browser', 'google-chrome'];

// The name of the installed Chromium, or undefined.
export const chromium = NAMES.find((name) => spawnSync(name, ['--version']).status === 0);

async function serve() {
  const server = createServer(async (request, response) => {
    const path = normalize(decodeURIComponent(new URL(request.url, 'http://localhost').pathname));
    try {
      const bytes = path === '/' ? '<!doctype html>' : await readFile(join(REPOSITORY, path));
      response.writeHead(200, { 'Content-Type': TYPES[extname(path || '.html')] ?? 'text/html' });
      response.end(bytes);
    } catch {
      response.writeHead(404).end();
    }
  });
  await new Promise((keep) => { server.listen(0, '127.0.0.1', keep); });
  return server;
}

// The messages of the DevTools protocol: JSON texts that end with NUL, to Chromium's file 3 and from its file 4.
class Pipe {
  #writes;
  #last = 0;
  #answers = new Map();
  #text = '';

  constructor(browser) {
    this.#writes = browser.stdio[3];
    browser.stdio[4].setEncoding('utf8').on('data', (text) => this.#hear(text));
  }

  ask(method, params = {}, sessionId = undefined) {
    this.#last += 1;
    this.#writes.write(`${JSON.stringify({ id: this.#last, method, params, sessionId })}\0`);
    return new Promise((keep, refuse) => { this.#answers.set(this.#last, { keep, refuse, method }); });
  }

  #hear(text) {
    const texts = (this.#text + text).split('\0');
    this.#text = texts.pop();
    for (const { id, result, error } of texts.map((each) => JSON.parse(each))) {
      const answer = this.#answers.get(id);
      this.#answers.delete(id);
      if (error) answer?.refuse(new Error(`${answer.method}: ${error.message}`));
      else answer?.keep(result);
    }
  }
}

function start(profile, flags) {
  const words = ['--headless=new', '--remote-debugging-pipe', '--no-first-run', '--disable-gpu', '--mute-audio',
    '--disable-dev-shm-usage', '--disable-extensions', '--disable-background-networking', '--no-sandbox',
    '--autoplay-policy=no-user-gesture-required', `--user-data-dir=${profile}`, ...flags];
  return spawn(chromium, words, { stdio: ['ignore', 'ignore', 'ignore', 'pipe', 'pipe'] });
}

// Opens an empty page at the address of the repository. `evaluate` gives the value of an expression through JSON, and
// waits for promises.
export async function openPage(flags = []) {
  const profile = mkdtempSync(join(tmpdir(), 'chromium-'));
  const [server, browser] = [await serve(), start(profile, flags)];
  const pipe = new Pipe(browser);
  const url = `http://127.0.0.1:${server.address().port}/`;
  const { targetId } = await pipe.ask('Target.createTarget', { url: 'about:blank' });
  const { sessionId } = await pipe.ask('Target.attachToTarget', { targetId, flatten: true });
  const evaluate = async (expression) => {
    const params = { expression, awaitPromise: true, returnByValue: true, userGesture: true };
    const { result, exceptionDetails } = await pipe.ask('Runtime.evaluate', params, sessionId);
    if (exceptionDetails) throw new Error(exceptionDetails.exception?.description ?? exceptionDetails.text);
    return result.value;
  };
  await pipe.ask('Page.navigate', { url }, sessionId);
  while (!await evaluate(`location.href === ${JSON.stringify(url)} && document.readyState === 'complete'`));
  return {
    evaluate,
    async close() {
      const ended = new Promise((keep) => { browser.once('exit', keep); });
      await pipe.ask('Browser.close').catch(() => {});
      await ended;
      server.close();
      rmSync(profile, { recursive: true, force: true, maxRetries: 5 });
    },
  };
}
