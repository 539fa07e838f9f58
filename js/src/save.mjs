// What an element did, as scripts of the program.

import { resourceOf } from './inside.mjs';

const isNode = globalThis.process?.versions?.node !== undefined;
const { mkdirSync, writeFileSync } = isNode ? await import('node:fs') : {};
const { join } = isNode ? await import('node:path') : {};

// The files of all lives of an element. The first has the name that was handed in; that of the second has a -2 before
// its ending, and so on.
function filesOf(element, name) {
  const lives = element[resourceOf].lives;
  if (lives.length === 1) return lives[0].files(name, 'media', '');
  const [, front, ending] = name.match(/^(.*?)(\.[^.]*)?$/s);
  const all = lives.map((life, i) => {
    const note = `# Life ${i + 1} of ${lives.length} of a media element: each ends where it leaves its source.\n`;
    if (i === 0) return life.files(name, 'media', note);
    return life.files(`${front}-${i + 1}${ending ?? ''}`, `media-${i + 1}-`, note);
  });
  return Object.assign({}, ...all);
}

// Writes all calls so far as the script NAME into a folder, with the bytes that it needs beside it, and gives the
// files: an object of names and bytes. In a page, which has no folders, it gives them alone. Each life of the element,
// from one source to the next, is a script.
export function saveScript(element, folder, name = 'script.toml') {
  const files = filesOf(element, name);
  if (isNode) {
    mkdirSync(folder, { recursive: true });
    Object.entries(files).forEach(([file, bytes]) => writeFileSync(join(folder, file), bytes));
  }
  return files;
}
