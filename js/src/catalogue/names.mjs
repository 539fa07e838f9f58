// Which files there are: those that are named, those of folders, and those of a list of names.

import { readdirSync, readFileSync, realpathSync, statSync } from 'node:fs';
import { extname, join } from 'node:path';

/** The ends of names by which files of a folder are taken. */
const ENDS = [
  '.mp4', '.m4s', '.m4v', '.m4a', '.m4f', '.mp4v', '.mp4a', '.cmfv', '.cmfa', '.mov', '.aac', '.adts',
];

const inOrder = (a, b) => (a < b ? -1 : Number(a > b));

/** The names in a list: one a line, or where it has bytes of 0, as of `find -print0`, what stands between these. */
export function namesIn(list) {
  const names = list.includes('\0') ? list.split('\0') : list.split('\n').map((name) => name.replace(/\r$/, ''));
  return names.filter((name) => name !== '');
}

/** What a list has, a file or standard input. */
export const readList = (from) => namesIn(readFileSync(from === '-' ? 0 : from, 'utf8'));

/** What a name is: its size, or the error that looking at it gave. */
function look(name) {
  try {
    const found = statSync(name);
    return { isFolder: found.isDirectory(), isFile: found.isFile(), size: found.size };
  } catch (error) {
    return { isFolder: false, isFile: false, size: 0, error };
  }
}

class Finding {
  files = new Map();
  passedOver = 0;
  #folders = new Set();

  add(name, isNamed) {
    if (this.files.has(name)) return;
    const { isFolder, isFile, size, error } = look(name);
    const isMedia = ENDS.includes(extname(name).toLowerCase()) && (isFile || error);
    if (isFolder) this.#addFolder(name);
    else if (isNamed || isMedia) this.#addFile(name, size, isFile, error);
    else this.passedOver++;
  }

  #addFile(name, size, isFile, error) {
    const told = error && { code: error.code, text: error.message };
    const unread = isFile ? undefined : told ?? { code: 'ENOFILE', text: `${name} is no file` };
    this.files.set(name, { name, size: unread ? 0 : size, error: unread });
  }

  // A link may lead to a folder that was met before.
  #addFolder(name) {
    let place, found;
    try {
      place = realpathSync(name);
      if (this.#folders.has(place)) return;
      found = readdirSync(name).sort(inOrder);
    } catch (error) {
      this.#addFile(name, 0, false, error);
      return;
    }
    this.#folders.add(place);
    for (const one of found) this.add(join(name, one), false);
  }
}

/**
 * The files of names, each once: `{ name, size, error }`, where `error` says why it is not there. Of a folder those are
 * taken whose names end as media do, and `passedOver` counts the others.
 */
export function filesOf(names) {
  const finding = new Finding();
  for (const name of names) finding.add(name, true);
  return { files: [...finding.files.values()], passedOver: finding.passedOver };
}
