// What comes in: files, folders, archives and texts. Each goes to the part that shows it, and what none shows gets a
// sentence that says what it is.

import { askOf } from "./asking.mjs";
import { page } from "./dom.mjs";
import { addFiles, filesNamed, openScript, scriptText } from "./editor.mjs";
import { showMedia } from "./media.mjs";
import { leave, shown } from "./screens.mjs";
import { NoText, showText } from "./showing.mjs";
import { looksLikeScript } from "./toml.mjs";
import { unzipped } from "./zip.mjs";
import { byName } from "../../../js/src/inspect/plan.mjs";
import { isAdts } from "../../../js/src/inspect/segments.mjs";
import { grouped } from "../../../js/src/inspect/times.mjs";

const MOST_TEXT = 512 * 1024 * 1024;
const HEAD = 65536;

const SIGNATURES = [
  [[0x89, 0x50, 0x4e, 0x47], "a PNG picture"], [[0xff, 0xd8, 0xff], "a JPEG picture"],
    [[0x47, 0x49, 0x46, 0x38], "a GIF picture"],
  [[0x25, 0x50, 0x44, 0x46], "a PDF file"], [[0x1f, 0x8b], "a gzip file"], [[0x1a, 0x45, 0xdf, 0xa3], "a WebM file"],
];
const BOXES = /^(ftyp|moov|moof|styp|mdat|free|skip|sidx|emsg|prft|wide|pdin|uuid)$/;

// What the first bytes of a file say: "media", "zip", "text", or the words for what it is else.
function kindOf(bytes, isWhole) {
  const starts = mark => mark.every((byte, at) => bytes[at] === byte);
  if (starts([0x50, 0x4b, 3, 4]) || starts([0x50, 0x4b, 5, 6])) return "zip";
  const found = SIGNATURES.find(([mark]) => starts(mark));
  if (found) return found[1];
  if (BOXES.test(String.fromCharCode(...bytes.subarray(4, 8)))) return "media";
  if (isAdts(bytes)) return "media";
  return textOf(bytes, isWhole) === null ? "no text, by its bytes" : "text";
}

// The text of bytes, or null where they are none. Windows PowerShell writes UTF-16.
function textOf(bytes, isWhole = true) {
  const encoding = bytes[0] === 0xff && bytes[1] === 0xfe ? "utf-16le"
    : bytes[0] === 0xfe && bytes[1] === 0xff ? "utf-16be" : "utf-8";
  try {
    const text = new TextDecoder(encoding, { fatal: true }).decode(bytes, { stream: !isWhole });
    return text.includes("\0") ? null : text;
  } catch {
    return null;
  }
}

async function looked({ path, blob }) {
  let head;
  try {
    head = new Uint8Array(await blob.slice(0, HEAD).arrayBuffer());
  } catch {
    throw new NoText(`${path} could not be read: it may be a folder, or it was moved.`);
  }
  return { path, name: path, blob, kind: kindOf(head, blob.size <= HEAD) };
}

async function readText({ path, blob }) {
  if (blob.size > MOST_TEXT) {
    throw new NoText(`${path} has ${grouped(blob.size)} bytes; this page shows texts of at most `
      + `${grouped(MOST_TEXT)}.`);
  }
  const text = textOf(new Uint8Array(await blob.arrayBuffer()));
  if (text === null) throw new NoText(`${path} is no text, by its bytes, and neither MP4 nor AAC.`);
  return text;
}

// Files, `{ path, blob }`, as they were dropped or chosen.
export async function takeFiles(dropped) {
  if (!dropped.length) throw new NoText("No file was in what was dropped.");
  const files = await Promise.all(dropped.map(looked));
  const zip = files.find(({ kind }) => kind === "zip");
  if (zip) return takeArchive(zip, files.filter(file => file !== zip));
  const texts = [];
  for (const file of files.filter(({ kind, path }) => kind === "text" && !isPlaylist(path))) {
    texts.push({ ...file, text: await readText(file) });
  }
  const scripts = texts.filter(({ text }) => isScript(text)), media = files.filter(({ kind }) => kind === "media");
  if (scripts.length) return takeScript(scripts.sort(byName)[0], files);
  if (shown.script && files.some(({ path }) => isNamed(path))) return addFiles(files);
  if (media.length) return showMedia(media, media.length === 1 ? media[0].path : `${media.length} files`);
  if (texts.length) return takeText(texts[0].text, texts[0].path, true);
  throw new NoText(refusalOf(files[0]));
}

function refusalOf({ path, kind }) {
  if (isPlaylist(path)) {
    return `${path} is a playlist, which names segments: drop its initialization segment and its media segments.`;
  }
  return `${path} is ${kind}, and nothing that this page shows: MP4, AAC, a script, a .zip of one, or what mseplay `
    + `printed.`;
}

const isPlaylist = path => /\.(mpd|m3u8)$/i.test(path);
const isScript = text => !/<(!doctype|html)/i.test(text.slice(0, 500)) && looksLikeScript(text);
const isNamed = path => filesNamed(scriptText())
  .some(name => name === path || name.split("/").at(-1) === path.split("/").at(-1));

const byPath = files => new Map(files.flatMap(({ path, blob }) => [[path, blob], [path.split("/").at(-1), blob]]));

async function takeScript(script, files, browser = null) {
  await openScript(script.text, script.path, byPath(files), { browser });
}

// A recording of record.js, or a script with its files.
async function takeArchive({ path, blob }, others) {
  let members;
  try {
    members = await unzipped(blob);
  } catch (error) {
    throw new NoText(`${path} can't be read: ${error.message}.`);
  }
  if (!members.length) throw new NoText(`${path} is an empty .zip.`);
  const files = [...members.map(member => ({ path: member.name, blob: member.blob })), ...others];
  const script = files.find(file => file.path.endsWith(".toml"));
  const told = files.find(file => file.path.split("/").at(-1) === "browser.txt");
  if (!script) return takeFiles(files);
  await takeScript({ ...script, text: await readText(script) }, files, told ? await told.blob.text() : null);
}

// A text is a script, or what was printed.
export async function takeText(text, name, isOfFile = false) {
  if (isScript(text)) {
    return openScript(text, /\.toml$/.test(name) ? name : "script.toml", shown.script?.files ?? new Map());
  }
  const { media, script } = shown, kind = page.kind;
  page.kind = null;
  try {
    await showText(text, name, { isOfFile });
  } catch (error) {
    page.kind = kind;
    throw error;
  }
  if (media || script) leave();
}

export const askAtSteps = () =>
  (shown.script ? askOf(scriptText(), shown.script.name, shown.script.files) : page.openScript());

// The files of a drop, with those in folders.
export async function droppedFiles(transfer) {
  const entries = [...transfer.items].map(item => item.webkitGetAsEntry?.()).filter(Boolean);
  if (!entries.some(entry => entry.isDirectory)) {
    return [...transfer.files].map(file => ({ path: file.name, blob: file }));
  }
  const found = [];
  for (const entry of entries) await walk(entry, found);
  const front = entries.length === 1 ? `${entries[0].name}/` : "";
  return found.map(({ path, blob }) => ({ path: path.startsWith(front) ? path.slice(front.length) : path, blob }));
}

async function walk(entry, found) {
  if (entry.isFile) {
    found.push({ path: entry.fullPath.replace(/^\//, ""),
      blob: await new Promise((done, fail) => entry.file(done, fail)) });
    return;
  }
  const reader = entry.createReader();
  for (;;) {
    const part = await new Promise((done, fail) => reader.readEntries(done, fail));
    if (!part.length) return;
    for (const one of part) await walk(one, found);
  }
}
