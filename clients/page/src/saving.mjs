// What is taken along: a script with its files as a .zip, and a link that carries a small script.

import { busyWith } from "./busy.mjs";
import { copy, say } from "./copy.mjs";
import { make } from "./dom.mjs";
import { filesOfScript, scriptText } from "./editor.mjs";
import { ask } from "./engine_worker.mjs";
import { shown } from "./screens.mjs";
import { refuse } from "./showing.mjs";
import { zipOf } from "./zip.mjs";

const MOST_STEPS = 100000;
const MOST_LINK = 30000; // characters of a fragment that browsers and chats carry

export function saveBlob(blob, name) {
  const address = URL.createObjectURL(blob);
  make("a", { href: address, download: name }).click();
  setTimeout(() => URL.revokeObjectURL(address), 10000);
}

// Saves what is shown: the script of a person, or that of the appends of media.
export async function saveZip() {
  const members = await busyWith("writing the .zip", () => (shown.script ? membersOfScript() : membersOfMedia()));
  if (!members) return;
  const blob = await busyWith("writing the .zip", () => zipOf(members));
  saveBlob(blob, `${members[0].name.replace(/\.toml$/, "")}.zip`);
}

function membersOfScript() {
  const files = Object.entries(filesOfScript()).map(([name, blob]) => ({ name, blob }));
  return [{ name: shown.script.name.split("/").at(-1), blob: new Blob([scriptText()]) }, ...files];
}

async function membersOfMedia() {
  const { steps, keys, files } = await ask("script");
  if (steps.length > MOST_STEPS) {
    return refuse(`It took ${steps.length.toLocaleString("en")} steps, and a script has at most 100,000.`);
  }
  const members = [];
  for (const name of files) {
    members.push({ name,
      blob: shown.media.files.find(({ path }) => path === name)?.blob ?? new Blob([await ask("file", { name })]) });
  }
  return [{ name: "script.toml", blob: new Blob([scriptOf(steps, keys, files)]) }, ...members];
}

// A text of TOML: as JSON writes one.
const quoted = text => JSON.stringify(text);

function scriptOf(steps, { quota, gap }, files) {
  const blobs = files.map(name => `  ${quoted(`file ${name}`)},\n`).join("");
  return `# What was appended in clients/mseplay.html, one segment at a time.\nquota = ${quota}\n${gap
    ? `gap = ${gap}\n` : ""}blobs = [\n${blobs}]\nsteps = [\n${steps.map(step => `  ${quoted(step)},\n`).join("")}]\n`;
}

const bytesThrough = async (bytes, stream) =>
  new Uint8Array(await new Response(new Blob([bytes]).stream().pipeThrough(stream)).arrayBuffer());

// The address of this page with the script in its fragment, packed.
export async function copyLink() {
  const bytes = await bytesThrough(new TextEncoder().encode(scriptText()), new CompressionStream("deflate-raw"));
  const packed = btoa(String.fromCharCode(...bytes.subarray(0, MOST_LINK))).replaceAll("+", "-").replaceAll("/", "_")
    .replace(/=+$/, "");
  if (packed.length > MOST_LINK) return refuse("The script is too long for a link: save it as .zip.");
  const address = `${location.href.split("#")[0]}#script=${packed}`;
  await copy(address);
  say(`Copied a link of ${address.length} characters. It carries the script alone, and no files but those of the `
    + `examples.`);
}

// The script in a fragment, or null.
export async function scriptInLink(fragment) {
  const packed = /^#script=([\w-]+)$/.exec(fragment)?.[1];
  if (!packed) return null;
  try {
    const bytes = Uint8Array.from(atob(packed.replaceAll("-", "+").replaceAll("_", "/")),
      character => character.charCodeAt(0));
    return new TextDecoder("utf-8", { fatal: true }).decode(await bytesThrough(bytes,
      new DecompressionStream("deflate-raw")));
  } catch {
    throw new Error("the link was cut, so the script in it can't be read");
  }
}
