// Cards of faults and errors, each with what to look at.

import { $, link, linkToWords, make, page } from "./dom.mjs";
import { ERRORS, FAULTS } from "./fault_table.mjs";
import { lineButton } from "./here.mjs";
import { grouped } from "../../../js/src/inspect/times.mjs";
import { asCount } from "./words.mjs";

const FAULTS_AT_ONCE = 20;

export function drawFaults() {
  const { faults } = page.story;
  const cards = faults.slice(0, FAULTS_AT_ONCE).map(line => line.kind === "error" ? errorCard(line) : faultCard(line));
  if (faults.length > FAULTS_AT_ONCE) {
    cards.push(make("p", { class: "faint small" },
      `There are ${asCount(faults.length - FAULTS_AT_ONCE, "more fault line")}.`));
  }
  $("faults").replaceChildren(...cards);
}

// The row of a fault, and the row of its inner name where it has one.
function faultRows(line) {
  const inner = line.name.replace(/^Moov /, "Init ").replace(/ Missing .*/, " Missing");
  const heading = line.code > 20 ? "a-classic-file-as-fragments" : "faults";
  const rows = [{ row: FAULTS[line.code], heading }];
  if (FAULTS[inner]) rows.push({ row: FAULTS[inner], heading: "faults" });
  return rows.filter(({ row }) => row);
}

function faultCard(line) {
  const rows = faultRows(line);
  const at = `${line.buffer === undefined ? ""
    : `buffer ${line.buffer}, `}byte ${grouped(line.offset)} (0x${BigInt(line.offset).toString(16)})`;
  const card = make("div", { class: "card bad-card", "data-line": line.number },
    make("h2", {}, `✕ Fault ${line.code} ${line.name}: ${at}`));
  card.dataset.fault = line.text;
  card.append(make("p", {}, make("strong", {}, "What it means: "),
    ...rows.flatMap(({ row: [means] }) => [means, ". "])));
  for (const { row: [, look, words], heading } of rows) {
    if (!/^see below$/.test(look)) {
      card.append(make("p", {}, make("strong", {}, "Look at: "), look, ". ",
        linkToWords("SCRIPTS.md", heading, words, "Its row in docs/SCRIPTS.md")));
    }
  }
  if (!rows.length) {
    card.append(make("p", {}, "This page does not know a fault of this number. ",
      link("SCRIPTS.md#faults", "All faults")));
  }
  card.append(make("p", { class: "faint small" }, faultPlace(line), " ", lineButton(line)));
  return card;
}

function faultPlace(line) {
  if (line.buffer === undefined) return "The byte is counted from the start of the file.";
  const error = page.story.fired.get(`buffer ${line.buffer} error`)?.[0];
  const heard = error === undefined ? "" : ` A page hears of it at line ${page.story.lines[error].number}.`;
  return `The byte is counted from the first of the buffer's string, that is from the last reset. What came before `
    + `it stands.${heard}`;
}

function errorCard(line) {
  const [, sentence, heading] = ERRORS.find(([shape]) => shape.test(line.says))
    ?? [null, "The run ended early.", "commands"];
  const card = make("div", { class: "card bad-card" }, make("h2", {}, "✕ " + line.text),
    make("p", {}, sentence + " ", link(`SCRIPTS.md#${heading}`, "docs/SCRIPTS.md")));
  card.dataset.fault = line.text;
  return card;
}
