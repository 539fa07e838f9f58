// Files of media: they are appended in the worker, one segment at a time, and shown.

import { showAnswer } from "./answer.mjs";
import { offerBeside } from "./beside.mjs";
import { busyWith, guard } from "./busy.mjs";
import { $, make, page } from "./dom.mjs";
import { ask } from "./engine_worker.mjs";
import { textOf } from "./media_text.mjs";
import { offerPosition } from "./position.mjs";
import { leave, shown } from "./screens.mjs";
import { showSegments } from "./segment_table.mjs";
import { showText } from "./showing.mjs";
import { asCount } from "./words.mjs";
import { byName } from "../../../js/src/inspect/plan.mjs";
import { greater, lesser } from "../../../js/src/inspect/times.mjs";

// Appends files, `{ path, blob }`, as they were dropped or in the order of their names, and shows what there is to
// tell.
export async function showMedia(dropped, name, isAsDropped = false) {
  const started = performance.now(), files = isAsDropped ? dropped : [...dropped].sort(byPath);
  const tell = say => ({ file, part }) => say(`reading ${file}`, part);
  const found = await busyWith(`reading ${name}`, say => ask("inspect", { files, gap: 0 }, tell(say)));
  leave();
  shown.media = { ...found, files, name };
  page.kind = found.buffers.map(buffer => buffer.type).join(" and ")
    + (found.classic.length ? ", made into fragments" : "");
  showAnswer(found.sentences, found.notes, dropped.length > 1 ? orderPart(dropped, name, isAsDropped) : "");
  await showText(textOf(found), name);
  showSegments(found.rows, goToRow);
  offerPosition(shown.media);
  offerBeside(shown.media);
  $("save").disabled = false;
  scrollTo({ top: 0 });
  shown.media.took = performance.now() - started;
  $("live").textContent = `${name}: ${asCount(found.rows.length, "segment")}, ${found.sentences[0].text}`;
}

const byPath = (a, b) => byName({ name: a.path }, { name: b.path });

// Says in which order the files were appended, with a button for the other one.
function orderPart(dropped, name, isAsDropped) {
  const other = guard(() => showMedia(dropped, name, !isAsDropped));
  return make("p", { class: "small", id: "order", "data-as-dropped": String(isAsDropped) },
    isAsDropped ? "The files were appended as they were dropped. "
      : "The files were appended in the order of their names. ",
    make("button", { onclick: other }, isAsDropped ? "In the order of their names" : "As they were dropped"));
}

// A row of the table: its time in the bars, and its last line.
function goToRow(row) {
  const ranges = row.tracks.flatMap(track => track.added);
  if (ranges.length) {
    const from = ranges.map(range => range[0]).reduce(lesser), to = ranges.map(range => range[1]).reduce(greater);
    const more = (to - from) / 2n + 1n;
    page.view = { from: from - more, to: to + more };
  }
  page.goTo(Math.max(0, row.lines - 1));
  $("time").scrollIntoView({ block: "nearest" });
}
