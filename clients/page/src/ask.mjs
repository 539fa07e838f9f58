// Writes a script anew with questions behind each of its steps.

import { ScriptFault, Toml } from "./toml.mjs";

const MOST_STEPS = 100000;

// Writes a script anew with questions behind each step.
export function askAtEachStep(text, story) {
  const { top, rules } = new Toml(text).read();
  if (!top.steps) throw new ScriptFault("it has no key steps");
  const steps = top.steps.members?.map(member => ({ ...member }));
  if (!steps || steps.some(step => typeof step.value !== "string" || step.from === undefined)) {
    throw new ScriptFault("its steps are no list of texts");
  }
  const known = buffersKnown(steps, rules, story);
  const questions = steps.map((step, at) => questionsBehind(step.value, known.behind[at]));
  const asked = asMuchAsFits(questions);
  return { text: writtenAnew(text, steps, asked.questions), steps: steps.length, left: asked.left, sure: known.sure };
}

const questionsBehind = (step, buffers) =>
  ["state", "elementbuffered", ...buffers.map(buffer => `buffered ${buffer}`)].filter(question => question !== step);

// A script has at most 100,000 steps: behind the last ones nothing is asked where all questions would be more.
function asMuchAsFits(questions) {
  let room = MOST_STEPS - questions.length, left = 0;
  const fitting = questions.map(some => {
    if (left || some.length > room) { left++; return []; }
    room -= some.length;
    return some;
  });
  return { questions: fitting, left };
}

// The buffers that there are behind each step: by the output of the script, where it is shown, else by its own lines.
function buffersKnown(steps, rules, story) {
  const told = story && buffersTold(steps, story);
  if (told) return { behind: told, sure: true };
  const heard = rules.reduce((all, rule) => all + addsOf(rule), 0);
  const gone = new Set();
  let count = 0, fired = false;
  const behind = steps.map(({ value }) => {
    const [name, buffer] = value.split(" ");
    if (name === "add") count++;
    if (name === "removebuffer") gone.add(buffer);
    fired ||= name === "fire" || name === "drain";
    return buffersBelow(count + (fired ? Math.min(heard, 16) : 0), gone);
  });
  return { behind, sure: false };
}

const buffersBelow = (count, gone) => Array.from({ length: count }, (_, buffer) => String(buffer))
  .filter(buffer => !gone.has(buffer));
const addsOf = rule =>
  (rule.calls?.members ?? []).filter(call => /^add( |$)/.test(call.value)).length * Number(rule.times?.value ?? 1);
const STEPS_WITHOUT_LINE = new Set(["fire", "work", "element", "drain"]);

// By the lines that were printed of these very steps; null where the lines are those of another script.
function buffersTold(steps, story) {
  const called = steps.filter(step => !STEPS_WITHOUT_LINE.has(step.value.split(" ")[0]));
  if (story.kind !== "play" || called.length !== story.calls.length) return null;
  const behind = [], gone = new Set();
  let call = -1, at = 0, count = 0;
  for (const { value } of steps) {
    const name = value.split(" ")[0];
    if (!STEPS_WITHOUT_LINE.has(name) && story.lines[story.calls[++call]].words[0] !== name) return null;
    const isLastOfCall = !STEPS_WITHOUT_LINE.has(name);
    const end = isLastOfCall ? story.calls[call] + 1 : story.calls[call + 1] ?? story.lines.length;
    for (; at < end; at++) count += buffersMade(story.lines[at], gone);
    behind.push(buffersBelow(count, gone));
  }
  return behind;
}

function buffersMade(line, gone) {
  if (line.answer !== "done") return 0;
  if (line.words[0] === "removebuffer") gone.add(line.words[1]);
  return line.words[0] === "add" ? 1 : 0;
}

// Each step keeps its place and its comment; the questions stand behind them, on a line of their own where the step
// does.
function writtenAnew(text, steps, questions) {
  const end = text.includes("\r\n") ? "\r\n" : "\n";
  const parts = [];
  let done = 0;
  steps.forEach((step, at) => {
    if (!questions[at].length) return;
    const tail = /^([ \t\r\n]*)(,?)([ \t]*(?:#[^\r\n]*)?)/.exec(text.slice(step.to, step.to + 4000));
    const hasComma = tail[2] === ",";
    const isOwnLine = /(^|\n)[ \t]*$/.test(text.slice(Math.max(0, step.from - 200), step.from));
    const comment = hasComma ? tail[3] : /^[ \t]*#[^\r\n]*/.exec(text.slice(step.to, step.to + 4000))?.[0] ?? "";
    const behind = hasComma ? step.to + tail[0].length : step.to + comment.length;
    parts.push(text.slice(done, step.to), hasComma ? text.slice(step.to, behind) : "," + comment);
    const asked = questions[at].map(question => `"${question}"`).join(", ");
    const indent = isOwnLine ? end + /[ \t]*$/.exec(text.slice(Math.max(0, step.from - 200), step.from))[0] + "  "
      : comment.includes("#") ? end : " ";
    parts.push(indent + asked + ",");
    done = behind;
  });
  return parts.join("") + text.slice(done);
}
