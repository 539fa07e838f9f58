// Live sessions for another process: a JSON text a line comes in, and one goes out for each. clients/replay.py asks.

import { readSync, writeSync } from 'node:fs';
import { readFileSync } from 'node:fs';
import { Session } from '../js/src/engine.mjs';

const sessions = [];

/** What is read of a source buffer; null where it is not in the list. */
function bufferLook(session, number) {
  const look = session.buffer(number);
  return look && { updating: look.updating, active: look.active, used: look.used, ranges: look.ranges };
}

const answers = {
  open({ keys, files }) {
    const session = new Session(keys);
    for (const file of files) session.give('hex' in file ? Buffer.from(file.hex, 'hex') : readFileSync(file.path));
    return { session: sessions.push(session) - 1 };
  },
  step(session, { line }) {
    const { lines, refused } = session.step(line);
    return { lines, refused, next: session.next() };
  },
  look(session, { number }) {
    return { buffer: bufferLook(session, number) };
  },
  element(session) {
    const { buffered, made, seeking, level } = session.attributes();
    return { ranges: buffered, made, seeking, level };
  },
  close(session) {
    session.close();
    return {};
  },
};

function answer(asked) {
  if (asked.do === 'open') return answers.open(asked);
  return answers[asked.do](sessions[asked.session], asked);
}

// ticks have more digits than a number of JSON keeps
const asText = (_, value) => (typeof value === 'bigint' ? String(value) : value);

function tell(text) {
  const bytes = Buffer.from(`${text}\n`);
  for (let at = 0; at < bytes.length;) at += writeSync(1, bytes, at);
}

let kept = Buffer.alloc(0);
const room = Buffer.alloc(1 << 16);
for (;;) {
  const count = readSync(0, room);
  if (count === 0) break;
  kept = Buffer.concat([kept, room.subarray(0, count)]);
  for (let end = kept.indexOf(10); end >= 0; end = kept.indexOf(10)) {
    let told;
    try {
      told = answer(JSON.parse(kept.subarray(0, end).toString()));
    } catch (error) {
      told = { problem: `${error.name}: ${error.message}` };
    }
    kept = kept.subarray(end + 1);
    tell(JSON.stringify(told, asText));
  }
}
