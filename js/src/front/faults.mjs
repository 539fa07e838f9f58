// What to look at behind a line of a fault.

import { FAULTS, INIT_FAULTS, MOOF_FAULTS, REMUX_FAULTS } from './fault_table.mjs';

const FIRST_OF_REMUX = 21;

function innerFault(name, inner) {
  const table = name === 'Moof' ? MOOF_FAULTS : INIT_FAULTS;
  const wanted = inner.startsWith('Missing ') ? 'Missing BOX' : inner;
  return table.find((fault) => fault.name === wanted);
}

/** The line that explains a line `fault N NAME ..`, or undefined for any other line. */
export function faultHelp(line) {
  const found = /^fault (\d+) (\w+)(?: (.+?))??(?: buffer \d+)? at \d+$/.exec(line);
  if (!found) return undefined;
  const [, number, name, inner] = found;
  const outer = Number(number) < FIRST_OF_REMUX ? FAULTS[number - 1] : REMUX_FAULTS[number - FIRST_OF_REMUX];
  const fault = (inner && innerFault(name, inner)) || outer;
  return fault && `${inner ? `${name} ${inner}` : name}: ${fault.means}. Look at: ${fault.look}`;
}
