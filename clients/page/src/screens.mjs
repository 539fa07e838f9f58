// What is shown now: media, a script, or neither. Who shows something else leaves first, and each part clears itself.

import { page } from "./dom.mjs";

export const shown = { media: null, script: null };

const leavers = [];

export const onLeave = leaver => leavers.push(leaver);

export function leave() {
  Object.assign(shown, { media: null, script: null });
  Object.assign(page, { kind: null, browser: null });
  for (const leaver of leavers) leaver();
}
