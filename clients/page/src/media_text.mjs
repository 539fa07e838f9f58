// The text that `mseplay play` would print of a live session: its lines, and its block, which begins with the state.

export const textOf = ({ lines, block }) => [...lines, ...block].map(line => `${line}\n`).join("");
