import { ElementOptions } from './index.js';

export interface RegisterOptions extends ElementOptions {
  /** Where the names are put: `globalThis` where it is left out. */
  window?: object;
  /** Whether what is there is replaced. */
  replace?: boolean;
}

/** Puts `MediaSource` and the rest where a player's code names them. Gives a function that takes all away again. */
export function register(options?: RegisterOptions): () => void;
