// The engine: one run of the program in memory, and live sessions. README.md, "mseplay/engine", has the API.

import { load } from './engine/load.mjs';

export { load };
export {
  ArgumentError, BytesError, ClosedError, EngineStoppedError, LineError, ModuleError, OutOfMemoryError,
} from './engine/errors.mjs';

/** What stands in the engine's place where its module could not be loaded. */
function missingEngine(error) {
  return {
    run() {
      throw error;
    },
    Session: class Session {
      constructor() {
        throw error;
      }
    },
  };
}

export const { run, Session } = await load(new URL('../mseplay.wasm', import.meta.url)).catch(missingEngine);
