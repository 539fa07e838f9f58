// `load`: the engine over a module of one's own. It loads nothing by itself.

import { ModuleError } from './errors.mjs';
import { Instance } from './instance.mjs';
import { run as runOn } from './run.mjs';
import { sessionsOver } from './session.mjs';
import { compile } from './source.mjs';

function instantiate(module) {
  try {
    return new Instance(module);
  } catch (cause) {
    throw new ModuleError(`the module is not the engine: ${cause.message}`, { cause });
  }
}

/**
 * `run` and `Session` over one instance of a module. Where a call stopped in the middle, the next run or session gets a
 * new one.
 */
function engineOf(module) {
  let instance = instantiate(module);
  const current = () => {
    if (instance.isStopped) instance = instantiate(module);
    return instance;
  };
  return { run: (words, files) => runOn(current(), words, files), Session: sessionsOver(current) };
}

/** The engine over a module of one's own: a path, a URL, bytes, or a compiled module. */
export async function load(source) {
  return engineOf(await compile(source));
}
