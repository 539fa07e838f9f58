// Where a module comes from: a path, a URL, bytes, or a module that is compiled already.

import { ArgumentError, kindOf, ModuleError } from './errors.mjs';

const isNode = typeof process === 'object' && typeof process.versions?.node === 'string';

/** Whether a text is a URL and no path. A letter and a colon are a drive of Windows. */
function isURL(text) {
  return /^[a-z][a-z0-9+.-]+:/i.test(text);
}

async function compileFile(path) {
  const { readFileSync } = await import('node:fs');
  return new WebAssembly.Module(readFileSync(path));
}

async function compileFetched(url) {
  const response = await fetch(url);
  if (!response.ok) throw new Error(`${response.status} ${response.statusText}`.trim());
  const isWasm = response.headers.get('Content-Type')?.startsWith('application/wasm');
  if (isWasm && WebAssembly.compileStreaming) return WebAssembly.compileStreaming(response);
  return WebAssembly.compile(await response.arrayBuffer());
}

function compileNamed(source) {
  if (!isNode) return compileFetched(source);
  if (source instanceof URL || isURL(source)) {
    const url = new URL(source);
    return url.protocol === 'file:' ? compileFile(url) : compileFetched(url);
  }
  return compileFile(source);
}

/** The compiled module of a source. */
export async function compile(source) {
  if (source instanceof WebAssembly.Module) return source;
  const isNamed = typeof source === 'string' || source instanceof URL;
  const isBytes = source instanceof ArrayBuffer || ArrayBuffer.isView(source);
  if (!isNamed && !isBytes) {
    throw new ArgumentError(`load: a source is a path, a URL, bytes or a WebAssembly.Module, not ${kindOf(source)}`);
  }
  try {
    return await (isNamed ? compileNamed(source) : WebAssembly.compile(source));
  } catch (cause) {
    const name = isNamed ? String(source) : 'these bytes';
    throw new ModuleError(`${name} cannot be loaded as the engine: ${cause.message}`, { cause });
  }
}
