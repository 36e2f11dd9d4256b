// The library, loaded once: from the file beside this module, or from what a caller passes.

import { bytesOf } from './bytes.js';
import { ImageError } from './errors.js';
import { Library } from './library.js';

let loaded;
let loading;

/** Loads the library, unless it is loaded already. */
export function init(source) {
  loading ??= load(source).catch((error) => {
    loading = undefined;
    throw error;
  });
  return loading;
}

/** The address of a bundle for Node that is an ES module. bundle.mjs sets it. */
init.address = undefined;

/** The library. Node loads it at the first call, from the file beside this module. */
export function library() {
  loaded ??= loadFile();
  return loaded;
}

async function load(source) {
  if (loaded) return;
  const from = source ?? beside();
  try {
    const module = await compiled(from);
    const instance = await WebAssembly.instantiate(module);
    loaded ??= new Library(module, instance);
  } catch (cause) {
    throw noLibrary(cause, from);
  }
}

function loadFile() {
  const files = builtin('node:fs');
  const path = beside();
  if (files === undefined || path === undefined || isFetched(path)) {
    throw new ImageError('NOT_LOADED', 'The library is not loaded: await init() before the first call');
  }
  try {
    const module = new WebAssembly.Module(files.readFileSync(path));
    return new Library(module, new WebAssembly.Instance(module));
  } catch (cause) {
    throw noLibrary(cause, path);
  }
}

// Where the WebAssembly is. An ES module knows its own address, and a CommonJS module of Node its folder, `out`. A bundle has it in its own
// folder. A script knows nothing, also where a bundler writes a folder into it.
function beside() {
  if (import.meta.url) return new URL('./out/imagesize.wasm', import.meta.url);
  if (typeof __dirname === 'string' && builtin('node:fs')) return `${__dirname}/imagesize.wasm`;
  return init.address && new URL('./imagesize.wasm', init.address);
}

async function compiled(source) {
  if (Object.prototype.toString.call(source) === '[object WebAssembly.Module]') return source;
  return WebAssembly.compile(bytesOf(source) ?? await bytesAt(source));
}

// The bytes at an address, or in Node of a file.
async function bytesAt(address) {
  if (address === undefined) throw new Error('this script does not know its address, so init needs that of imagesize.wasm');
  const files = builtin('node:fs/promises');
  if (files && !isFetched(address)) return files.readFile(isFile(address) ? new URL(address) : address);
  const response = await fetch(address).catch((cause) => {
    throw new Error(`${address} gives no answer (${cause.cause?.message || cause.message})`, { cause });
  });
  if (!response.ok) throw new Error(`${address} answers ${response.status}`);
  return response.arrayBuffer();
}

const isFetched = (address) => /^(https?|data|blob):/i.test(address);
const isFile = (address) => /^file:/i.test(address);
const builtin = (name) => globalThis.process?.getBuiltinModule?.(name);

// The error of a library that cannot be loaded. It says what is missing.
function noLibrary(cause, from) {
  return new ImageError('NO_LIBRARY', `The library cannot be loaded: ${reasonOf(cause, from)}`, { cause });
}

function reasonOf(cause, from) {
  if (cause.code === 'ENOENT') {
    return `there is no file ${cause.path}. Copy imagesize.wasm of the package there, or pass init its address or bytes`;
  }
  if (/content security policy|unsafe-eval/i.test(cause.message)) {
    return `the content security policy of the page needs 'wasm-unsafe-eval' in script-src (${cause.message})`;
  }
  if (cause.name === 'CompileError') return `${nameOf(from)} no WebAssembly that this engine runs (${cause.message})`;
  return cause.message;
}

// The source as the subject of a sentence.
const nameOf = (from) => (typeof from === 'string' || Object.prototype.toString.call(from) === '[object URL]' ? `${from} is` : 'the bytes are');
