// Files of Node.

import { ImageError } from './errors.js';

const files = () => globalThis.process.getBuiltinModule('node:fs');

/** Calls `use` with a file as a source. It is closed afterwards. */
export async function withFile(path, use) {
  const { open, stat } = files().promises;
  checkRegular(await stat(path), path);
  const file = await open(path);
  try {
    const { size } = await file.stat();
    return await use({ total: size, read: (block) => readBlock(file, block) });
  } finally {
    await file.close();
  }
}

/** The same at once. */
export function withFileSync(path, use) {
  const { closeSync, fstatSync, openSync, readSync, statSync } = files();
  checkRegular(statSync(path), path);
  const file = openSync(path);
  try {
    const read = ({ start, end }) => {
      const buffer = new Uint8Array(end - start);
      let length = 0;
      for (let more = -1; more !== 0 && length < buffer.length; length += more) {
        more = readSync(file, buffer, length, buffer.length - length, start + length);
      }
      return buffer.subarray(0, length);
    };
    return use({ total: fstatSync(file).size, read });
  } finally {
    closeSync(file);
  }
}

// It is asked before the file is opened: to open a pipe without a writer would wait for one.
function checkRegular(about, path) {
  if (!about.isFile()) throw new ImageError('NOT_A_FILE', `${path} is no regular file`);
}

// The bytes of a block, or those that are left of the file.
async function readBlock(file, { start, end }) {
  const buffer = new Uint8Array(end - start);
  let length = 0;
  for (let more = -1; more !== 0 && length < buffer.length; length += more) {
    ({ bytesRead: more } = await file.read(buffer, length, buffer.length - length, start + length));
  }
  return buffer.subarray(0, length);
}
