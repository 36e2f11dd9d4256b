// How a probe continues: which block of an input is read next, until the blocks give type and size.

import { ImageError } from './errors.js';
import { beginsPng } from './library.js';
import { library } from './load.js';

// Blocks begin at multiples of so many bytes.
const BLOCK = 4096;

// After so many each block is twice as long as the one before, so that an input of any length is read in a few more.
const SINGLE_BLOCKS = 16;

/** The parts of an input that were read. Their bytes are stored only for a trace. */
export class Parts {
  /** How many parts were read, and how many bytes they have together. */
  reads = 0;
  length = 0;

  /** The parts themselves, if they are stored. */
  pieces = [];
  #stored;
  #state = null;

  constructor({ trace }) {
    this.#stored = trace;
  }

  add(start, bytes) {
    this.reads += 1;
    this.length += bytes.length;
    if (this.#stored) this.pieces.push({ start, bytes: bytes.slice() });
  }

  /**
   * Adds the block that was requested of an input of `total` bytes. Returns `{ wanted }`, a span that is needed, `{ image }` or
   * `{ error }`. The first block has the size of a PNG, or the input is none.
   */
  supply(start, bytes, total) {
    this.add(start, bytes);
    if (this.reads === 1 && beginsPng(bytes)) return library().probePng(bytes, total);
    this.#state ??= library().roundsOf(total);
    return library().supply(this.#state, start, bytes);
  }

  /** Makes one piece of those that follow one another from the beginning. */
  join() {
    this.pieces = [{ start: 0, bytes: this.slice(0, this.length) }];
  }

  /** The bytes of a span that is stored. */
  slice(start, len) {
    const slice = new Uint8Array(len);
    for (const piece of this.pieces) {
      const from = Math.max(start, piece.start);
      const to = Math.min(start + len, piece.start + piece.bytes.length);
      if (from < to) slice.set(piece.bytes.subarray(from - piece.start, to - piece.start), from - start);
    }
    return slice;
  }
}

/** The block that is read first of a file, a blob or an address, where at most so many bytes may be read. */
export function firstBlock(most) {
  if (most !== Infinity && !(Number.isInteger(most) && most > 0)) {
    throw new RangeError('maxBytes is a whole number of bytes, from 1 on');
  }
  return { start: 0, end: Math.min(BLOCK, most) };
}

/**
 * The block to read next: the requested span in blocks of 4 KiB, or more of them after many reads. It lies within the input and
 * within the bytes that may still be read.
 */
export function nextBlock(wanted, total, parts, most) {
  const start = Math.floor(wanted.start / BLOCK) * BLOCK;
  const last = Math.ceil((wanted.start + wanted.len) / BLOCK) * BLOCK;
  const ahead = start + BLOCK * 2 ** Math.max(0, parts.reads + 1 - SINGLE_BLOCKS);
  const end = Math.min(Math.max(last, ahead), total, start + most - parts.length);
  if (end <= wanted.start) throw limitReached(most);
  return { start, end };
}

/** The error of an input that has no result within the bytes that may be read. */
export function limitReached(most) {
  return new ImageError('LIMIT_REACHED', `There is no answer within ${most} bytes`);
}
