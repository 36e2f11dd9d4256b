// A push parser: it is passed the bytes of an input as they come.

import { bytesIn } from './bytes.js';
import { PIECE, PNG_SIGNATURE, beginsPng } from './library.js';
import { library } from './load.js';

// A PNG has its size in its first bytes.
const PNG_FRONT = 24;

/** An input of `total` bytes, or of `Infinity` if that is not known, whose bytes come in chunks. */
export class Stream {
  #total;
  #state;
  #front = new Uint8Array();
  #result = null;

  constructor(total) {
    if (total !== Infinity && !(Number.isSafeInteger(total) && total >= 0)) {
      throw new RangeError('total is a whole number of bytes, or Infinity if it is not known');
    }
    this.#total = total;
    this.#state = library().streamOf(total);
  }

  /** Passes the next bytes: `{ image }` or `{ error }` once no further byte changes it, and null before. */
  push(bytes) {
    let at = 0;
    do {
      this.#result ??= this.#pushed(bytes.subarray(at, at + PIECE));
      at += PIECE;
    } while (at < bytes.length && this.#result === null);
    return this.#result;
  }

  /** Ends the input: the result of the bytes that were passed. */
  finish() {
    this.#result ??= beginsPng(this.#front) ? this.#png(this.#front.length) : library().finish(this.#state);
    return this.#result;
  }

  #pushed(bytes) {
    const missing = Math.min(PNG_FRONT, this.#total) - this.#front.length;
    if (missing > 0) this.#front = Uint8Array.of(...this.#front, ...bytes.subarray(0, missing));
    if (beginsPng(this.#front)) return this.#png(this.#total);
    const result = library().push(this.#state, bytes);
    // With fewer bytes it may yet be a PNG.
    return this.#front.length < Math.min(PNG_SIGNATURE.length, this.#total) ? null : result;
  }

  #png(total) {
    const { wanted, ...result } = library().probePng(this.#front, Math.min(total, Number.MAX_SAFE_INTEGER));
    return wanted ? null : result;
  }
}

/** Type and size of the image in bytes that come in chunks. */
export class StreamProbe {
  #stream;

  constructor({ total = Infinity } = {}) {
    this.#stream = new Stream(total);
  }

  /** Passes the next bytes. Returns the result once it is known, and null before. */
  feed(chunk) {
    return imageOf(this.#stream.push(bytesIn(chunk)));
  }

  /** Ends the input. Returns what `probe` returns for the bytes that were passed. */
  close() {
    return imageOf(this.#stream.finish());
  }
}

function imageOf(result) {
  if (result?.error) throw result.error;
  return result?.image ?? null;
}
