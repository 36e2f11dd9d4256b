// The bytes of a stream, read no further than they are needed.

import { bytesIn, checkEncoding } from './bytes.js';
import { ImageError } from './errors.js';
import { RequestReader, isRequest } from './request.js';

/** A `ReadableStream`, or anything whose iterator gives bytes. */
export class Body {
  /** How many bytes came. */
  length = 0;

  /** How many bytes there are, or `Infinity` if that is not known. */
  expected;
  #reader;
  #signal;
  #ended = false;

  constructor(source, { expected = Infinity, signal } = {}) {
    this.#reader = readerOf(source);
    this.expected = expected;
    this.#signal = signal;
  }

  /** Its chunks, until it ends or the signal is aborted. */
  async* [Symbol.asyncIterator]() {
    for (;;) {
      this.#signal?.throwIfAborted();
      const { done, value } = await unlessAborted(this.#reader.read(), this.#signal);
      if (done) break;
      const bytes = bytesIn(value);
      this.length += bytes.length;
      yield bytes;
    }
    this.#ended = true;
    if (this.expected < Infinity && this.length < this.expected) throw this.cutShort(this.length);
  }

  /** Tells the source that the rest is not needed. A request gets its bytes back. */
  leave() {
    if (!this.#ended || this.#reader instanceof RequestReader) this.#reader.cancel().catch(() => {});
  }

  /** The error of a body that ends after so many bytes. */
  cutShort(length, cause) {
    const whole = this.expected < Infinity ? ` of ${this.expected}` : '';
    return new ImageError('CUT_SHORT', `${length}${whole} bytes came`, { cause });
  }
}

// A stream has a reader, and an iterator is read alike: both give `{ done, value }`. A stream of Node ends at once by `destroy`,
// and its iterator only after the chunk that it waits for.
function readerOf(source) {
  if (typeof source?.getReader === 'function') return source.getReader();
  if (isRequest(source)) return new RequestReader(source);
  const iterate = source?.[Symbol.asyncIterator] ?? source?.[Symbol.iterator];
  if (typeof iterate !== 'function') throw new TypeError('A stream is a ReadableStream, or an iterable of Uint8Arrays');
  const iterator = iterate.call(source);
  const read = async () => {
    checkEncoding(source);
    return iterator.next();
  };
  return { read, cancel: async () => (source.destroy ? source.destroy() : iterator.return?.()) };
}

// What a promise gives, or the reason of a signal that is aborted first.
function unlessAborted(promise, signal) {
  if (!signal) return promise;
  return new Promise((resolve, reject) => {
    const abort = () => reject(signal.reason);
    signal.addEventListener('abort', abort, { once: true });
    promise.then(resolve, reject).finally(() => signal.removeEventListener('abort', abort));
  });
}
