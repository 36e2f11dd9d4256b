// A probe of a source: blocks of it are read until there is a result. A stream is read once.

import { ImageError } from './errors.js';
import { library } from './load.js';
import { Parts, firstBlock, limitReached, nextBlock } from './parts.js';
import { Stream } from './stream.js';

/** How many spans a trace has at most. */
export const MOST_SPANS = 65536;

/**
 * Type and size of the image in a source. Its `read` gives the bytes of a block, and its `total` is known after the first block. If it
 * gives null, the source is a stream, `whole`. At most `maxBytes` are read, by default `most`.
 */
export async function probeSource(source, most, { signal, maxBytes = most, trace = false } = {}) {
  const probe = new Probe(source, { maxBytes, trace });
  try {
    library();
    const result = await answerOf(probe, signal);
    return probe.outcome(result, trace ? { trace: await probe.trace() } : {});
  } catch (error) {
    throw probe.marked(error);
  } finally {
    source.whole?.leave();
  }
}

/** The same of a source that is no stream, and whose `read` gives the bytes at once. */
export function probeSourceSync(source, most, { maxBytes = most, trace = false } = {}) {
  const probe = new Probe(source, { maxBytes, trace });
  try {
    const blocks = probe.blocks();
    let step = blocks.next();
    while (!step.done) step = blocks.next(source.read(step.value));
    return probe.outcome(step.value, trace ? { trace: probe.traceSync() } : {});
  } catch (error) {
    throw probe.marked(error);
  }
}

async function answerOf(probe, signal) {
  const blocks = probe.blocks();
  let step = blocks.next();
  while (!step.done) {
    signal?.throwIfAborted();
    const bytes = await probe.source.read(step.value);
    if (bytes === null) return probe.streamed();
    step = blocks.next(bytes);
  }
  return step.value;
}

// What is read of a source, and what was found.
class Probe {
  source;
  #parts;
  #maxBytes;

  constructor(source, { maxBytes, trace }) {
    this.source = source;
    this.#maxBytes = maxBytes;
    this.#parts = new Parts({ trace });
  }

  /** Yields each block to read, and gets its bytes. Returns `{ image }` or `{ error }`. */
  * blocks() {
    const { source } = this;
    let block = firstBlock(this.#maxBytes);
    for (;;) {
      const bytes = yield block;
      const length = Math.min(block.end, source.total) - block.start;
      if (bytes.length !== length) throw new ImageError('CUT_SHORT', `${bytes.length} of ${length} bytes came`);
      const answer = this.#parts.supply(block.start, bytes, source.total);
      if (!answer.wanted) return answer;
      block = nextBlock(answer.wanted, source.total, this.#parts, this.#maxBytes);
    }
  }

  /** The result of a stream. Each chunk is passed once, and stored only for a trace. */
  async streamed() {
    const parts = this.#parts;
    const stream = new Stream(this.source.total);
    for await (const chunk of this.source.whole) {
      const bytes = chunk.subarray(0, this.#maxBytes - parts.length);
      parts.add(parts.length, bytes);
      const result = stream.push(bytes);
      if (result) return result;
      if (parts.length === this.#maxBytes) throw limitReached(this.#maxBytes);
    }
    this.source.total = parts.length;
    return stream.finish();
  }

  /** The image with what was read, or the error. */
  outcome({ image, error }, traced) {
    if (error) throw Object.assign(error, traced);
    return { ...image, ...this.#reads(), ...traced };
  }

  /** An error, with what was read if it is one of this package. */
  marked(error) {
    return error instanceof ImageError ? Object.assign(error, this.#reads()) : error;
  }

  /** The spans of a result with their bytes; null if there are too many, or too little memory for an input of this length. */
  async trace() {
    if (this.source.whole) this.#parts.join();
    try {
      return this.#cut(await library().spansOfParts(this.#parts, this.#total, MOST_SPANS));
    } catch (error) {
      return noTrace(error);
    }
  }

  traceSync() {
    try {
      return this.#cut(library().spansOfPartsSync(this.#parts, this.#total, MOST_SPANS));
    } catch (error) {
      return noTrace(error);
    }
  }

  #cut(spans) {
    return spans.map(({ start, len }) => ({ start, bytes: this.#parts.slice(start, len) }));
  }

  get #total() {
    return this.source.total < Infinity ? this.source.total : this.#parts.length;
  }

  #reads() {
    const { total, whole } = this.source;
    return { total, reads: whole ? 1 : this.#parts.reads, bytesRead: this.#parts.length };
  }
}

function noTrace(error) {
  if (error instanceof RangeError || error.code === 'TOO_MANY_SPANS') return null;
  throw error;
}
