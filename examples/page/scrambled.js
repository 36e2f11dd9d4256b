// The experiment: an input with the same bytes in some spans, and a random byte everywhere else.

// A random byte at each offset, the same at each read of it.
function randomByte(offset, seed) {
  let x = Math.imul(offset ^ Math.floor(offset / 2 ** 32) ^ seed, 0x9e3779b1);
  x = Math.imul(x ^ (x >>> 15), 0x85ebca77);
  return (x ^ (x >>> 13)) & 255;
}

/** An input of `total` bytes that a probe reads as it reads a blob. */
export class Scrambled {
  #trace;
  #seed;

  constructor(total, trace, seed) {
    this.size = total;
    this.#trace = trace;
    this.#seed = seed;
  }

  slice(start, end) {
    const bytes = this.bytes(start, end);
    return { arrayBuffer: async () => bytes.buffer };
  }

  /** Some of the bytes. */
  bytes(start, end) {
    const until = Math.min(end, this.size);
    const bytes = Uint8Array.from({ length: Math.max(0, until - start) }, (_, at) => randomByte(start + at, this.#seed));
    for (const span of this.#trace) {
      const from = Math.max(start, span.start);
      const to = Math.min(until, span.start + span.bytes.length);
      if (from < to) bytes.set(span.bytes.subarray(from - span.start, to - span.start), from - start);
    }
    return bytes;
  }
}
