// The body of a request, in a server of Node. The reply goes through the same socket, so the request is never destroyed.

import { bytesIn, checkEncoding } from './bytes.js';

/** Whether a stream is a request that a server of Node received. */
export function isRequest(source) {
  return typeof source?.method === 'string' && typeof source.unshift === 'function' && typeof source.read === 'function';
}

/**
 * A reader of a request. It keeps the bytes that it reads, and gives them back when it is left. Until then one byte stays in the
 * request: a request without bytes would end, and take none back.
 */
export class RequestReader {
  #request;
  #kept = [];
  #held = 0;
  #broken = null;
  #wake = () => {};

  #onChange = () => this.#wake();

  #onError = (error) => {
    this.#broken = error;
    this.#wake();
  };

  constructor(request) {
    this.#request = request;
    for (const event of ['readable', 'end', 'close']) request.on(event, this.#onChange);
    request.on('error', this.#onError);
  }

  /** The next bytes, as soon as there are some: `{ done, value }`. */
  async read() {
    for (;;) {
      const fresh = this.#fresh();
      if (fresh !== null) return { done: fresh.length === 0, value: fresh };
      await new Promise((resolve) => { this.#wake = resolve; });
    }
  }

  /** Leaves the request as it was before. */
  async cancel() {
    for (const event of ['readable', 'end', 'close']) this.#request.off(event, this.#onChange);
    this.#request.off('error', this.#onError);
    const kept = Buffer.concat(this.#kept);
    this.#kept = [];
    if (kept.length > this.#held) this.#request.unshift(kept.subarray(0, kept.length - this.#held));
  }

  // The bytes that came since the last call: none at the end, and null if there are none yet.
  #fresh() {
    const request = this.#request;
    checkEncoding(request);
    if (this.#broken) throw this.#broken;
    if (request.readableEnded) return new Uint8Array();
    if (request.destroyed) throw new Error('The request was closed before its body had come');
    const chunk = request.read(this.#held + 1);
    if (chunk === null) return null;
    const more = request.read();
    const bytes = bytesIn(more === null ? chunk : Buffer.concat([chunk, more]));
    const fresh = bytes.subarray(this.#held);
    this.#held = Math.min(1, bytes.length);
    request.unshift(bytes.subarray(bytes.length - this.#held));
    this.#kept.push(fresh);
    return fresh;
  }
}
