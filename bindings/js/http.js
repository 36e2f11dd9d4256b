// An input at an HTTP address. Ranges of it are fetched, or its beginning if the server gives no ranges.

import { Body } from './body.js';
import { ImageError } from './errors.js';

// The body of a response. If it breaks off, the error says how many bytes came.
class ResponseBody extends Body {
  #signal;

  constructor(source, signal) {
    super(source, { signal });
    this.#signal = signal;
  }

  async* [Symbol.asyncIterator]() {
    try {
      yield* super[Symbol.asyncIterator]();
    } catch (cause) {
      this.#signal?.throwIfAborted();
      throw cause instanceof ImageError ? cause : this.cutShort(this.length, cause);
    }
  }
}

/** The input at an address. */
export class Remote {
  /** The length of the input in bytes, or `Infinity` while it is not known. */
  total = Infinity;

  /** The body with the whole input, if the server gives no ranges. */
  whole = null;
  #url;
  #signal;
  #version;

  constructor(url, signal) {
    this.#url = url;
    this.#signal = signal;
  }

  /** The bytes of a block, as many as the input has there. If the server gives no ranges, it is null, and sets `whole`. */
  async read({ start, end }) {
    const response = await this.#fetched({ Range: `bytes=${start}-${end - 1}` });
    const body = this.#bodyOf(response);
    try {
      const isFirst = this.#version === undefined;
      if (isFirst && isWhole(response)) return this.#beginWhole(response, body);
      const range = rangeOf(response, start);
      if (isFirst && range.length > end && range.length === range.total) return this.#beginWhole(response, body);
      // A server may give a range, and not say which one. Then it is asked for the whole.
      if (isFirst && range.total === undefined) return await this.#askForWhole(response);
      return await this.#rangeIn(response, body, range, { start, end });
    } finally {
      if (this.whole !== body) body.leave();
    }
  }

  async #rangeIn(response, body, range, { start, end }) {
    if (range.total === undefined) throw noRange(response);
    this.#checkVersion(response, range.total);
    const wanted = Math.min(end, range.total) - start;
    if (range.start !== start || range.length > wanted) {
      throw new ImageError('WRONG_RANGE', `${serverOf(response)} gives another range than the one that was asked for`);
    }
    body.expected = wanted;
    if (range.length < wanted) throw body.cutShort(range.length);
    return wanted === 0 ? new Uint8Array() : await bytesOf(body, wanted, response);
  }

  async #askForWhole(before) {
    const response = await this.#fetched({});
    const body = this.#bodyOf(response);
    if (isWhole(response)) return this.#beginWhole(response, body);
    body.leave();
    throw response.status === 206 ? noRange(before) : badStatus(response);
  }

  async #fetched(headers) {
    const request = new Request(this.#url, { headers, signal: this.#signal });
    try {
      return await fetch(request);
    } catch (cause) {
      this.#signal?.throwIfAborted();
      const why = reasonOf(cause);
      throw new ImageError('UNREACHABLE', `${serverOf(request)} gives no answer, or none that this origin may read: ${why}`, { cause });
    }
  }

  #bodyOf(response) {
    return new ResponseBody(response.body ?? [], this.#signal);
  }

  // A response from another origin may hide that it is compressed. Its length is then not that of the input.
  #beginWhole(response, body) {
    checkEncoding(response);
    const length = response.headers.get('Content-Length') ?? '';
    if (response.type !== 'cors' && /^\d{1,15}$/.test(length)) body.expected = Number(length);
    this.total = body.expected;
    this.whole = body;
    return null;
  }

  // Each response has the same version of the input, as far as the server distinguishes them. If the first request was
  // redirected, later ranges are fetched from the new address.
  #checkVersion(response, total) {
    const { headers, url } = response;
    const version = JSON.stringify([headers.get('ETag'), headers.get('Last-Modified'), total]);
    if (this.#version === undefined && url) this.#url = url;
    this.#version ??= version;
    if (this.#version !== version) throw new ImageError('CHANGED', `The input of ${hostOf(response)} changed between two ranges`);
    this.total = total;
  }
}

// A proxy that changes a response may give it the status 203.
const isWhole = ({ status }) => status === 200 || status === 203;

// Which bytes a response says that it has, and of how many: no total if it does not say so. It has no bytes if the input ends before
// the requested start.
function rangeOf(response, start) {
  const { status, headers } = response;
  const range = headers.get('Content-Range') ?? '';
  const ended = /^bytes \*\/(\d+)$/.exec(range);
  if (status === 416 && ended) return { start, length: 0, total: Number(ended[1]) };
  if (isWhole(response)) throw new ImageError('NO_RANGES', `${serverOf(response)} gave ranges, and now it answers ${status} with the whole`);
  if (status !== 206) throw badStatus(response);
  checkEncoding(response);
  const [, first, last, total] = /^bytes (\d+)-(\d+)\/(\d+)$/.exec(range)?.map(Number) ?? [];
  return Number.isSafeInteger(total) ? { start: first, length: last + 1 - first, total } : {};
}

// The offsets and the length of a compressed input are not those of the input.
function checkEncoding(response) {
  const encoding = response.headers.get('Content-Encoding') ?? 'identity';
  if (encoding.trim().toLowerCase() === 'identity') return;
  throw new ImageError('CONTENT_ENCODING', `${serverOf(response)} compresses the input (${encoding}), although it was asked not to`);
}

// The bytes of a range. The body has more of them if the response hides that it is compressed.
async function bytesOf(body, wanted, response) {
  const bytes = new Uint8Array(wanted);
  for await (const chunk of body) {
    if (body.length > wanted) throw new ImageError('WRONG_RANGE', `${serverOf(response)} gives more bytes than its range has`);
    bytes.set(chunk, body.length - chunk.length);
  }
  return bytes;
}

function badStatus(response) {
  return new ImageError('HTTP_STATUS', `${serverOf(response)} answers ${response.status}`, { status: response.status });
}

function noRange(response) {
  const told = response.headers.get('Content-Range');
  const what = told === null ? 'does not tell this origin, by Content-Range, which bytes it gives' : `gives the odd Content-Range "${told}"`;
  return new ImageError('NO_CONTENT_RANGE', `${serverOf(response)} ${what}`);
}

// Where a request was sent to, or a response came from. A response that a program made has no address.
const hostOf = ({ url }) => (url ? new URL(url).host : 'the server');
const serverOf = (message) => (message.url ? `The server ${hostOf(message)}` : 'The server');

// Why a fetch failed. In Node the cause of the error says it, or the first of several attempts.
function reasonOf(error) {
  const { cause = error } = error;
  const [first = cause] = cause.errors ?? [];
  return first.message || first.code || error.message;
}
