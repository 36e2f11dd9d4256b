// The type of an image and its width and height in pixels, from a few bytes, with no pixel decoded.

import { Body } from './body.js';
import { bytesIn } from './bytes.js';
import { ImageError } from './errors.js';
import { withFile, withFileSync } from './file.js';
import { Remote } from './http.js';
import { init, library } from './load.js';
import { isRequest } from './request.js';
import { MOST_SPANS, probeSource, probeSourceSync } from './source.js';
import { StreamProbe } from './stream.js';

export { ImageError, StreamProbe, init };

const MEBIBYTE = 2 ** 20;

/** Type and size of the image in some bytes. */
export function probe(data) {
  const bytes = bytesIn(data);
  const { image, error } = library().probe(bytes);
  if (error) throw error;
  return image;
}

/** The spans that the result of `probe` depends on. */
export function spans(data, { limit = MOST_SPANS } = {}) {
  const bytes = bytesIn(data);
  return library().spans(bytes, limit);
}

/** Type and size of the image in a `Blob` or a `File`. Only a few slices are read. */
export async function probeBlob(blob, options) {
  if (typeof blob?.slice !== 'function' || typeof blob.size !== 'number') {
    throw new TypeError('probeBlob takes a Blob or a File; probe takes the bytes of an image');
  }
  const read = async ({ start, end }) => new Uint8Array(await blob.slice(start, end).arrayBuffer());
  return probeSource({ total: blob.size, read }, 64 * MEBIBYTE, options);
}

/** Type and size of the image in a file. Only a few blocks are read. It works only in Node. */
export async function probeFile(path, options) {
  return withFile(path, (source) => probeSource(source, 64 * MEBIBYTE, options));
}

/** The same at once, for programs that read one file after another. */
export function probeFileSync(path, options) {
  return withFileSync(path, (source) => probeSourceSync(source, 64 * MEBIBYTE, options));
}

/** Type and size of the image at an address. Only a few ranges are fetched. */
export async function probeUrl(url, options) {
  return probeSource(new Remote(url, options?.signal), MEBIBYTE, options);
}

/**
 * Type and size of the image in a stream. It is read up to the result, and then cancelled. A request gets its bytes back. They are stored
 * until then, so that fewer of them are read.
 */
export async function probeStream(stream, { total = Infinity, ...options } = {}) {
  const whole = new Body(stream, { expected: total, signal: options.signal });
  return probeSource({ total, whole, read: () => null }, (isRequest(stream) ? 1 : 64) * MEBIBYTE, options);
}
