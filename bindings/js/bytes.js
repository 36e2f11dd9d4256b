// Bytes, in each form in which callers have them.

const BUFFERS = ['[object ArrayBuffer]', '[object SharedArrayBuffer]'];

/** The bytes of a buffer, or of a view of one; undefined for anything else. */
export function bytesOf(data) {
  if (ArrayBuffer.isView(data)) return new Uint8Array(data.buffer, data.byteOffset, data.byteLength);
  return BUFFERS.includes(Object.prototype.toString.call(data)) ? new Uint8Array(data) : undefined;
}

/** Throws an error for a stream of Node that decodes its bytes. */
export function checkEncoding(stream) {
  if (stream.readableEncoding) {
    throw new TypeError(`The stream gives strings and not bytes, since setEncoding was called on it, or it has an encoding: ${stream.readableEncoding}`);
  }
}

/** The same bytes, or an error for anything else. */
export function bytesIn(data) {
  const bytes = bytesOf(data);
  if (bytes === undefined) throw new TypeError('The bytes of an image are an ArrayBuffer, or a view of one as a Uint8Array');
  return bytes;
}
