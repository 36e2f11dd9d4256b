// What the tests share: the test vectors, inputs with their size far after their beginning, and a server of ranges.

import { readFileSync } from 'node:fs';
import { createServer } from 'node:http';
import { ImageError } from '../imagesize.js';

// This module alone refuses a side that no number of JavaScript holds.
const lineHere = (line) => line.replace(/ (\d+)x(\d+)$/, (size, width, height) =>
  Math.max(width, height) >= 2 ** 53 ? ': A side has 2^53 pixels or more' : size);

/** The bytes, the line and the spans of each test vector. */
export const worked = readFileSync(new URL('../../../examples/out/worked.tsv', import.meta.url), 'utf8')
  .split('\n')
  .filter((row) => row)
  .map((row) => row.split('\t'))
  // A PNG that ends before its size. The table has it as the calls that leave PNG out tell it.
  .map((row) => (row[0] === '89504e470d0a1a0a0000000d' ? [row[0], 'Png: failed to fill whole buffer', '0+8'] : row))
  .map(([hex, line, spans]) => ({ bytes: Buffer.from(hex === '-' ? '' : hex, 'hex'), line: lineHere(line), spans }));

const named = ({ kind, compression }) => (compression ? `${kind}(${compression})` : kind);

/** The line about an image, or about its error. */
export async function lineOf(call) {
  try {
    const image = await call();
    return `${named(image)} ${image.width}x${image.height}`;
  } catch (error) {
    if (!(error instanceof ImageError)) throw error;
    return error.kind ? `${named(error)}: ${error.message}` : error.message;
  }
}

/** A JPEG of 7x5 pixels whose frame comes after this many segments of this length in bytes. */
export function jpegBehind(segments, length) {
  const segment = Buffer.alloc(length);
  segment.set([0xff, 0xe1]);
  segment.writeUInt16BE(length - 2, 2);
  const frame = [0xff, 0xc0, 0, 17, 8, 0, 5, 0, 7];
  return Buffer.concat([Buffer.from([0xff, 0xd8]), ...Array(segments).fill(segment), Buffer.from(frame), Buffer.alloc(100)]);
}

/** A TIFF of 5x7 pixels, whose directory comes after this many bytes. */
export function tiffBehind(length) {
  const directory = Buffer.from('020000010300010000000500000001010400010000000700000000000000', 'hex');
  const head = Buffer.alloc(length);
  head.write('II*\0');
  head.writeUInt32LE(length, 4);
  return Buffer.concat([head, directory]);
}

/** An icon with an entry for each of these sides. */
export function iconOf(...sides) {
  const entries = sides.map((side) => Buffer.from([side % 256, side % 256, 0, 0, 1, 0, 32, 0, 0, 0, 0, 0, 0, 0, 0, 0]));
  return Buffer.concat([Buffer.from([0, 0, 1, 0, sides.length, 0]), ...entries, Buffer.alloc(6000)]);
}

/** Gives a range of some bytes as it was asked for, with these headers. */
export function giveRange(request, response, bytes, headers = {}) {
  const [, first, last] = /^bytes=(\d+)-(\d+)$/.exec(request.headers.range).map(Number);
  if (first >= bytes.length) return response.writeHead(416, { 'Content-Range': `bytes */${bytes.length}` }).end();
  const end = Math.min(last + 1, bytes.length);
  const range = `bytes ${first}-${end - 1}/${bytes.length}`;
  response.writeHead(206, { 'Content-Range': range, 'Content-Length': end - first, ...headers });
  return response.end(bytes.subarray(first, end));
}

/** Runs `use` while memory grows as `grow` says. */
export function withGrow(grow, use) {
  const { prototype } = WebAssembly.Memory;
  const before = prototype.grow;
  prototype.grow = function (pages) { return grow(this, before, pages); };
  try {
    return use();
  } finally {
    prototype.grow = before;
  }
}

/** Runs `use` while each fetch gives these bytes whole, in pieces of some length, with these headers and of this type. */
export async function withPieces(bytes, length, { headers = {}, type = 'default' }, use) {
  const before = globalThis.fetch;
  globalThis.fetch = async () => {
    let at = 0;
    const body = new ReadableStream({
      pull(control) {
        if (at >= bytes.length) return control.close();
        control.enqueue(new Uint8Array(bytes.subarray(at, at + length)));
        at += length;
      },
    });
    return Object.defineProperty(new Response(body, { headers }), 'type', { value: type });
  };
  try {
    return await use('http://127.0.0.1/image');
  } finally {
    globalThis.fetch = before;
  }
}

/** Runs `use` with the address of a server on this machine, and with the requests that came so far. */
export async function withServer(answer, use) {
  const requests = [];
  const server = createServer((request, response) => {
    requests.push(request);
    answer(request, response, requests.length);
  });
  await new Promise((resolve) => server.listen(0, '127.0.0.1', resolve));
  try {
    return await use(`http://127.0.0.1:${server.address().port}/image`, requests);
  } finally {
    server.closeAllConnections();
    await new Promise((resolve) => server.close(resolve));
  }
}
