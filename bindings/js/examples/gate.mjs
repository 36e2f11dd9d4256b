// An upload gate: a server that stores images, and refuses one with too many pixels before its body has come.
//
//     node node_modules/imagesize-proved/examples/gate.mjs FOLDER [PORT]
//     curl --data-binary @photo.jpg http://127.0.0.1:8080/
//
// form.mjs is the same for forms, which browsers and `curl -F` send.

import { randomUUID } from 'node:crypto';
import { once } from 'node:events';
import { open, rm } from 'node:fs/promises';
import { createServer } from 'node:http';
import { join } from 'node:path';
import { pathToFileURL } from 'node:url';
import { ImageError, StreamProbe } from 'imagesize-proved';

const MOST_PIXELS = 50_000_000;

// How many milliseconds a refused client may go on sending.
const PATIENCE = 1000;

class TooManyPixels extends Error {}

/** A request that is not as it should be. */
export class BadRequest extends Error {}

/** A server that stores images in a folder. */
export function gate(folder) {
  return createServer(async (request, response) => {
    const path = join(folder, randomUUID());
    try {
      const total = Number(request.headers['content-length'] ?? Infinity);
      // A loop over the request itself would close the connection where it is left, and no reply would be sent.
      const { kind, width, height } = await stored(request.iterator({ destroyOnReturn: false }), path, total);
      reply(response, 201, `${kind} ${width}x${height}`).end();
    } catch (error) {
      await rm(path, { force: true });
      await refuse(request, response, error);
    }
  });
}

/** Writes an image of `total` bytes to a file as it comes. Throws as soon as it has too many pixels, or cannot be an image. */
export async function stored(chunks, path, total = Infinity) {
  const probe = new StreamProbe({ total });
  const file = await open(path, 'wx');
  try {
    for await (const chunk of chunks) {
      checkPixels(probe.feed(chunk));
      await file.appendFile(chunk);
    }
    return checkPixels(probe.close());
  } finally {
    await file.close();
  }
}

// An image with few enough pixels, or null if its size is not known yet.
function checkPixels(image) {
  if (image && image.width * image.height > MOST_PIXELS) throw new TooManyPixels(`${image.width}x${image.height} are too many pixels`);
  return image;
}

/**
 * Replies why an image is not stored. The client has the reply at once, and its connection is closed when it stops, or a second later.
 * To close it while bytes come in would reset it, and the reply could be lost.
 */
export async function refuse(request, response, error) {
  const status = statusOf(error);
  response.shouldKeepAlive = false;
  reply(response, status, status === 500 ? 'The image could not be stored' : error.message);
  request.resume();
  if (!request.complete) await once(request, 'end', { signal: AbortSignal.timeout(PATIENCE) }).catch(() => {});
  response.end();
}

function statusOf(error) {
  if (error instanceof TooManyPixels) return 413;
  if (error instanceof ImageError) return 415;
  return error instanceof BadRequest ? 400 : 500;
}

/** Begins a reply of one text. */
export function reply(response, status, text) {
  response.writeHead(status, { 'Content-Type': 'text/plain', 'Content-Length': Buffer.byteLength(text) });
  response.write(text);
  return response;
}

/** Runs a server, if the module at this address is the program. */
export function runAs(address, server) {
  if (address !== pathToFileURL(process.argv[1] ?? '').href) return;
  const [folder, port = '8080'] = process.argv.slice(2);
  const running = server(folder).listen(Number(port), '127.0.0.1', () => console.log(`http://127.0.0.1:${running.address().port}/`));
}

runAs(import.meta.url, gate);
