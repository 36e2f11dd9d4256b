// Inputs that come in chunks: the test vectors, their fronts, streams of each form, and streams that break, stall or lie.

import assert from 'node:assert/strict';
import { once } from 'node:events';
import { createReadStream, createWriteStream, mkdtempSync, readFileSync, rmSync, writeFileSync } from 'node:fs';
import { createServer } from 'node:http';
import { connect as connectHttp2, createServer as createHttp2 } from 'node:http2';
import { connect } from 'node:net';
import { tmpdir } from 'node:os';
import { join } from 'node:path';
import { PassThrough, Readable } from 'node:stream';
import { pipeline } from 'node:stream/promises';
import { after, test } from 'node:test';
import { ImageError, StreamProbe, probe, probeStream } from '../imagesize.js';
import { jpegBehind, lineOf, tiffBehind, withGrow, withServer, worked } from './support.js';

const gif = new TextEncoder().encode('GIF89ad\0\x32\0\0\0');
const isGif = { kind: 'Gif', compression: null, width: 100, height: 50 };
const png = Buffer.from('89504e470d0a1a0a0000000d4948445200000280000001e00800000000', 'hex');
const folder = mkdtempSync(join(tmpdir(), 'imagesize-stream-'));
after(() => rmSync(folder, { recursive: true }));

// The chunks of some bytes: all have this length, and the last one what is left.
function* chunksOf(bytes, length) {
  for (let at = 0; at < bytes.length; at += length) yield bytes.subarray(at, at + length);
}

// What a probe returns for these chunks: as soon as it is known, or at the end.
function streamed(chunks, total) {
  const stream = new StreamProbe({ total });
  for (const chunk of chunks) {
    const image = stream.feed(chunk);
    if (image) return image;
  }
  return stream.close();
}

// What a call returns or throws, with all that an error says.
function outcome(call) {
  try {
    return call();
  } catch ({ name, code, message, kind, compression }) {
    return { name, code, message, kind, compression };
  }
}

test('each test vector in chunks of each length, whether or not its length is known', async () => {
  for (const { bytes, line } of worked) {
    for (const length of [1, 2, 3, 7, 4096, Infinity]) {
      for (const total of [undefined, bytes.length]) {
        const found = await lineOf(() => streamed(chunksOf(bytes, Math.min(length, bytes.length)), total));
        assert.equal(found, line, `${length} bytes of ${total}`);
      }
    }
  }
});

test('each test vector as a stream', async () => {
  for (const { bytes, line } of worked) {
    assert.equal(await lineOf(() => probeStream(chunksOf(bytes, 7))), line);
    assert.equal(await lineOf(() => probeStream(new Blob([bytes]).stream(), { total: bytes.length })), line);
  }
});

test('an input that ends early has the result of the bytes that came', () => {
  for (const bytes of [...worked.map((row) => row.bytes), png]) {
    for (let length = Math.min(bytes.length, 200); length >= 0; length -= 1) {
      const front = bytes.subarray(0, length);
      const whole = outcome(() => probe(front));
      for (const total of [undefined, length, length + 1, 2 ** 40]) {
        const stream = new StreamProbe({ total });
        assert.deepEqual(outcome(() => { for (const chunk of chunksOf(front, 5)) stream.feed(chunk); return stream.close(); }), whole, `${total}`);
      }
    }
  }
});

test('a result is known with the last byte that it depends on', () => {
  for (const [bytes, length] of [[gif, 12], [png, 24], [jpegBehind(4, 50000), 200_011], [tiffBehind(5000), 5026]]) {
    const stream = new StreamProbe();
    assert.equal(stream.feed(bytes.subarray(0, length - 1)), null);
    assert.deepEqual(stream.feed(bytes.subarray(length - 1)), probe(bytes));
  }
  for (const { bytes, line, spans } of worked.filter((row) => row.spans.includes('+'))) {
    const ends = spans.split(' ').map((span) => span.split('+').reduce((start, length) => Number(start) + Number(length)));
    const stream = new StreamProbe({ total: bytes.length });
    assert.notEqual(outcome(() => stream.feed(bytes.subarray(0, Math.max(...ends)))), null, line);
  }
});

test('a result stays the same, whatever comes after it', () => {
  const image = new StreamProbe();
  assert.deepEqual(image.feed(gif), isGif);
  const error = new StreamProbe({ total: 100 });
  const refused = outcome(() => error.feed(Buffer.alloc(100)));
  assert.equal(refused.code, 'NOT_SUPPORTED');
  for (const chunk of [png, Buffer.alloc(0), gif]) {
    assert.deepEqual(image.feed(chunk), isGif);
    assert.deepEqual(outcome(() => error.feed(chunk)), refused);
  }
  assert.deepEqual([image.close(), image.feed(png), image.close()], [isGif, isGif, isGif]);
  assert.deepEqual([outcome(() => error.close()), outcome(() => error.feed(gif))], [refused, refused]);
});

test('after its end an input has its result, and no further bytes', () => {
  const stream = new StreamProbe();
  stream.feed(gif.subarray(0, 11));
  const refused = outcome(() => stream.close());
  assert.equal(refused.code, 'END_OF_INPUT');
  assert.deepEqual(outcome(() => stream.feed(gif.subarray(11))), refused);
});

test('an input of a known length needs no end, and has no more bytes', () => {
  const cut = (total) => outcome(() => new StreamProbe({ total }).feed(gif));
  assert.deepEqual([cut(0).code, cut(11).code, cut(12).kind, cut(13).kind], ['END_OF_INPUT', 'END_OF_INPUT', 'Gif', 'Gif']);
  assert.equal(outcome(() => new StreamProbe({ total: 0 }).feed(new Uint8Array())).code, 'END_OF_INPUT');
  for (let total = 0; total <= png.length; total += 1) {
    for (const length of [1, 5, 100]) {
      assert.deepEqual(outcome(() => streamed(chunksOf(png, length), total)), outcome(() => probe(png.subarray(0, total))), `${total}`);
    }
  }
});

test('lengths that no input has are refused', async () => {
  for (const total of [-1, 1.5, NaN, 2 ** 53, '12', null, 12n]) {
    assert.throws(() => new StreamProbe({ total }), RangeError);
    await assert.rejects(probeStream([gif], { total }), RangeError);
  }
  assert.equal(new StreamProbe({ total: 2 ** 53 - 1 }).feed(gif).width, 100);
});

test('chunks are bytes in every form', () => {
  const around = new Uint8Array([1, 2, 3, ...gif, 4, 5]);
  const shared = new SharedArrayBuffer(gif.length);
  new Uint8Array(shared).set(gif);
  for (const chunk of [gif, gif.buffer, Buffer.from(gif), shared, around.subarray(3, 15), new DataView(around.buffer, 3, 12)]) {
    const stream = new StreamProbe();
    assert.equal(stream.feed(new Uint8Array()), null);
    assert.deepEqual(stream.feed(chunk), isGif);
  }
  const views = new StreamProbe();
  for (let at = 0; at < 11; at += 1) assert.equal(views.feed(around.subarray(at + 3, at + 4)), null);
  assert.deepEqual(views.feed(around.subarray(14)), isGif);
});

test('what is no bytes is a TypeError, and is not passed', () => {
  const stream = new StreamProbe();
  stream.feed(gif.subarray(0, 6));
  for (const chunk of [undefined, null, 'd\0\x32\0\0\0', 12, [100], {}]) assert.throws(() => stream.feed(chunk), TypeError);
  assert.deepEqual(stream.feed(gif.subarray(6)), isGif);
});

test('a chunk whose buffer is used again has been read', () => {
  const buffer = new Uint8Array(1);
  const again = function* () { for (const byte of png) { buffer[0] = byte; yield buffer; } };
  assert.equal(streamed(again()).kind, 'Png');
});

test('many inputs at once keep their bytes apart', () => {
  const inputs = [gif, png, jpegBehind(2, 300), tiffBehind(900)];
  const streams = inputs.map(() => new StreamProbe());
  const found = inputs.map(() => null);
  for (let at = 0; at < 1000; at += 1) {
    streams.forEach((stream, index) => {
      found[index] = stream.feed(inputs[index].subarray(at, at + 1));
      probe(gif);
    });
  }
  assert.deepEqual(found, inputs.map((bytes) => probe(bytes)));
});

test('inputs that are never ended, and a large chunk, take no memory of the library', () => {
  const jpeg = jpegBehind(2000, 60_000);
  probe(gif);
  withGrow(assert.fail, () => {
    for (let count = 0; count < 10_000; count += 1) new StreamProbe().feed(jpeg.subarray(0, 1000));
    assert.equal(streamed([jpeg]).width, 7);
  });
});

test('many short records, byte by byte', () => {
  const before = process.cpuUsage();
  assert.equal(streamed(chunksOf(jpegBehind(100_000, 4), 1)).width, 7);
  const { user, system } = process.cpuUsage(before);
  assert.ok(user + system < 4_000_000, `${user + system} microseconds`);
});

test('streams of each form', async () => {
  const bytes = jpegBehind(4, 50000);
  const path = join(folder, 'image.jpg');
  writeFileSync(path, bytes);
  const streams = [
    new Blob([bytes]).stream(), new Response(bytes).body, createReadStream(path), Readable.from([bytes]),
    Readable.toWeb(createReadStream(path)), [bytes], chunksOf(bytes, 1000), new Set([bytes]).values(),
  ];
  for (const stream of streams) {
    const { kind, width, height, total, reads } = await probeStream(stream);
    assert.deepEqual([kind, width, height, total, reads], ['Jpeg', 7, 5, Infinity, 1]);
  }
  const ended = await probeStream([gif.subarray(0, 5)]).catch((error) => error);
  assert.deepEqual([ended.code, ended.total, ended.bytesRead, ended.reads], ['END_OF_INPUT', 5, 5, 1]);
});

test('the body of a request, to which a server replies', async () => {
  await withServer(async (request, response) => {
    const { kind } = await probeStream(request.iterator({ destroyOnReturn: false }));
    response.end(kind);
  }, async (url) => {
    const response = await fetch(url, { method: 'POST', body: png });
    assert.equal(await response.text(), 'Png');
  });
});

// All bytes of a body, or of what is left of it.
async function bodyOf(request) {
  const chunks = [];
  for await (const chunk of request) chunks.push(chunk);
  return Buffer.concat(chunks);
}

test('a request that is passed as it is stays open, and has its whole body afterwards', async () => {
  const tga = Buffer.concat([Buffer.from('000002000000000000000000070005001800', 'hex'), Buffer.alloc(7 * 5 * 3)]);
  const inputs = [gif, png, jpegBehind(40, 60_000), tga, gif.subarray(0, 11), Buffer.alloc(100_000), Buffer.alloc(0)];
  for (const bytes of inputs) {
    const streams = [bytes, Readable.toWeb(Readable.from(bytes.length ? [...chunksOf(bytes, 50_000)] : []))];
    for (const body of streams) {
      await withServer(async (request, response) => {
        const found = await lineOf(() => probeStream(request, { maxBytes: 2 ** 22 }));
        const rest = await bodyOf(request);
        response.end(`${found} ${rest.equals(bytes)}`);
      }, async (url) => {
        const response = await fetch(url, { method: 'POST', body, duplex: 'half' });
        assert.equal(await response.text(), `${await lineOf(() => probe(bytes))} true`);
      });
    }
  }
});

test('a server replies before the body has come, and the connection stays', async () => {
  await withServer(async (request, response) => {
    const { kind } = await probeStream(request, { trace: true });
    response.end(kind);
    request.resume();
  }, async (url) => {
    const socket = connect(new URL(url).port, '127.0.0.1');
    socket.setEncoding('utf8').on('error', () => {});
    for (let count = 0; count < 3; count += 1) {
      socket.write('POST / HTTP/1.1\r\nHost: a\r\nContent-Length: 100000\r\n\r\n');
      socket.write(png);
      const [reply] = await once(socket, 'data', { signal: AbortSignal.timeout(10000) });
      assert.match(reply, /^HTTP\/1\.1 200 .*Png/s);
      socket.write(Buffer.alloc(100_000 - png.length));
    }
    socket.destroy();
  });
});

test('a request that has too many bytes, stalls, is cut or was read is not destroyed by a probe', async () => {
  const found = [];
  const said = async (request, options) => {
    const { code, name } = await probeStream(request, options).catch((error) => error);
    found.push(typeof code === 'string' ? code : name);
  };
  await withServer(async (request, response, index) => {
    if (index === 1) await said(request, { maxBytes: 5 });
    if (index === 2) await said(request, { signal: AbortSignal.timeout(50) });
    if (index === 3) { request.resume(); await once(request, 'end'); await said(request); }
    response.end(String(index < 3 && request.destroyed)); // Node itself destroys a request that has ended
  }, async (url) => {
    for (const body of [gif, gif.subarray(0, 6), gif]) {
      // Of the second body no more comes.
      const socket = connect(new URL(url).port, '127.0.0.1');
      socket.write('POST / HTTP/1.1\r\nHost: a\r\nContent-Length: 12\r\n\r\n');
      socket.write(body);
      const [reply] = await once(socket, 'data', { signal: AbortSignal.timeout(10000) });
      assert.match(String(reply), /^HTTP\/1\.1 200 .*\r\n\r\nfalse$/s);
      socket.destroy();
    }
  });
  assert.deepEqual(found, ['LIMIT_REACHED', 'TimeoutError', 'END_OF_INPUT']);
});

test('of a request at most 1 MiB is stored, where a call names no other limit', async () => {
  const long = jpegBehind(30, 60_000);
  const found = [];
  await withServer(async (request, response, index) => {
    const error = await probeStream(request, index === 1 ? {} : { maxBytes: 2 ** 22 }).catch((reason) => reason);
    found.push(error.code ?? error.width, error.bytesRead <= 2 ** 20, (await bodyOf(request)).equals(long));
    response.end();
  }, async (url) => {
    for (let count = 0; count < 2; count += 1) await (await fetch(url, { method: 'POST', body: long })).text();
  });
  assert.deepEqual(found, ['LIMIT_REACHED', true, true, 7, false, true]);
  assert.equal((await probeStream([long])).width, 7); // of other streams no bytes are stored
});

test('a request or a stream that gives strings is an error that names setEncoding', async () => {
  const text = Buffer.from(gif).toString('latin1');
  await withServer(async (request, response) => {
    request.setEncoding('latin1');
    const error = await probeStream(request).catch((reason) => reason);
    let body = '';
    for await (const chunk of request) body += chunk;
    response.end(`${error.name}: ${error.message} ${body === text}`);
  }, async (url) => {
    const response = await fetch(url, { method: 'POST', body: gif });
    assert.match(await response.text(), /^TypeError: .* setEncoding .* true$/);
  });
  const path = join(folder, 'text.gif');
  writeFileSync(path, gif);
  const stream = createReadStream(path, { encoding: 'utf8' });
  await assert.rejects(probeStream(stream), { name: 'TypeError', message: /setEncoding/ });
  assert.ok(stream.destroyed);
});

test('a request whose client goes away is an error', async () => {
  const found = new Promise((resolve) => {
    withServer((request) => probeStream(request).catch(resolve), async (url) => {
      const socket = connect(new URL(url).port, '127.0.0.1').on('error', () => {});
      socket.write('POST / HTTP/1.1\r\nHost: a\r\nContent-Length: 100\r\n\r\nGIF89a');
      setTimeout(() => socket.destroy(), 50);
      await once(socket, 'close');
      await new Promise((wait) => { setTimeout(wait, 200); });
    });
  });
  assert.equal((await found).code, 'ECONNRESET');
});

test('the server in docs/CHUNKS.md stores a whole body, or refuses it', async () => {
  const page = readFileSync(new URL('../../../docs/CHUNKS.md', import.meta.url), 'utf8');
  const [, code] = /^```js\n(createServer\(.*?);\n```$/ms.exec(page);
  const path = join(folder, 'stored');
  const names = { createServer, createWriteStream, pipeline, probeStream, ImageError, path };
  const server = new Function(...Object.keys(names), `return ${code}`)(...Object.values(names)).listen(0, '127.0.0.1');
  await once(server, 'listening');
  const post = async (body) => {
    const response = await fetch(`http://127.0.0.1:${server.address().port}/`, { method: 'POST', body });
    return [response.status, await response.text()];
  };
  const jpeg = jpegBehind(4, 50000);
  assert.deepEqual(await post(jpeg), [201, 'Jpeg 7x5']);
  assert.ok(readFileSync(path).equals(jpeg));
  const large = Buffer.from('89504e470d0a1a0a0000000d494844520000ea600000ea60080200000000000000', 'hex');
  assert.equal((await post(Buffer.concat([large, Buffer.alloc(500_000)])))[0], 413);
  assert.equal((await post(Buffer.alloc(500_000)))[0], 415);
  assert.deepEqual(await post(gif), [201, 'Gif 100x50']);
  server.closeAllConnections();
  server.close();
});

test('a request of HTTP/2 stays open too', async () => {
  const server = createHttp2(async (request, response) => {
    const { kind } = await probeStream(request);
    response.end(`${kind} ${(await bodyOf(request)).equals(png)}`);
  }).listen(0, '127.0.0.1');
  await once(server, 'listening');
  const client = connectHttp2(`http://127.0.0.1:${server.address().port}`);
  const stream = client.request({ ':method': 'POST' });
  stream.end(png);
  assert.equal((await bodyOf(stream)).toString(), 'Png true');
  client.close();
  server.close();
});

// A stream that gives these chunks, and what it was cancelled with.
function cancellable(...chunks) {
  const left = [];
  const stream = new ReadableStream({
    pull(control) { if (chunks.length > 0) control.enqueue(chunks.shift()); },
    cancel(reason) { left.push(reason); },
  }, { highWaterMark: 0 });
  return { stream, left, rest: chunks };
}

test('a stream is read up to the result, and then cancelled', async () => {
  const { stream, left, rest } = cancellable(gif.subarray(0, 7), gif.subarray(7), png, png);
  const { width, bytesRead } = await probeStream(stream);
  assert.deepEqual([width, bytesRead, left.length, rest.length], [100, 12, 1, 2]);
});

test('an iterator is ended by its return', async () => {
  const left = [];
  async function* chunks(name, ...given) {
    try { yield* given; } finally { left.push(name); }
  }
  assert.equal((await probeStream(chunks('image', gif, gif))).width, 100);
  await assert.rejects(probeStream(chunks('text', 'GIF89a', gif)), TypeError);
  await assert.rejects(probeStream(chunks('short', gif), { maxBytes: 11 }), { code: 'LIMIT_REACHED' });
  function* sync() { try { yield gif; } finally { left.push('sync'); } }
  await probeStream(sync());
  assert.deepEqual(left, ['image', 'text', 'short', 'sync']);
  const throws = { [Symbol.iterator]: () => ({ next: () => ({ done: false, value: gif }), return() { throw new Error('no'); } }) };
  assert.equal((await probeStream(throws)).width, 100);
});

test('a file is closed as soon as its size is known', async () => {
  const path = join(folder, 'long.jpg');
  writeFileSync(path, jpegBehind(100, 60_000));
  const stream = createReadStream(path);
  await probeStream(stream, { maxBytes: 100 }).catch((error) => assert.equal(error.code, 'LIMIT_REACHED'));
  if (!stream.closed) await once(stream, 'close', { signal: AbortSignal.timeout(10000) });
  await assert.rejects(probeStream(createReadStream(join(folder, 'nothing'))), { code: 'ENOENT' });
});

test('an error of the stream is its own', async () => {
  const broken = new Error('broken');
  const streams = [
    new ReadableStream({ start(control) { control.enqueue(gif.subarray(0, 5)); }, pull(control) { control.error(broken); } }),
    (async function* () { yield gif.subarray(0, 5); throw broken; }()),
    Readable.from((async function* () { yield gif.subarray(0, 5); throw broken; }())),
  ];
  for (const stream of streams) await assert.rejects(probeStream(stream), (error) => error === broken);
});

test('what is no stream, and a stream that somebody else reads', async () => {
  for (const stream of [undefined, null, 12, {}, gif, 'GIF89a']) await assert.rejects(probeStream(stream), TypeError);
  const locked = new Blob([gif]).stream();
  locked.getReader();
  await assert.rejects(probeStream(locked), TypeError);
});

test('a stream that stalls is left when the caller says so', async () => {
  const reason = new Error('the page is closed');
  const awake = setInterval(() => {}, 100);
  const pass = new PassThrough();
  pass.write(gif.subarray(0, 5));
  const { stream, left } = cancellable(gif.subarray(0, 5));
  const never = { [Symbol.asyncIterator]: () => ({ next: () => new Promise(() => {}), return: () => left.push('return') }) };
  for (const stalled of [stream, pass, never]) {
    const control = new AbortController();
    setTimeout(() => control.abort(reason), 50);
    await assert.rejects(probeStream(stalled, { signal: control.signal }), (error) => error === reason);
  }
  assert.deepEqual([left, pass.destroyed], [[undefined, 'return'], true]);
  const { stream: unread, left: early, rest } = cancellable(gif);
  await assert.rejects(probeStream(unread, { signal: AbortSignal.abort(reason) }), (error) => error === reason);
  assert.deepEqual([early.length, rest.length], [1, 1]);
  clearInterval(awake);
});

test('no more is read than is allowed', async () => {
  for (const [maxBytes, code] of [[11, 'LIMIT_REACHED'], [12, undefined], [1, 'LIMIT_REACHED']]) {
    for (const length of [1, 5, 12]) {
      const { stream, left } = cancellable(...chunksOf(gif, length), ...chunksOf(png, 5));
      const found = await probeStream(stream, { maxBytes }).catch((error) => error);
      assert.deepEqual([found.code, found.bytesRead, left.length], [code, maxBytes, 1], `${length}`);
    }
  }
  for (const maxBytes of [0, -1, 4096.5, NaN, 'many']) {
    const { stream, left } = cancellable(gif);
    await assert.rejects(probeStream(stream, { maxBytes }), RangeError);
    assert.equal(left.length, 1);
  }
  const chunk = jpegBehind(1000, 4).subarray(2, 4002);
  const endless = function* () { yield jpegBehind(0, 4).subarray(0, 2); for (;;) yield chunk; };
  await assert.rejects(probeStream(endless()), { code: 'LIMIT_REACHED', bytesRead: 64 * 2 ** 20 });
});

test('a stream that ends before its length is cut short', async () => {
  const error = await probeStream([gif.subarray(0, 5)], { total: 9 }).catch((reason) => reason);
  assert.deepEqual([error.code, error.message, error.total, error.bytesRead], ['CUT_SHORT', '5 of 9 bytes came', 9, 5]);
  assert.equal((await probeStream([gif], { total: 90 })).total, 90);
});

test('with a trace the bytes are kept, and the spans are those of the table', async () => {
  for (const { bytes, spans } of worked.filter((row) => row.spans !== '?')) {
    const buffer = new Uint8Array(7);
    const again = function* () { for (const chunk of chunksOf(bytes, 7)) { buffer.set(chunk); yield buffer.subarray(0, chunk.length); } };
    const { trace } = await probeStream(again(), { trace: true }).catch((error) => error);
    assert.equal(trace.map((piece) => `${piece.start}+${piece.bytes.length}`).join(' ') || '-', spans);
    for (const { start, bytes: piece } of trace) assert.deepEqual(Buffer.from(piece), bytes.subarray(start, start + piece.length));
  }
});
