// Servers that give no ranges, cut them, lie, change what they give, or stall.

import assert from 'node:assert/strict';
import { EventEmitter, once } from 'node:events';
import { createServer } from 'node:http';
import { test } from 'node:test';
import { gzipSync } from 'node:zlib';
import { ImageError, probeUrl } from '../imagesize.js';
import { giveRange, iconOf, jpegBehind, tiffBehind, withPieces, withServer } from './support.js';

const jpeg = jpegBehind(4, 50000);

// The error of an address of this server, which comes within ten seconds.
async function refused(answer, options = {}) {
  return withServer(answer, async (url, requests) => {
    const error = await probeUrl(url, { signal: AbortSignal.timeout(10000), ...options }).then(assert.fail, (reason) => reason);
    assert.ok(requests.length <= 30, `${requests.length} requests`);
    return error;
  });
}

// Says that it gives this range, and gives these bytes.
const say = (response, range, bytes, headers = {}) => response.writeHead(206, { 'Content-Range': range, ...headers }).end(bytes);

// The code and the message of an error, without the port of the server.
const code = (error) => [error.code, error.message.replace(/127\.0\.0\.1:\d+/, 'HOST')];

// Writes bytes for as long as somebody takes them.
function writeForever(response) {
  const piece = Buffer.alloc(65536);
  const more = () => { while (response.write(piece)); };
  response.on('drain', more);
  more();
}

test('few ranges are fetched, each aligned and within the input', async () => {
  await withServer((request, response) => giveRange(request, response, jpeg), async (url, requests) => {
    const { bytesRead, ...image } = await probeUrl(url);
    assert.deepEqual(image, { kind: 'Jpeg', compression: null, width: 7, height: 5, total: jpeg.length, reads: 5 });
    assert.equal(requests.length, 5);
    let fetched = 0;
    for (const { headers } of requests) {
      const [, start, last] = /^bytes=(\d+)-(\d+)$/.exec(headers.range).map(Number);
      assert.ok(start % 4096 === 0 && last < jpeg.length);
      fetched += last + 1 - start;
    }
    assert.equal(bytesRead, fetched);
    assert.ok(fetched <= 5 * 4096);
  });
});

test('a directory at the end of two megabytes is two requests', async () => {
  const tiff = tiffBehind(2000000);
  await withServer((request, response) => giveRange(request, response, tiff), async (url) => {
    const { kind, width, height, reads, bytesRead } = await probeUrl(new URL(url));
    assert.deepEqual([kind, width, height, reads], ['Tiff', 5, 7, 2]);
    assert.ok(bytesRead <= 8192);
  });
});

test('many probes at once keep their parts apart', async () => {
  const inputs = [jpeg, tiffBehind(100000), jpegBehind(1, 60000)];
  await withServer((request, response) => giveRange(request, response, inputs[request.url.slice(-1)]), async (url) => {
    const images = await Promise.all(Array.from({ length: 30 }, (_, index) => probeUrl(`${url}${index % 3}`)));
    images.forEach(({ kind, total }, index) => {
      assert.deepEqual([kind, total], [['Jpeg', 'Tiff', 'Jpeg'][index % 3], inputs[index % 3].length]);
    });
  });
});

test('an empty input is one that ends', async () => {
  const error = await refused((request, response) => giveRange(request, response, Buffer.alloc(0)));
  assert.equal(error.code, 'END_OF_INPUT');
  assert.equal(error.total, 0);
});

test('a server that compresses its ranges is refused, and so is one that hides it', async () => {
  const icon = iconOf(...Array(40).fill(16), 256);
  const packed = gzipSync(icon);
  const known = { 'Content-Encoding': 'gzip' };
  const give = (headers, bytes) => (request, response) => {
    say(response, `bytes 0-${packed.length - 1}/${packed.length}`, bytes, headers);
  };
  for (const encoding of ['gzip', 'GZIP', 'x-unknown', 'identity, gzip']) {
    const error = await refused(give({ 'Content-Encoding': encoding }, encoding === 'x-unknown' ? icon : packed));
    assert.equal(error.code, 'CONTENT_ENCODING', encoding);
  }
  // A response of another origin does not show its encoding.
  assert.deepEqual(code(await refused(give({}, icon))), ['WRONG_RANGE', 'The server HOST gives more bytes than its range has']);
  for (const headers of [{}, { 'Content-Length': packed.length }]) {
    const error = await refused((_, response) => response.writeHead(200, { ...known, ...headers }).end(packed));
    assert.deepEqual([error.code, error.total], ['CONTENT_ENCODING', Infinity]);
  }
  const missing = await refused((_, response) => response.writeHead(404, known).end(gzipSync('nothing')));
  assert.equal(missing.code, 'HTTP_STATUS');
});

test('ranges that are said to be as they are', async () => {
  const icon = iconOf(16, 256);
  await withServer((request, response) => giveRange(request, response, icon, { 'Content-Encoding': 'identity' }), async (url) => {
    assert.equal((await probeUrl(url)).width, 256);
  });
});

test('later ranges are fetched where the first address led to', async () => {
  await withServer((request, response, index) => {
    if (request.url !== '/image') giveRange(request, response, request.url === '/first' ? jpeg : tiffBehind(70000));
    else response.writeHead(302, { Location: index === 1 ? '/first' : '/later' }).end();
  }, async (url, requests) => {
    const { kind, reads } = await probeUrl(url);
    assert.deepEqual([kind, reads], ['Jpeg', 5]);
    assert.deepEqual(requests.map((request) => request.url), ['/image', ...Array(5).fill('/first')]);
  });
});

test('a later range that leads elsewhere changes no address', async () => {
  await withServer((request, response, index) => {
    if (index === 2) response.writeHead(302, { Location: '/moved' }).end();
    else giveRange(request, response, jpeg);
  }, async (url, requests) => {
    assert.equal((await probeUrl(url)).width, 7);
    assert.deepEqual(requests.map((request) => request.url), ['/image', '/image', '/moved', ...Array(3).fill('/image')]);
  });
});

test('a server without ranges is read up to the answer, and then left', async () => {
  const front = jpegBehind(1, 60000);
  for (const headers of [{}, { 'Content-Length': 10_000_000 }]) {
    const leaving = new EventEmitter();
    await withServer((_, response) => {
      response.on('close', () => leaving.emit('close'));
      response.writeHead(200, headers);
      response.write(front);
      writeForever(response);
    }, async (url, requests) => {
      const closed = once(leaving, 'close', { signal: AbortSignal.timeout(10000) });
      const { kind, width, total, reads, bytesRead, trace } = await probeUrl(url, { trace: true });
      assert.deepEqual([kind, width, total, reads], ['Jpeg', 7, headers['Content-Length'] ?? Infinity, 1]);
      assert.ok(bytesRead >= 60011 && bytesRead < 300_000, `${bytesRead} bytes`);
      assert.deepEqual(trace.at(-1), { start: 60009, bytes: new Uint8Array([0, 7]) });
      await closed;
      assert.equal(requests.length, 1);
    });
  }
});

test('what came of a whole is enough, though the server stalls', async () => {
  await withServer((_, response) => response.writeHead(200).write(jpegBehind(0, 4).subarray(0, 13)), async (url) => {
    const { width, height, bytesRead } = await probeUrl(url, { signal: AbortSignal.timeout(10000) });
    assert.deepEqual([width, height, bytesRead], [7, 5, 13]);
  });
});

test('each byte of a whole is passed once', async () => {
  await withPieces(jpegBehind(40_000, 4), 1, {}, async (url) => {
    const before = process.cpuUsage();
    const { width, bytesRead } = await probeUrl(url);
    assert.equal(width, 7);
    assert.ok(bytesRead >= 160_011, `${bytesRead} bytes`);
    const { user, system } = process.cpuUsage(before);
    assert.ok(user + system < 12_000_000, `${user + system} microseconds`);
  });
});

test('the length of what may be compressed is not that of the input', async () => {
  const icon = iconOf(...Array(40).fill(16), 256);
  const headers = { 'Content-Length': gzipSync(icon).length };
  await withPieces(icon, 16, { headers, type: 'cors' }, async (url) => {
    const { width, total } = await probeUrl(url);
    assert.deepEqual([width, total], [256, Infinity]);
  });
});

test('a whole is read no further than is allowed', async () => {
  const endless = (headers) => (_, response) => {
    response.writeHead(200, headers);
    response.write(tiffBehind(50_000_000).subarray(0, 5000));
    writeForever(response);
  };
  const limited = await refused(endless({}));
  assert.deepEqual([limited.code, limited.bytesRead], ['LIMIT_REACHED', 2 ** 20]);
  assert.equal((await refused(endless({}), { maxBytes: 7 })).bytesRead, 7);
  const early = await refused(endless({ 'Content-Length': 50_000_030 }));
  assert.deepEqual([early.code, early.bytesRead, early.total], ['LIMIT_REACHED', 2 ** 20, 50_000_030]);
});

test('a whole that is cut short is refused', async () => {
  for (const headers of [{}, { 'Content-Length': 60000 }]) {
    const error = await refused((_, response) => {
      response.writeHead(200, headers);
      response.write(jpeg.subarray(0, 100));
      setTimeout(() => response.destroy(), 50);
    });
    assert.equal(error.code, 'CUT_SHORT');
    assert.match(error.message, /^100 (of 60000 )?bytes came/);
  }
  const ended = await refused((_, response) => response.writeHead(200).end(jpeg.subarray(0, 100)));
  assert.deepEqual([ended.code, ended.total], ['END_OF_INPUT', 100]);
  assert.equal((await refused((_, response) => response.writeHead(200).end())).total, 0);
});

test('a server that gives ranges and then the whole is refused', async () => {
  const error = await refused((request, response, index) => {
    if (index < 2) giveRange(request, response, jpeg);
    else response.writeHead(200).end(jpeg);
  });
  assert.deepEqual([error.code, error.reads], ['NO_RANGES', 1]);
});

test('a server that answers another status is refused by it', async () => {
  const error = await refused((_, response) => response.writeHead(404).end('nothing'));
  assert.equal(error.code, 'HTTP_STATUS');
  assert.equal(error.status, 404);
  const late = await refused((request, response, index) => {
    if (index < 3) giveRange(request, response, jpeg);
    else response.writeHead(503).end();
  });
  assert.deepEqual([late.code, late.status, late.reads], ['HTTP_STATUS', 503, 2]);
});

test('a range that is cut short is refused', async () => {
  const cuts = [
    (response) => say(response, `bytes 0-99/${jpeg.length}`, jpeg.subarray(0, 100)),
    (response) => say(response, `bytes 0-99/${jpeg.length}`, jpeg.subarray(0, 4096)),
    (response) => say(response, `bytes 0-4095/${jpeg.length}`, jpeg.subarray(0, 100)),
    (response) => {
      response.writeHead(206, { 'Content-Range': `bytes 0-4095/${jpeg.length}`, 'Content-Length': 4096 });
      response.write(jpeg.subarray(0, 100));
      setTimeout(() => response.destroy(), 50);
    },
  ];
  for (const cut of cuts) {
    const error = await refused((_, response) => cut(response));
    assert.equal(error.code, 'CUT_SHORT');
    assert.match(error.message, /^100 of 4096 bytes/);
  }
});

test('another range than the one that was asked for is refused', async () => {
  for (const range of [`bytes 4096-8191/${jpeg.length}`, `bytes 0-8191/${jpeg.length}`, 'bytes 0-4095/50']) {
    assert.equal((await refused((_, response) => say(response, range, jpeg.subarray(0, 4096)))).code, 'WRONG_RANGE', range);
  }
  // The first block would have the size, and the range says that it is longer.
  const short = Buffer.concat([jpegBehind(0, 4), Buffer.alloc(8192)]);
  const longer = await refused((_, response) => say(response, `bytes 0-8191/${short.length}`, short.subarray(0, 4096)));
  assert.equal(longer.code, 'WRONG_RANGE');
});

const ODD = ['bytes 0-4095/*', 'bytes 0-4095/99999999999999999999', 'pages 0-4095/9999', ''];

test('a range of which nothing is told is refused, if there is no whole either', async () => {
  for (const range of ODD) {
    const error = await refused((_, response) => say(response, range, jpeg.subarray(0, 4096)));
    assert.deepEqual(code(error), ['NO_CONTENT_RANGE', `The server HOST gives the odd Content-Range "${range}"`]);
  }
  const hidden = await refused((_, response) => response.writeHead(206).end(jpeg.subarray(0, 4096)));
  assert.match(hidden.message, /^The server .* does not tell this origin, by Content-Range, which bytes it gives$/);
  const gone = await refused((request, response) => {
    if (request.headers.range) say(response, 'bytes 0-4095/*', jpeg.subarray(0, 4096));
    else response.writeHead(403).end();
  });
  assert.deepEqual([gone.code, gone.status], ['HTTP_STATUS', 403]);
  const late = await refused((request, response, index) => {
    if (index === 1) giveRange(request, response, jpeg);
    else say(response, 'bytes 0-4095/*', jpeg.subarray(0, 4096));
  });
  assert.deepEqual([late.code, late.reads], ['NO_CONTENT_RANGE', 1]);
});

test('a server whose ranges are odd, or not exposed, is asked for the whole', async () => {
  for (const range of [...ODD, undefined]) {
    await withServer((request, response) => {
      if (!request.headers.range) response.writeHead(200).end(jpeg);
      else response.writeHead(206, range === undefined ? {} : { 'Content-Range': range }).end(jpeg.subarray(0, 4096));
    }, async (url, requests) => {
      const { kind, width, reads, bytesRead } = await probeUrl(url, { signal: AbortSignal.timeout(10000) });
      assert.deepEqual([kind, width, reads, requests.length], ['Jpeg', 7, 1, 2], range);
      assert.ok(bytesRead >= 200_011 && bytesRead <= jpeg.length);
    });
  }
});

test('a 206 with the whole, and a 203, are read up to the answer', async () => {
  const wholes = [
    (response) => say(response, `bytes 0-${jpeg.length - 1}/${jpeg.length}`, jpeg, { 'Content-Length': jpeg.length }),
    (response) => response.writeHead(203, { 'Content-Length': jpeg.length }).end(jpeg),
  ];
  for (const whole of wholes) {
    await withServer((_, response) => whole(response), async (url, requests) => {
      const { width, reads, total } = await probeUrl(url);
      assert.deepEqual([width, reads, total, requests.length], [7, 1, jpeg.length, 1]);
    });
  }
});

test('a body that goes on for ever behind its range is refused, and left', async () => {
  const leaving = new EventEmitter();
  const closed = once(leaving, 'close', { signal: AbortSignal.timeout(10000) });
  await withServer((_, response) => {
    response.on('close', () => leaving.emit('close'));
    response.writeHead(206, { 'Content-Range': 'bytes 0-4095/4096' });
    response.write(jpegBehind(0, 4));
    writeForever(response);
  }, async (url) => {
    await assert.rejects(probeUrl(url), { code: 'WRONG_RANGE' });
    // The server closes its connections after this, so the client has to leave first.
    await closed;
  });
});

test('an input that changes between two ranges is refused', async () => {
  const versions = {
    ETag: (index) => `"${Math.min(index, 2)}"`,
    'Last-Modified': (index) => new Date(index * 1000).toUTCString(),
  };
  for (const [header, version] of Object.entries(versions)) {
    const error = await refused((request, response, index) => giveRange(request, response, jpeg, { [header]: version(index) }));
    assert.deepEqual([error.code, error.reads], ['CHANGED', 1]);
  }
  for (const length of [jpeg.length - 1, 5000, 0]) {
    const shorter = jpeg.subarray(0, length);
    const shrunk = await refused((request, response, index) => giveRange(request, response, index < 2 ? jpeg : shorter));
    assert.equal(shrunk.code, 'CHANGED', `${length} bytes`);
  }
});

test('a server that stalls is left when the caller says so', async () => {
  const stalls = [
    () => {},
    (response) => response.writeHead(206, { 'Content-Range': `bytes 0-4095/${jpeg.length}` }).write(jpeg.subarray(0, 100)),
  ];
  for (const stall of stalls) {
    const late = await refused((_, response) => stall(response), { signal: AbortSignal.timeout(200) });
    assert.equal(late.name, 'TimeoutError');
    const control = new AbortController();
    setTimeout(() => control.abort(new Error('the page is closed')), 100);
    const closed = await refused((_, response) => stall(response), { signal: control.signal });
    assert.equal(closed.message, 'the page is closed');
  }
});

test('no more is read than is allowed, however the input goes on', async () => {
  // Segments without end, four bytes each, so that no block tells the size.
  const endless = (request, response) => {
    const [, start, last] = /^bytes=(\d+)-(\d+)$/.exec(request.headers.range).map(Number);
    const bytes = Buffer.alloc(last + 3, Buffer.from([0xff, 0xe1, 0, 2])).subarray(start + 2);
    if (start === 0) bytes.set([0xff, 0xd8]);
    say(response, `bytes ${start}-${last}/1000000000000`, bytes);
  };
  const error = await refused(endless);
  assert.equal(error.code, 'LIMIT_REACHED');
  assert.ok(error.bytesRead <= 2 ** 20 && error.reads === 23, `${error.bytesRead} bytes in ${error.reads} reads`);
  const early = await refused(endless, { maxBytes: 5000 });
  assert.deepEqual([early.code, early.bytesRead], ['LIMIT_REACHED', 5000]);
});

test('no server, and no address', async () => {
  const server = createServer();
  await new Promise((resolve) => server.listen(0, '127.0.0.1', resolve));
  const { port } = server.address();
  await new Promise((resolve) => server.close(resolve));
  const error = await probeUrl(`http://127.0.0.1:${port}/`).then(assert.fail, (reason) => reason);
  assert.ok(error instanceof ImageError);
  assert.equal(error.code, 'UNREACHABLE');
  const said = `The server 127.0.0.1:${port} gives no answer, or none that this origin may read: connect ECONNREFUSED 127.0.0.1:${port}`;
  assert.equal(error.message, said);
  assert.ok(error.cause instanceof Error);
  const nowhere = await probeUrl('http://nowhere.invalid/').catch((reason) => reason);
  assert.match(nowhere.message, /^The server nowhere\.invalid gives no answer, .*: getaddrinfo E/);
  await assert.rejects(probeUrl('no address'), TypeError);
});
