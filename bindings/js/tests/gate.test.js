// The example of an upload gate: what it refuses before it has come, and what it stores.

import assert from 'node:assert/strict';
import { once } from 'node:events';
import { mkdtempSync, readFileSync, readdirSync, rmSync } from 'node:fs';
import { request } from 'node:http';
import { connect } from 'node:net';
import { tmpdir } from 'node:os';
import { join } from 'node:path';
import { test } from 'node:test';
import { gate } from '../examples/gate.mjs';
import { jpegBehind } from './support.js';

// The head of a PNG of 60,000 by 60,000 pixels.
const large = Buffer.from('89504e470d0a1a0a0000000d494844520000ea600000ea60080200000000000000', 'hex');

// Runs `use` with the port of a gate, and with the folder where it stores images.
async function withGate(use) {
  const folder = mkdtempSync(join(tmpdir(), 'imagesize-gate-'));
  const server = gate(folder).listen(0, '127.0.0.1');
  await once(server, 'listening');
  try {
    await use(server.address().port, folder);
  } finally {
    server.closeAllConnections();
    server.close();
    rmSync(folder, { recursive: true });
  }
}

const post = (port, body) => fetch(`http://127.0.0.1:${port}/`, { method: 'POST', body });

test('a client that sends the head of a large image, and never the rest, is refused and left', async () => {
  await withGate(async (port, folder) => {
    const socket = connect(port, '127.0.0.1');
    const signal = AbortSignal.timeout(10000);
    socket.write('POST / HTTP/1.1\r\nHost: gate\r\nContent-Length: 500000000\r\n\r\n');
    socket.write(large.subarray(0, 15));
    setTimeout(() => socket.write(large.subarray(15, 24)), 50);
    let reply = '';
    socket.setEncoding('utf8').on('data', (text) => { reply += text; });
    await once(socket, 'end', { signal });
    assert.match(reply, /^HTTP\/1\.1 413 .*\r\nConnection: close\r\n.*60000x60000 are too many pixels$/s);
    assert.deepEqual(readdirSync(folder), []);
  });
});

test('a client that sends on gets its refusal too', async () => {
  await withGate(async (port) => {
    const sent = request({ port, host: '127.0.0.1', method: 'POST', headers: { 'Content-Length': 500_000_000 } });
    const piece = Buffer.alloc(65536);
    const more = () => { while (!sent.destroyed && sent.write(piece)); };
    sent.on('drain', more).on('error', () => {});
    sent.write(large);
    more();
    const [response] = await once(sent, 'response', { signal: AbortSignal.timeout(10000) });
    assert.equal(response.statusCode, 413);
    sent.destroy();
  });
});

test('an image is stored, and what is none is not', async () => {
  await withGate(async (port, folder) => {
    const jpeg = jpegBehind(4, 50000);
    const stored = await post(port, jpeg);
    assert.deepEqual([stored.status, await stored.text()], [201, 'Jpeg 7x5']);
    const [name] = readdirSync(folder);
    assert.ok(readFileSync(join(folder, name)).equals(jpeg));
    for (const body of [jpeg.subarray(0, 100), Buffer.alloc(100), Buffer.alloc(0), undefined]) {
      assert.equal((await post(port, body)).status, 415);
    }
    assert.deepEqual(readdirSync(folder), [name]);
  });
});
