// PNG is tried first: whole inputs, cut ones, and others that begin like one.

import assert from 'node:assert/strict';
import { spawnSync } from 'node:child_process';
import { mkdtempSync, rmSync, writeFileSync } from 'node:fs';
import { tmpdir } from 'node:os';
import { join } from 'node:path';
import { after, test } from 'node:test';
import { ImageError, probe, probeBlob, probeFile, spans } from '../imagesize.js';

const folder = mkdtempSync(join(tmpdir(), 'imagesize-'));
after(() => rmSync(folder, { recursive: true }));

// The signature, the image header of an image of 640 by 480, and bytes after it.
const png = Buffer.concat([
  Buffer.from('\x89PNG\r\n\x1a\n\0\0\0\x0dIHDR\0\0\x02\x80\0\0\x01\xe0\x08\0\0\0\0', 'latin1'), Buffer.alloc(9000),
]);
const image = { kind: 'Png', compression: null, width: 640, height: 480 };
const read = [{ start: 0, len: 8 }, { start: 16, len: 4 }, { start: 20, len: 4 }];

const refusedBy = (code, kind) => (error) => error instanceof ImageError && error.code === code && (error.kind ?? null) === kind;

test('bytes, blobs and files that are PNG', async () => {
  const path = join(folder, 'image.png');
  writeFileSync(path, png);
  assert.deepEqual(probe(png), image);
  assert.deepEqual(probe(png.subarray(0, 24)), image);
  assert.deepEqual(spans(png), read);
  const trace = read.map(({ start, len }) => ({ start, bytes: new Uint8Array(png.subarray(start, start + len)) }));
  for (const call of [probeBlob(new Blob([png]), { trace: true }), probeFile(path, { trace: true })]) {
    assert.deepEqual(await call, { ...image, total: png.length, reads: 1, bytesRead: 4096, trace });
  }
  const { bytesRead } = await probeBlob(new Blob([png]), { maxBytes: 24 });
  assert.equal(bytesRead, 24);
  await assert.rejects(probeBlob(new Blob([png]), { maxBytes: 23 }), refusedBy('LIMIT_REACHED', null));
  assert.throws(() => spans(png, { limit: 2 }), refusedBy('TOO_MANY_SPANS', null));
});

test('a PNG that is cut ends before its size', () => {
  for (let length = 0; length < 24; length += 1) {
    assert.throws(() => probe(png.subarray(0, length)), refusedBy('END_OF_INPUT', length >= 8 ? 'Png' : null), String(length));
  }
  assert.deepEqual(spans(png.subarray(0, 22)), [read[0], read[1], { start: 20, len: 2 }]);
});

test('others with a part of the signature are none', () => {
  for (const front of ['\x89PNG\r\n\x1a\r', '\x89PNG\n\x1a\n\0', '\x89PNGfile', '\x09PNG\r\n\x1a\n', '\x8aMNG\r\n\x1a\n', '\x8bJNG\r\n\x1a\n']) {
    const bytes = Buffer.concat([Buffer.from(front, 'latin1'), png.subarray(8)]);
    assert.throws(() => probe(bytes), refusedBy('NOT_SUPPORTED', null), front);
  }
});

test('files of encoders', () => {
  const bitmap = Buffer.concat([Buffer.from('P6 7 5 255\n'), Buffer.alloc(3 * 7 * 5, 200)]);
  for (const [program, ...words] of [['pnmtopng'], ['/usr/bin/convert', 'pnm:-', 'png:-']]) {
    const { status, stdout } = spawnSync(program, words, { input: bitmap });
    if (status === 0) assert.deepEqual(probe(stdout), { ...image, width: 7, height: 5 }, program);
  }
});
