// Every test vector, by each call, has the result of the table.

import assert from 'node:assert/strict';
import { mkdtemp, rm, writeFile } from 'node:fs/promises';
import { tmpdir } from 'node:os';
import { join } from 'node:path';
import { test } from 'node:test';
import { probe, probeBlob, probeFile, probeUrl, spans } from '../imagesize.js';
import { beginsPng } from '../library.js';
import { library } from '../load.js';
import { giveRange, jpegBehind, lineOf, withPieces, withServer, worked } from './support.js';

test('from bytes', async () => {
  for (const { bytes, line } of worked) assert.equal(await lineOf(() => probe(bytes)), line);
});

// The image by a probe over spans, which is passed so many bytes of each requested span, and the number of rounds. Each span begins
// after the last one.
function inRounds(bytes, most) {
  const state = library().roundsOf(bytes.length);
  let answer = library().supply(state, 0, new Uint8Array());
  let rounds = 0;
  for (let before = -1; answer.wanted; rounds += 1) {
    const { start, len } = answer.wanted;
    assert.ok(start > before && len > 0 && start + len <= bytes.length);
    before = start;
    answer = library().supply(state, start, bytes.subarray(start, start + Math.min(len, most)));
  }
  if (answer.error) throw answer.error;
  return { ...answer.image, rounds };
}

test('in rounds, each with the requested span or with its first byte', async () => {
  for (const { bytes, line } of worked.filter((row) => !beginsPng(row.bytes))) {
    for (const most of [Infinity, 1]) assert.equal(await lineOf(() => inRounds(bytes, most)), line);
  }
});

test('records that are far apart take at most two rounds each', () => {
  for (const records of [10, 100]) assert.ok(inRounds(jpegBehind(records, 60000), Infinity).rounds <= 2 * records + 4);
});

test('their spans', () => {
  for (const { bytes, spans: wanted } of worked.filter((row) => row.spans !== '?')) {
    assert.equal(spans(bytes).map(({ start, len }) => `${start}+${len}`).join(' ') || '-', wanted);
  }
});

test('from blobs', async () => {
  for (const { bytes, line } of worked) assert.equal(await lineOf(() => probeBlob(new Blob([bytes]))), line);
});

test('from files', async () => {
  const folder = await mkdtemp(join(tmpdir(), 'imagesize-'));
  try {
    for (const { bytes, line } of worked) {
      await writeFile(join(folder, 'image'), bytes);
      assert.equal(await lineOf(() => probeFile(join(folder, 'image'))), line);
    }
  } finally {
    await rm(folder, { recursive: true });
  }
});

test('from a server', async () => {
  let served;
  await withServer((request, response) => giveRange(request, response, served, { ETag: '"1"' }), async (url) => {
    for (const { bytes, line } of worked) {
      served = bytes;
      assert.equal(await lineOf(() => probeUrl(url)), line);
    }
  });
});

test('from a server without ranges, in pieces, with and without a length', async () => {
  for (const { bytes, line } of worked) {
    for (const length of [1, 7, 4096]) {
      for (const headers of [{}, { 'Content-Length': bytes.length }]) {
        await withPieces(bytes, length, { headers }, async (url) => assert.equal(await lineOf(() => probeUrl(url)), line));
      }
    }
  }
});

test('what such a server gives first is enough, and its trace the same', async () => {
  for (const { bytes, line, spans: wanted } of worked.filter((row) => row.spans !== '?')) {
    await withPieces(bytes, 1, {}, async (url) => {
      const { trace, bytesRead } = await probeUrl(url, { trace: true }).catch((error) => error);
      assert.equal(trace.map((piece) => `${piece.start}+${piece.bytes.length}`).join(' ') || '-', wanted, line);
      assert.ok(bytesRead <= bytes.length);
    });
  }
});

test('the trace of a blob has these spans and their bytes', async () => {
  for (const { bytes, spans: wanted } of worked.filter((row) => row.spans !== '?')) {
    const { trace } = await probeBlob(new Blob([bytes]), { trace: true }).catch((error) => error);
    assert.equal(trace.map((piece) => `${piece.start}+${piece.bytes.length}`).join(' ') || '-', wanted);
    for (const { start, bytes: piece } of trace) {
      assert.deepEqual(Buffer.from(piece), bytes.subarray(start, start + piece.length));
    }
  }
});
