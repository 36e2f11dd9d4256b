// What callers may pass, what they may do wrong, and what a call leaves in memory.

import assert from 'node:assert/strict';
import { execFileSync } from 'node:child_process';
import { mkdtempSync, readFileSync, readdirSync, rmSync, truncateSync, writeFileSync } from 'node:fs';
import { open } from 'node:fs/promises';
import { tmpdir } from 'node:os';
import { join } from 'node:path';
import { after, test } from 'node:test';
import { fileURLToPath } from 'node:url';
import { Worker } from 'node:worker_threads';
import { ImageError, probe, probeBlob, probeFile, probeFileSync, spans } from '../imagesize.js';
import { Library, PNG_SIGNATURE, blockAfter } from '../library.js';
import { library } from '../load.js';
import { firstBlock, nextBlock } from '../parts.js';
import { iconOf, jpegBehind, tiffBehind, withGrow } from './support.js';

const gif = new TextEncoder().encode('GIF89ad\0\x32\0\0\0');
const isGif = (image) => assert.deepEqual(image, { kind: 'Gif', compression: null, width: 100, height: 50 });
const module = new URL('../imagesize.js', import.meta.url).href;
const folder = mkdtempSync(join(tmpdir(), 'imagesize-'));
after(() => rmSync(folder, { recursive: true }));

// The error that a call throws, which is an ImageError of this code.
function refused(call, code) {
  try {
    call();
  } catch (error) {
    assert.ok(error instanceof ImageError, String(error));
    assert.equal(error.code, code);
    return error;
  }
  return assert.fail('nothing was thrown');
}

test('bytes in every form', () => {
  const around = new Uint8Array([1, 2, 3, ...gif, 4, 5]);
  const shared = new SharedArrayBuffer(gif.length);
  new Uint8Array(shared).set(gif);
  const views = [around.subarray(3, 15), new DataView(around.buffer, 3, 12), new Uint16Array(gif.buffer)];
  for (const bytes of [gif, gif.buffer, Buffer.from(gif), shared, ...views]) {
    isGif(probe(bytes));
    assert.equal(spans(bytes).length, 3);
  }
});

test('what is no bytes is a TypeError', () => {
  for (const bytes of [undefined, null, 'GIF89a', 12, [71, 73, 70], {}, { length: 12, byteLength: 12 }, new Blob([gif])]) {
    assert.throws(() => probe(bytes), TypeError);
    assert.throws(() => spans(bytes), TypeError);
  }
  isGif(probe(gif));
});

test('a refusal has a code, a text and the type that was found', () => {
  const short = refused(() => probe(gif.subarray(0, 10)), 'END_OF_INPUT');
  assert.deepEqual([short.name, short.kind, short.message], ['ImageError', null, 'failed to fill whole buffer']);
  const cut = Buffer.from('00000010667479706176696600000000000000396d657461', 'hex');
  const { kind, compression } = refused(() => probe(cut), 'END_OF_INPUT');
  assert.deepEqual([kind, compression], ['Heif', 'Av1']);
  assert.equal(Object.prototype.propertyIsEnumerable.call(short, 'name'), false);
});

test('a side is exact, or refused', () => {
  assert.equal(probe(Buffer.from(`P1 ${2 ** 53 - 1} 7\n0`)).width, Number.MAX_SAFE_INTEGER);
  assert.equal(refused(() => probe(Buffer.from(`P1 7 ${2 ** 53}\n0`)), 'SIDE_TOO_LARGE').kind, 'Pnm');
});

test('what may surprise is as the README says', () => {
  const bmp = (...header) => Buffer.concat([Buffer.from('BM'), Buffer.alloc(12), Buffer.from(header.flat()), Buffer.alloc(40)]);
  const sides = (bytes) => { const { width, height } = probe(bytes); return [width, height]; };
  assert.deepEqual(sides(bmp([40, 0, 0, 0], [100, 0, 0, 0], [206, 255, 255, 255])), [100, 2 ** 32 - 50]);
  assert.notDeepEqual(sides(bmp([12, 0, 0, 0], [100, 0], [50, 0], [1, 0], [24, 0])), [100, 50]);
  const orientation = Buffer.from('ffd8ffe1002245786966000049492a000800000001001201030001000000' + '0600000000000000', 'hex');
  const turned = Buffer.concat([orientation, jpegBehind(0, 4).subarray(2)]);
  assert.deepEqual(sides(turned), [7, 5]);
  const mp4 = Buffer.from('0000001c6674797069736f6d0000020069736f6d69736f326d7034310000006c6d6f6f760000' + '00'.repeat(98), 'hex');
  assert.throws(() => probe(mp4), { kind: 'Heif' });
  assert.deepEqual(sides(iconOf(16, 256, 48)), [256, 256]);
  const animation = Buffer.from('52494646340000005745425056503858' + '0a00000002000000630000310000414e494d' + '00'.repeat(26), 'hex');
  assert.deepEqual(probe(animation), { kind: 'Webp', compression: null, width: 100, height: 50 });
});

test('large bytes are answered by a few blocks of them, and no memory grows', () => {
  const tiff = tiffBehind(50_000_000);
  withGrow(assert.fail, () => assert.deepEqual(probe(tiff), { kind: 'Tiff', compression: null, width: 5, height: 7 }));
});

test('which bytes are read next', () => {
  const known = (reads, length) => ({ reads, length });
  const next = (...all) => { const { start, end } = nextBlock(...all); return [start, end]; };
  const far = { start: 1_000_000, len: 4 };
  assert.deepEqual(firstBlock(Infinity), { start: 0, end: 4096 });
  assert.deepEqual(firstBlock(4095), { start: 0, end: 4095 });
  for (const [reads, blocks] of [[1, 1], [15, 1], [16, 2], [17, 4], [20, 32]]) {
    assert.deepEqual(next(far, Infinity, known(reads, 0), Infinity), [999_424, 999_424 + 4096 * blocks], `${reads} blocks were read`);
  }
  assert.deepEqual(next({ start: 8190, len: 4 }, Infinity, known(1, 0), Infinity), [4096, 12_288]);
  assert.deepEqual(next(far, 1_000_100, known(1, 0), Infinity), [999_424, 1_000_100]);
  assert.deepEqual(next(far, Infinity, known(1, 4096), 4096 + 577), [999_424, 1_000_001]);
  assert.throws(() => next(far, Infinity, known(1, 4096), 4096 + 576), { code: 'LIMIT_REACHED' });
});

const header = readFileSync(new URL('../../../include/imagesize.h', import.meta.url), 'utf8');
const [STREAM_SIZE, ROUNDS_SIZE] = ['STREAM', 'ROUNDS']
  .map((name) => Number(new RegExp(`^#define IMAGESIZE_${name}_SIZE (\\d+)`, 'm').exec(header)[1]));

// The buffers that a call of the library is passed: where each begins, how many bytes it has, and how it is aligned.
const BUFFERS = {
  imagesize_rounds_new: ([parts]) => [[parts, ROUNDS_SIZE, 8]],
  imagesize_rounds_supply: ([parts, , bytes, length]) => [[parts, ROUNDS_SIZE, 8], [bytes, length, 1]],
  imagesize_rounds_answer: ([parts, type, compression, width, height, wanted]) => [
    [parts, ROUNDS_SIZE, 8], [type, 4, 4], [compression, 4, 4], [width, 8, 8], [height, 8, 8], [wanted, 16, 8],
  ],
  imagesize_png_parts_size: ([bytes, length, parts, count, , width, height, wanted]) => [
    [bytes, length, 1], [parts, 16 * count, 8], [width, 8, 8], [height, 8, 8], [wanted, 16, 8],
  ],
  imagesize_spans: ([bytes, length, found, room, count]) => [[bytes, length, 1], [found, 16 * room, 8], [count, 8, 8]],
  imagesize_stream_new: ([stream]) => [[stream, STREAM_SIZE, 8]],
  imagesize_stream_push: ([stream, bytes, length, type, compression, width, height]) => [
    [stream, STREAM_SIZE, 8], [bytes, length, 1], [type, 4, 4], [compression, 4, 4], [width, 8, 8], [height, 8, 8],
  ],
  imagesize_stream_finish: ([stream, type, compression, width, height]) => [
    [stream, STREAM_SIZE, 8], [type, 4, 4], [compression, 4, 4], [width, 8, 8], [height, 8, 8],
  ],
};

test('what the library is passed is aligned, apart, and within its memory', () => {
  const compiled = new WebAssembly.Module(readFileSync(new URL('../out/imagesize.wasm', import.meta.url)));
  const { exports } = new WebAssembly.Instance(compiled);
  const passed = [];
  const noted = (name) => (...numbers) => {
    const buffers = BUFFERS[name](numbers.map(Number)).filter(([, length]) => length > 0).sort(([a], [b]) => a - b);
    const ends = [Number(exports.__heap_base.value), ...buffers.map(([start, length]) => start + length)];
    buffers.forEach(([start, , alignment], index) => assert.ok(start >= ends[index] && start % alignment === 0, `${name} ${buffers}`));
    assert.ok(ends.at(-1) <= exports.memory.buffer.byteLength, `${name} ${buffers}`);
    passed.push(numbers.map(Number));
    return exports[name](...numbers);
  };
  const wrapped = Object.fromEntries(Object.keys(BUFFERS).map((name) => [name, noted(name)]));
  const library = new Library(compiled, { exports: { ...exports, ...wrapped } });
  const rounds = library.roundsOf(200_000);
  assert.equal(rounds.length, ROUNDS_SIZE);
  assert.deepEqual(library.supply(rounds, 0, gif.subarray(0, 5)), { wanted: { start: 5, len: 13 } });
  const [[, total], [, offset, , given]] = passed.splice(0);
  assert.deepEqual([total, offset, given], [200_000, 0, 5]);
  const long = Buffer.concat([gif, Buffer.alloc(140_000)]);
  isGif(library.supply(rounds, 0, long).image);
  // Only the first call for a type writes its name into the memory. Both calls leave the same state.
  const again = library.roundsOf(200_000);
  for (const bytes of [gif.subarray(0, 5), long]) library.supply(again, 0, bytes);
  assert.deepEqual(rounds, again);
  assert.deepEqual(passed.splice(0).slice(0, 3).map(([, at, , length]) => [at, length]), [[0, 65536], [65536, 65536], [131072, 8940]]);
  assert.deepEqual(library.probePng(Uint8Array.of(...PNG_SIGNATURE, 0, 0), 40), { wanted: { start: 16, len: 4 } });
  assert.deepEqual(passed.splice(0).map(([, length, , count, whole]) => [length, count, whole]), [[10, 1, 40]]);
  assert.equal(library.spans(gif, 3).length, 3);
  assert.deepEqual(passed.map(([, length, , room]) => [length, room]), [[12, 0], [12, 3]]);
  const state = library.streamOf(Infinity);
  assert.equal(state.length, STREAM_SIZE);
  assert.equal(library.push(state, gif.subarray(0, 5)), null);
  isGif(library.push(state, gif.subarray(5)).image);
  isGif(library.finish(state).image);
  assert.deepEqual(passed.splice(2).map(([, , length]) => length).slice(1, 3), [5, 7]);
  // These bytes reach to the end of the memory.
  const full = new Uint8Array(exports.memory.buffer.byteLength - passed[0][0]);
  full.set(gif);
  assert.equal(library.spans(full, 3).length, 3);
});

test('an array is passed by blocks that grow, and after bytes that do not matter by a short block', () => {
  const compiled = new WebAssembly.Module(readFileSync(new URL('../out/imagesize.wasm', import.meta.url)));
  const { exports } = new WebAssembly.Instance(compiled);
  const passed = [];
  const noted = (...numbers) => {
    passed.push([Number(numbers[1]), Number(numbers[3])]);
    return exports.imagesize_rounds_supply(...numbers);
  };
  const library = new Library(compiled, { exports: { ...exports, imagesize_rounds_supply: noted } });
  assert.equal(library.probe(jpegBehind(1000, 200)).image.width, 7);
  assert.deepEqual(passed.map(([, length]) => length).slice(0, 6), [4096, 8192, 16_384, 32_768, 65_536, 65_536]);
  passed.length = 0;
  assert.equal(library.probe(Buffer.concat([tiffBehind(50_000_000), Buffer.alloc(100_000)])).image.width, 5);
  assert.deepEqual(passed, [[0, 4096], [50_000_000, 4096]]);
});

test('comments and lines that go on in the next block, and a footer after the first', () => {
  const tga = Buffer.alloc(10_026);
  tga.set([0, 0, 2, 0, 0, 0, 0, 0, 0, 0, 0, 0, 7, 0, 5, 0, 24]);
  tga.write('TRUEVISION-XFILE.\0', 10_008);
  const inputs = {
    Pnm: Buffer.from(`P6\n${`#${'c'.repeat(900)}\n`.repeat(50)}7 5\n255\n`),
    Hdr: Buffer.from(`#?RADIANCE\n${`${'a'.repeat(99)}\n`.repeat(1000)}-Y 5 +X 7\n`),
    Tga: tga,
  };
  for (const [kind, bytes] of Object.entries(inputs)) {
    const { kind: found, width, height } = probe(bytes);
    assert.deepEqual([found, width, height], [kind, 7, 5]);
  }
});

test('which bytes of an array are passed next', () => {
  const last = { start: 8192, end: 12_288 };
  const next = (start) => { const block = blockAfter(last, { start, len: 4 }); return [block.start, block.end - block.start]; };
  for (const near of [8192, 12_288, 16_384]) assert.deepEqual(next(near), [near, 8192]);
  for (const far of [16_385, 1_000_000]) assert.deepEqual(next(far), [far, 4096]);
  assert.deepEqual(blockAfter({ start: 0, end: 65_536 }, { start: 65_535, len: 2 }), { start: 65_535, end: 131_071 });
});

// It comes before the tests of memory, since it has a memory of its own.
test('a trace has the bytes of a few blocks of a long input, or is null', async () => {
  const tiff = tiffBehind(50_000_000);
  const { trace } = await probeBlob(new Blob([tiff]), { trace: true });
  assert.deepEqual(trace.map(({ start, bytes }) => [start, bytes.length]).slice(-2), [[50_000_014, 8], [50_000_022, 4]]);
  assert.deepEqual(Buffer.from(trace.at(-1).bytes), tiff.subarray(-8, -4));
  const endless = { size: 2 ** 50, slice: (start, end) => new Blob([Buffer.concat([gif, Buffer.alloc(end - start - 12)])]) };
  const image = await probeBlob(endless, { trace: true });
  assert.deepEqual([image.width, image.trace], [100, null]);
  assert.equal((await probeBlob(new Blob([jpegBehind(40000, 4)]), { trace: true })).trace, null);
});

test('large bytes take no memory of the library', () => {
  const large = Buffer.alloc(20_000_000);
  large.set(gif);
  spans(gif);
  const before = library().size;
  assert.ok(before > 0);
  for (let count = 0; count < 3; count += 1) assert.equal(spans(large).length, 3);
  assert.equal(library().size, before);
});

test('where an engine makes no second memory at once, the memory grows and is used again', () => {
  const large = Buffer.alloc(20_000_000);
  large.set(gif);
  const { Instance } = WebAssembly;
  const counted = (use) => {
    let count = 0;
    withGrow((memory, grow, pages) => { const told = grow.call(memory, pages); count += 1; return told; }, use);
    return count;
  };
  WebAssembly.Instance = function disallowed() { throw new RangeError('disallowed on the main thread'); };
  try {
    assert.ok(counted(() => assert.equal(spans(large).length, 3)) >= 1);
    assert.equal(counted(() => assert.equal(spans(large).length, 3)), 0);
  } finally {
    WebAssembly.Instance = Instance;
  }
});

test('a call that throws leaves the module usable', () => {
  const refuse = () => { throw new RangeError('no memory'); };
  assert.throws(() => withGrow(refuse, () => spans(Buffer.alloc(60_000_000))), /no memory/);
  isGif(probe(gif));
  assert.equal(spans(gif).length, 3);
});

test('more spans than are allowed are refused', () => {
  const many = jpegBehind(2000, 4);
  assert.match(refused(() => spans(many, { limit: 100 }), 'TOO_MANY_SPANS').message, /depends on \d{4} spans/);
  assert.ok(spans(many).length > 4000);
});

test('a walk over many megabytes ends soon', () => {
  const begin = performance.now();
  for (const jpeg of [jpegBehind(4_000_000, 4), jpegBehind(1000, 60000)]) assert.equal(probe(jpeg).width, 7);
  assert.ok(performance.now() - begin < 30000);
});

test('a blob is read by aligned slices, each place once', async () => {
  const bytes = jpegBehind(4, 50000);
  const slices = [];
  const slice = (start, end) => {
    slices.push([start, end]);
    return new Blob([bytes.subarray(start, end)]);
  };
  const blob = { size: bytes.length, slice };
  const { width, reads, bytesRead, total } = await probeBlob(blob);
  assert.deepEqual([width, reads, total], [7, 5, bytes.length]);
  assert.equal(bytesRead, slices.reduce((sum, [start, end]) => sum + end - start, 0));
  assert.ok(slices.every(([start, end]) => start % 4096 === 0 && end <= bytes.length));
  assert.ok(slices.slice(1).every(([start], index) => start >= slices[index][1]));
});

test('places above 2^32 are those of the input', async () => {
  const far = 5_000_000_000;
  const head = Buffer.from('49492b000800000000f2052a01000000', 'hex');
  const directory = Buffer.from('020000000000000000010300010000000000000005000000000000000101040001000000000000000700000000000000', 'hex');
  const bytes = Buffer.alloc(8192);
  directory.copy(bytes, far % 4096);
  const slice = (start, end) => new Blob([start === 0 ? Buffer.concat([head, Buffer.alloc(end - 16)]) : bytes.subarray(0, end - start)]);
  const { kind, width, height, reads } = await probeBlob({ size: 2 * far, slice });
  assert.deepEqual([kind, width, height, reads], ['Tiff', 5, 7, 2]);
});

test('a blob that is cut is refused', async () => {
  const cut = { size: 5000, slice: () => new Blob([gif]) };
  await assert.rejects(probeBlob(cut), { code: 'CUT_SHORT', message: '12 of 4096 bytes came', reads: 0 });
});

test('a signal ends a probe, and bad limits are refused', async () => {
  await assert.rejects(probeBlob(new Blob([gif]), { signal: AbortSignal.abort() }), { name: 'AbortError' });
  for (const maxBytes of [0, -1, 4096.5, NaN, 'many']) {
    await assert.rejects(probeBlob(new Blob([gif]), { maxBytes }), RangeError);
  }
  await assert.rejects(probeBlob(new Blob([gif]), { maxBytes: 11 }), { code: 'LIMIT_REACHED' });
});

test('files, and what is none', async () => {
  const path = join(folder, 'a.tif');
  writeFileSync(path, tiffBehind(1_000_000));
  const { kind, reads } = await probeFile(path);
  assert.deepEqual([kind, reads], ['Tiff', 2]);
  execFileSync('mkfifo', [join(folder, 'pipe')]);
  await assert.rejects(probeFile(folder), { code: 'NOT_A_FILE' });
  await assert.rejects(probeFile(join(folder, 'pipe')), { code: 'NOT_A_FILE' });
  await assert.rejects(probeFile(join(folder, 'nothing')), { code: 'ENOENT' });
});

test('files at once have the results of probeFile', async () => {
  const path = join(folder, 'b.tif');
  const inputs = [tiffBehind(1_000_000), jpegBehind(40, 60_000), gif, gif.subarray(0, 11), Buffer.alloc(0), Buffer.alloc(10_000)];
  const outcomeOf = ({ code, message, kind, width, height, total, reads, bytesRead, trace }) => (
    { code, message, kind, width, height, total, reads, bytesRead, trace }
  );
  for (const bytes of inputs) {
    writeFileSync(path, bytes);
    for (const options of [undefined, { trace: true }, { maxBytes: 11 }]) {
      let found;
      try { found = probeFileSync(path, options); } catch (error) { found = error; }
      const wanted = await probeFile(path, options).catch((error) => error);
      assert.deepEqual(outcomeOf(found), outcomeOf(wanted));
      assert.equal(found instanceof ImageError, wanted instanceof ImageError);
    }
  }
  writeFileSync(path, gif);
  assert.equal(probeFileSync(new URL(`file://${path}`)).width, 100);
  for (const none of [folder, join(folder, 'pipe')]) refused(() => probeFileSync(none), 'NOT_A_FILE');
  assert.throws(() => probeFileSync(join(folder, 'nothing')), { code: 'ENOENT' });
  const opened = readdirSync('/proc/self/fd').length;
  assert.throws(() => probeFileSync(path, { maxBytes: 0 }), RangeError);
  assert.equal(readdirSync('/proc/self/fd').length, opened);
});

test('what is no blob says so', async () => {
  for (const thing of [gif, gif.buffer, Buffer.from(gif), 'GIF89a', null, undefined, { size: 12 }]) {
    await assert.rejects(probeBlob(thing), { name: 'TypeError', message: 'probeBlob takes a Blob or a File; probe takes the bytes of an image' });
  }
});

test('a file that is cut while it is read is refused, and closed', async () => {
  const path = join(folder, 'cut.tif');
  writeFileSync(path, tiffBehind(1_000_000));
  const file = await open(path);
  const prototype = Object.getPrototypeOf(file);
  await file.close();
  const before = prototype.read;
  prototype.read = function (...wanted) { truncateSync(path, 4096); return before.apply(this, wanted); };
  const opened = readdirSync('/proc/self/fd').length;
  try {
    await assert.rejects(probeFile(path), { code: 'CUT_SHORT', reads: 1, bytesRead: 4096 });
  } finally {
    prototype.read = before;
  }
  assert.ok(readdirSync('/proc/self/fd').length <= opened);
});

// It comes after the tests of memory, since the memory grows in it.
test('at most 64 MiB of a blob or a file are read, where a call names no other limit', async () => {
  // Chunks of 4096 bytes, one after another.
  const chunks = Buffer.alloc(66 * 2 ** 20);
  chunks.write('FORM\0\0\0\0ILBM');
  for (let at = 12; at + 8 < chunks.length; at += 4096) chunks.writeUInt32BE(4088, at + 4);
  const path = join(folder, 'chunks.iff');
  writeFileSync(path, chunks);
  const limit = { code: 'LIMIT_REACHED', message: 'There is no answer within 67108864 bytes', bytesRead: 67108864 };
  await assert.rejects(probeBlob(new Blob([chunks])), limit);
  await assert.rejects(probeFile(path), limit);
});

test('each worker has a library of its own', async () => {
  const code = `const { parentPort, workerData } = require('node:worker_threads');
    import(${JSON.stringify(module)}).then(({ probe }) => parentPort.postMessage(probe(workerData)));`;
  const answers = await Promise.all(Array.from({ length: 4 }, () => new Promise((resolve, reject) => {
    new Worker(code, { eval: true, workerData: gif }).on('message', resolve).on('error', reject);
  })));
  answers.forEach(isGif);
});

test('the codes are those of the header, and the declarations have them', async () => {
  const { STATUSES } = await import('../library.js');
  const [, listed] = /enum imagesize_status \{(.*?)\};/s.exec(header);
  for (const [, name, number] of listed.matchAll(/IMAGESIZE_(\w+) = (\d+)/g)) assert.equal(STATUSES[number], name);
  const declared = readFileSync(fileURLToPath(new URL('../imagesize.d.ts', import.meta.url)), 'utf8');
  const ofReaders = ['FAULT', 'BUDGET_SPENT', 'OUT_OF_MEMORY'];
  const unanswered = [...ofReaders, 'ANSWERED', 'BUFFER_TOO_SMALL', 'UNKNOWN_TYPE', 'UNKNOWN_STATUS', 'BYTES_WANTED'];
  for (const name of STATUSES) assert.equal(declared.includes(`  | '${name}'`), !unanswered.includes(name), name);
});
