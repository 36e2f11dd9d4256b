// What the module costs: node bindings/js/tests/measure.js [--beside FOLDER] [FILE..]
//
// It prints microseconds a call of `probe` over the bytes of each file, here and in Python, and of a `StreamProbe` that gets them in
// chunks; of `probe` over images of many records, as bench/inputs writes them; what many records cost in a stream; the bytes and
// requests of `probeUrl` beside the whole input, from a server with ranges and from one without; and the size of what a page loads.
//
// FOLDER has another build of the module, such as bindings/js of another checkout. Then `probe` of both builds is called by turns over
// the images of many records.

import { execFileSync, spawnSync } from 'node:child_process';
import { mkdtempSync, readFileSync, readdirSync, rmSync } from 'node:fs';
import { tmpdir } from 'node:os';
import { basename, join, resolve } from 'node:path';
import { fileURLToPath, pathToFileURL } from 'node:url';
import { parseArgs } from 'node:util';
import { brotliCompressSync, gzipSync } from 'node:zlib';
import { StreamProbe, probe, probeStream, probeUrl } from '../imagesize.js';
import { giveRange, jpegBehind, tiffBehind, withServer } from './support.js';

const CALLS = 2000;
const ROUNDS = 20;
const GIF = Buffer.from('474946383961640064000000', 'hex');

const row = (name, ...numbers) => console.log(name.padEnd(48), ...numbers.map((number) => String(number).padStart(10)));

// Microseconds a call of each of some functions, in the best of some rounds. In each round they are called one after another.
function timedByTurns(functions, calls) {
  const best = functions.map(() => Infinity);
  for (let round = 0; round < ROUNDS; round += 1) {
    functions.forEach((call, which) => {
      const begin = performance.now();
      for (let index = 0; index < calls; index += 1) call();
      best[which] = Math.min(best[which], performance.now() - begin);
    });
  }
  return best.map((time) => ((time * 1000) / calls).toFixed(2));
}

// Microseconds a call.
const timed = (call, calls = CALLS) => timedByTurns([call], calls)[0];

// The same call without its errors.
const caught = (call) => () => { try { call(); } catch { /* an error costs too */ } };

// Passes some bytes to a stream in chunks of this length, up to the result.
function feed(bytes, length) {
  const stream = new StreamProbe();
  for (let at = 0; at < bytes.length; at += length) if (stream.feed(bytes.subarray(at, at + length))) return;
  stream.close();
}

const PYTHON = `
import sys, time, imagesize_proved
def call(data):
    try: imagesize_proved.probe(data)
    except imagesize_proved.ImageError: pass
for name in sys.argv[1:]:
    data, best = open(name, "rb").read(), 1e9
    for _ in range(${ROUNDS}):
        begin = time.perf_counter()
        for _ in range(${CALLS}): call(data)
        best = min(best, time.perf_counter() - begin)
    print(f"{best * 1e6 / ${CALLS}:.2f}")`;

// The same in Python, where its package is there.
function timedInPython(files) {
  const path = fileURLToPath(new URL('../../python', import.meta.url));
  const env = { ...process.env, PYTHONPATH: path };
  const { status, stdout } = spawnSync('python3', ['-c', PYTHON, ...files], { env, encoding: 'utf8' });
  return status === 0 ? stdout.split('\n') : files.map(() => '-');
}

function measureCalls(files) {
  row('microseconds a call', 'bytes', 'Node', 'Python', 'by 4 KiB', 'by 64 KiB');
  const inPython = timedInPython(files);
  files.forEach((file, index) => {
    const bytes = readFileSync(file);
    const inChunks = [4096, 65536].map((length) => timed(caught(() => feed(bytes, length))));
    row(basename(file), bytes.length, timed(caught(() => probe(bytes))), inPython[index], ...inChunks);
  });
}

// Images of many records, and texts that end late. If another build is named, its `probe` has a column too.
async function measureRecords(beside) {
  const probes = [probe];
  if (beside) probes.push((await import(pathToFileURL(resolve(beside, 'imagesize.js')))).probe);
  // A module that is not built fails here, and is not timed.
  probes.forEach((call) => call(GIF));
  row('\nmicroseconds a call', 'bytes', 'probe', ...(beside ? ['beside'] : []));
  const folder = mkdtempSync(join(tmpdir(), 'measure-'));
  try {
    execFileSync(fileURLToPath(new URL('../../../bench/inputs', import.meta.url)), [folder]);
    for (const name of readdirSync(folder).filter((name) => /^(many|spaces|digits)/.test(name)).sort()) {
      const bytes = readFileSync(join(folder, name));
      row(name, bytes.length, ...timedByTurns(probes.map((call) => caught(() => call(bytes))), 100));
    }
  } finally {
    rmSync(folder, { recursive: true });
  }
}

// Inputs whose size comes late, in chunks of 64 KiB; and what one call takes that needs more bytes.
async function measureStreams() {
  row('\nmicroseconds a stream', 'bytes', 'feed', 'probeStream', 'probe');
  const inputs = { 'TIFF, its directory behind 50 MB': tiffBehind(50_000_000) };
  for (const length of [4, 1000]) {
    for (const count of [100, 1000, 10_000]) inputs[`JPEG, ${count} segments of ${length} bytes`] = jpegBehind(count, length);
  }
  for (const [name, bytes] of Object.entries(inputs)) {
    const chunks = Array.from({ length: Math.ceil(bytes.length / 65536) }, (_, at) => bytes.subarray(at * 65536, (at + 1) * 65536));
    const begin = performance.now();
    await probeStream(chunks);
    const inStream = ((performance.now() - begin) * 1000).toFixed(2);
    row(name, bytes.length, timed(() => feed(bytes, 65536), 1), inStream, timed(() => probe(bytes), 1));
  }
  const stream = new StreamProbe();
  stream.feed(Buffer.from('49492a00ffffffff', 'hex'));
  for (const length of [0, 1, 4096, 65536]) row('a chunk that is passed by', length, timed(() => stream.feed(new Uint8Array(length))));
}

// An AVIF of 48x64 pixels with so many bytes of pixels.
function avif(length) {
  const boxes = Buffer.from('00000010667479706176696600000000000000396d657461000000000000002d69707270000000256970636f00000014'
    + '697370650000000000000040000000300000000969726f7401', 'hex');
  const data = Buffer.alloc(8 + length);
  data.writeUInt32BE(data.length);
  data.write('mdat', 4);
  return Buffer.concat([boxes, data]);
}

async function measureRanges() {
  row('\nranges', 'whole', 'fetched', 'requests');
  const inputs = {
    'JPEG, 200 kB before its frame': Buffer.concat([jpegBehind(4, 50000), Buffer.alloc(2_000_000)]),
    'TIFF, its directory behind 2 MB': tiffBehind(2_000_000),
    AVIF: avif(300_000),
  };
  const forms = {
    '': giveRange,
    ', no ranges': (request, response, bytes) => response.writeHead(200, { 'Content-Length': bytes.length }).end(bytes),
  };
  for (const [form, give] of Object.entries(forms)) {
    for (const [name, bytes] of Object.entries(inputs)) {
      await withServer((request, response) => give(request, response, bytes), async (url) => {
        const image = await probeUrl(url, { maxBytes: 4_000_000 });
        row(`${name}${form}, ${image.width}x${image.height}`, bytes.length, image.bytesRead, image.reads);
      });
    }
  }
}

function measureSizes() {
  row('\nwhat a page loads', 'plain', 'gzip', 'brotli');
  const modules = readdirSync(new URL('..', import.meta.url)).filter((name) => name.endsWith('.js'));
  const files = [...modules, 'out/imagesize.wasm'];
  const sizes = files.map((name) => {
    const bytes = readFileSync(new URL(`../${name}`, import.meta.url));
    return [bytes.length, gzipSync(bytes, { level: 9 }).length, brotliCompressSync(bytes).length];
  });
  sizes.forEach((size, index) => row(files[index], ...size));
  row('together', ...[0, 1, 2].map((column) => sizes.reduce((sum, size) => sum + size[column], 0)));
}

const { values: { beside }, positionals: files } = parseArgs({ options: { beside: { type: 'string' } }, allowPositionals: true });
measureCalls(files);
await measureRecords(beside);
await measureStreams();
await measureRanges();
measureSizes();
