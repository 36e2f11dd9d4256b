// The package as programs get it: by import and by require, with and without `init`, in bundles, and with its types.

import assert from 'node:assert/strict';
import { execFileSync, spawnSync } from 'node:child_process';
import { copyFileSync, cpSync, mkdirSync, mkdtempSync, readFileSync, readdirSync, rmSync, writeFileSync } from 'node:fs';
import { createRequire } from 'node:module';
import { tmpdir } from 'node:os';
import { dirname, extname, join } from 'node:path';
import { after, test } from 'node:test';
import { fileURLToPath, pathToFileURL } from 'node:url';
import { createContext, runInContext } from 'node:vm';
import { withServer } from './support.js';

const here = fileURLToPath(new URL('../', import.meta.url));
const wasm = join(here, 'out', 'imagesize.wasm');
const bytes = readFileSync(wasm);
const gif = new TextEncoder().encode('GIF89ad\0\x32\0\0\0');
const folder = mkdtempSync(join(tmpdir(), 'imagesize-package-'));
const installed = join(folder, 'node_modules', 'imagesize-proved');
after(() => rmSync(folder, { recursive: true }));

// Copies the files of the package, as an install does.
function install() {
  const { files } = JSON.parse(readFileSync(join(here, 'package.json'), 'utf8'));
  mkdirSync(join(installed, 'out'), { recursive: true });
  // The pages of docs are packed by a release alone.
  const named = (pattern) => readdirSync(join(here, dirname(pattern))).filter((name) => name.endsWith(extname(pattern)))
    .map((name) => join(dirname(pattern), name));
  const listed = files.filter((name) => !name.startsWith('docs/')).flatMap((name) => (name.includes('*') ? named(name) : [name]));
  for (const name of ['package.json', ...listed]) cpSync(join(here, name), join(installed, name));
}
install();

const has = (tool) => spawnSync(tool, ['--version']).status === 0;
const none = (tool) => (has(tool) ? false : `no ${tool} here`);

// Writes a program and runs it by plain Node, in the folder where the package is installed.
function run(name, program) {
  writeFileSync(join(folder, name), program);
  return execFileSync(process.execPath, [name], { cwd: folder, encoding: 'utf8', env: { ...process.env, NODE_OPTIONS: '' } }).trim();
}

// A fresh copy of the module, in a folder without the WebAssembly.
function alone() {
  const place = mkdtempSync(join(folder, 'alone-'));
  copyFileSync(join(here, 'out', 'imagesize.cjs'), join(place, 'imagesize.cjs'));
  return createRequire(import.meta.url)(join(place, 'imagesize.cjs'));
}

const PRINTED = `const { kind, width, height } = probe(Buffer.from('${Buffer.from(gif).toString('hex')}', 'hex'));
  console.log(kind, width, height);`;

test('import and require need no flag and no init, and give one module', () => {
  assert.equal(run('a.mjs', `import { probe } from 'imagesize-proved'; ${PRINTED}`), 'Gif 100 50');
  assert.equal(run('a.cjs', `const { probe } = require('imagesize-proved'); ${PRINTED}`), 'Gif 100 50');
  const both = `const required = require('imagesize-proved');
    import('imagesize-proved').then((module) => {
      const names = Object.keys(required);
      console.log(names.length, names.every((name) => module[name] === required[name]));
    });`;
  assert.equal(run('both.cjs', both), '10 true');
  assert.equal(run('wasm.cjs', `console.log(require.resolve('imagesize-proved/imagesize.wasm'))`), join(installed, 'out/imagesize.wasm'));
});

test('import does not compile a parser of CommonJS modules, which takes longer than the package', () => {
  const loaded = `import 'imagesize-proved'; console.log(process.moduleLoadList.filter((name) => name.includes('cjs-module-lexer')).length);`;
  assert.equal(run('loaded.mjs', loaded), '0');
});

test('the WebAssembly has the exports that are listed, and asks for nothing', () => {
  const module = new WebAssembly.Module(bytes);
  const listed = JSON.parse(readFileSync(join(here, 'exports.json'), 'utf8')).map((entry) => entry.export);
  assert.deepEqual(WebAssembly.Module.exports(module).map(({ name }) => name).sort(), listed.sort());
  assert.deepEqual(WebAssembly.Module.imports(module), []);
});

test('the library is loaded from an address, a path, bytes or a module', async () => {
  const file = pathToFileURL(wasm);
  for (const source of [file, file.href, wasm, bytes, new Uint8Array(bytes).buffer, new WebAssembly.Module(bytes)]) {
    const { init, probe } = alone();
    assert.throws(() => probe(gif), { name: 'ImageError', code: 'NO_LIBRARY' });
    assert.equal(await init(source), undefined);
    assert.equal(probe(gif).width, 100);
    await init('nowhere');
  }
});

test('a library that a server gives, at the second attempt', async () => {
  const { init, probe } = alone();
  await withServer((_, response, index) => {
    if (index === 1) response.writeHead(404).end();
    else response.end(bytes);
  }, async (url, requests) => {
    await assert.rejects(init(url), { code: 'NO_LIBRARY', message: /answers 404/ });
    await Promise.all([init(url), init(url)]);
    assert.equal(probe(gif).height, 50);
    assert.equal(requests.length, 2);
  });
});

test('what is no library is refused, and the error says what is missing', async () => {
  const { init, probe, probeBlob, spans } = alone();
  const error = (message) => ({ code: 'NO_LIBRARY', message });
  const missing = error(/^The library cannot be loaded: there is no file \/.*\/imagesize\.wasm\. Copy imagesize\.wasm of the package there/);
  for (const call of [() => probe(gif), () => spans(gif)]) assert.throws(call, missing);
  await assert.rejects(probeBlob(new Blob([gif])), missing);
  await assert.rejects(init(), missing);
  await assert.rejects(init(join(folder, 'nothing')), error(/there is no file .*nothing\. Copy/));
  await assert.rejects(init(gif), error(/: the bytes are no WebAssembly that this engine runs \(/));
  writeFileSync(join(folder, 'image.wasm'), gif);
  await assert.rejects(init(join(folder, 'image.wasm')), error(/image\.wasm is no WebAssembly that this engine runs \(/));
  await assert.rejects(init('http://127.0.0.1:1/'), error(/^The library cannot be loaded: http:\/\/127\.0\.0\.1:1\/ gives no answer \(.*\)$/));
});

test('outside Node a call before init says so', async () => {
  const script = readFileSync(join(here, 'out', 'imagesize.cjs'), 'utf8');
  const context = createContext({ URL, module: { exports: {} }, gif, bytes });
  runInContext(script, context);
  const called = (code) => runInContext(`(async () => { const { init, probe, probeUrl, ImageError } = module.exports; ${code} })()
    .catch((error) => [error.name, error.code, error.message].join(' '))`, context);
  const early = 'ImageError NOT_LOADED The library is not loaded: await init() before the first call';
  assert.equal(await called('return probe(gif)'), early);
  assert.equal(await called(`return await probeUrl('http://127.0.0.1:1/')`), early);
  assert.match(await called('await init()'), /^ImageError NO_LIBRARY .*init needs/);
  context.__dirname = '/'; // as some bundlers write it for a page
  assert.match(await called('await init()'), /^ImageError NO_LIBRARY .*init needs/);
  assert.equal(await called('return probe(gif)'), early);
  assert.equal(await called('await init(bytes); return probe(gif).width'), 100);
});

test('bundles run, and are made without a warning', { skip: none('esbuild') }, async () => {
  const bundle = (out, entry, ...flags) => {
    writeFileSync(join(folder, 'entry.js'), entry);
    const made = spawnSync('esbuild', ['entry.js', '--bundle', `--outfile=${out}`, '--loader:.wasm=binary', ...flags], { cwd: folder, encoding: 'utf8' });
    assert.deepEqual([made.status, made.stderr.includes('warning')], [0, false], made.stderr);
    return readFileSync(join(folder, out), 'utf8');
  };
  const embedded = `import { init, probe } from 'imagesize-proved';
    import library from 'imagesize-proved/imagesize.wasm';
    export const answer = init(library).then(() => probe(new TextEncoder().encode('GIF89ad\\0\\x32\\0\\0\\0')));
    answer.then(({ kind, width, height }) => console.log(kind, width, height));`;
  const beside = `import { probe } from 'imagesize-proved'; ${PRINTED}`;

  const script = bundle('iife.js', embedded, '--format=iife', '--global-name=bundled', '--target=es2020');
  const context = createContext({ WebAssembly, URL, TextEncoder, atob, console: { log() {} } });
  runInContext(script, context);
  assert.equal((await runInContext('bundled.answer', context)).width, 100);

  assert.equal(run('es2020.mjs', bundle('es2020.mjs', embedded, '--format=esm', '--target=es2020')), 'Gif 100 50');
  assert.equal(run('embedded.cjs', bundle('embedded.cjs', embedded, '--format=cjs')), 'Gif 100 50');
  // A bundle for Node finds the library beside itself.
  copyFileSync(wasm, join(folder, 'imagesize.wasm'));
  assert.equal(run('beside.cjs', bundle('beside.cjs', beside, '--format=cjs', '--platform=node')), 'Gif 100 50');
  assert.equal(run('beside.mjs', bundle('beside.mjs', beside, '--format=esm', '--platform=node')), 'Gif 100 50');
});

test('bundles by a bundler without the condition "module" run too', { skip: none('esbuild') }, async () => {
  // esbuild knows "module" unless other conditions are named.
  const bundle = (out, entry, ...flags) => {
    writeFileSync(join(folder, 'entry.js'), entry);
    const options = ['--bundle', `--outfile=${out}`, '--loader:.wasm=binary', '--conditions=production', ...flags];
    const made = spawnSync('esbuild', ['entry.js', ...options], { cwd: folder, encoding: 'utf8' });
    assert.deepEqual([made.status, made.stderr.includes('warning')], [0, false], made.stderr);
    return readFileSync(join(folder, out), 'utf8');
  };
  copyFileSync(wasm, join(folder, 'imagesize.wasm'));
  const imported = `import { probe } from 'imagesize-proved'; ${PRINTED}`;
  const required = `const { probe } = require('imagesize-proved'); ${PRINTED}`;
  for (const [name, program] of [['imported', imported], ['required', required]]) {
    for (const [end, format] of [['cjs', 'cjs'], ['mjs', 'esm']]) {
      // A program of its own name each, in which nothing of the package is left to be found at run time.
      const code = bundle(`${name}.${end}`, program, `--format=${format}`, '--platform=node');
      assert.ok(!code.includes('./out/imagesize.cjs'), `${name}.${end}`);
      if (name === 'imported' || format === 'cjs') assert.equal(run(`${name}.${end}`, code), 'Gif 100 50');
    }
  }
  const embedded = `import { init, probe } from 'imagesize-proved';
    import library from 'imagesize-proved/imagesize.wasm';
    init(library).then(() => { ${PRINTED.replace('Buffer.from', 'bytesOf').replace(", 'hex'", '')} });
    function bytesOf(hex) { return Uint8Array.from(hex.match(/../g), (byte) => parseInt(byte, 16)); }`;
  for (const entry of [embedded, embedded.replace("import { init, probe } from 'imagesize-proved'", "const { init, probe } = require('imagesize-proved')")]) {
    for (const format of ['iife', 'cjs', 'esm']) {
      assert.equal(run(`page-${format}.${format === 'esm' ? 'mjs' : 'cjs'}`, bundle('page.js', entry, `--format=${format}`, '--platform=browser')), 'Gif 100 50');
    }
  }
});

test('Node without addons takes the same module by import and by require', () => {
  writeFileSync(join(folder, 'without.cjs'), `const required = require('imagesize-proved');
    import('imagesize-proved').then((module) => { const { probe } = module; ${PRINTED} console.log(module.probe === required.probe); });`);
  assert.equal(execFileSync(process.execPath, ['--no-addons', 'without.cjs'], { cwd: folder, encoding: 'utf8' }), 'Gif 100 50\ntrue\n');
});

test('types for import and for require', { skip: none('tsc') }, () => {
  const use = `const image: Image & Reads = await probeUrl('http://127.0.0.1/', { trace: true });
    const wide: number = image.width;
    await init(new Uint8Array(1)); await init(new URL('http://127.0.0.1/')); await init();
    const stream = new StreamProbe({ total: 12 });
    const sides: number[] = [stream.feed(new ArrayBuffer(6))?.width ?? 0, stream.close().height];
    async function* chunks() { yield new Uint8Array(12); }
    for (const source of [new Blob([]).stream(), chunks(), [new Uint8Array(12)]]) {
      sides.push((await probeStream(source, { total: 12, maxBytes: 12, signal: new AbortController().signal })).bytesRead);
    }
    const code: 'NOT_LOADED' | string = new Error() instanceof ImageError ? 'yes' : 'NOT_LOADED';
    // @ts-expect-error
    await init(null);
    // @ts-expect-error
    probe('bytes');
    // @ts-expect-error
    stream.feed(null);
    // @ts-expect-error
    await probeStream(new Uint8Array(12));
    // @ts-expect-error
    stream.feed(new Uint8Array(12)).width;
    export const known = [...sides, wide, code, probe(new Uint8Array(12)).kind === 'Gif'];`;
  const names = `import { ImageError, StreamProbe, init, probe, probeStream, probeUrl, type Image, type Reads } from 'imagesize-proved';`;
  writeFileSync(join(folder, 'use.mts'), `${names}\n${use}`);
  const required = use.replace('export const known =', 'return');
  writeFileSync(join(folder, 'use.cts'), `${names}\nexport async function use() {\n${required}\n}`);
  for (const [moduleResolution, module] of [['node16', 'node16'], ['node', 'es2022']]) {
    const compilerOptions = { module, moduleResolution, target: 'es2022', strict: true, noEmit: true, types: [] };
    const files = moduleResolution === 'node16' ? ['use.mts', 'use.cts'] : ['use.mts'];
    writeFileSync(join(folder, 'tsconfig.json'), JSON.stringify({ compilerOptions, files }));
    const { status, stdout } = spawnSync('tsc', ['-p', '.'], { cwd: folder, encoding: 'utf8' });
    assert.equal(status, 0, stdout);
  }
});
