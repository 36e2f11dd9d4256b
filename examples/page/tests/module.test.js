// The module in a browser without the page: before and after `init`, over streams, in a worker, and as a script that a bundler made.

import assert from 'node:assert/strict';
import { execFileSync, spawnSync } from 'node:child_process';
import { EventEmitter, once } from 'node:events';
import { readFileSync } from 'node:fs';
import { test } from 'node:test';
import { fileURLToPath } from 'node:url';
import { withServer } from '../../../bindings/js/tests/support.js';
import { withTab } from './chromium.js';

const folder = fileURLToPath(new URL('../../../bindings/js/', import.meta.url));
const TYPES = { js: 'text/javascript', wasm: 'application/wasm', html: 'text/html' };
const GIF = `new TextEncoder().encode('GIF89ad\\0\\x32\\0\\0\\0')`;
const SIZE = `probe(${GIF}).width`;
const FILES = {
  '/': '<!doctype html><title>module</title>',
  '/strict': '<!doctype html><title>strict</title>',
  '/allowed': '<!doctype html><title>allowed</title>',
  '/worker.js': `import { init, probe } from '/imagesize.js'; await init(); postMessage(${SIZE});`,
  '/classic.js': `importScripts('/bundle.js'); const { init, probe } = bundled;
    init('/out/imagesize.wasm').then(() => postMessage(${SIZE}));`,
};

const hasBundler = spawnSync('esbuild', ['--version']).status === 0;
if (hasBundler) {
  FILES['/bundle.js'] = execFileSync('esbuild', [
    'imagesize.js', '--bundle', '--format=iife', '--global-name=bundled', '--log-level=error',
  ], { cwd: folder, encoding: 'utf8' });
}

// The content security policy that the README names, and one that leaves WebAssembly out.
const [, POLICY] = /`(script-src [^`]*)`/.exec(readFileSync(`${folder}README.md`, 'utf8'));
const POLICIES = { '/allowed': `default-src 'none'; ${POLICY}`, '/strict': `default-src 'none'; ${POLICY.replace("'wasm-unsafe-eval'", '')}` };

const leaving = new EventEmitter();

// Gives the beginning of a GIF, and never the rest.
function stall(response) {
  response.on('close', () => leaving.emit('close'));
  response.writeHead(200).write(Buffer.concat([Buffer.from('GIF89ad\0\x32\0\0\0', 'latin1'), Buffer.alloc(5000)]));
}

function serve({ url }, response) {
  if (url === '/stalled.gif') {
    stall(response);
    return;
  }
  response.setHeader('Content-Type', TYPES[url.split('.')[1] ?? 'html'] ?? 'text/plain');
  if (POLICIES[url]) response.setHeader('Content-Security-Policy', POLICIES[url]);
  try {
    response.end(FILES[url] ?? readFileSync(`${folder}${url.slice(1)}`));
  } catch {
    response.writeHead(404).end();
  }
}

test('the module', async (t) => {
  await withServer(serve, (address) => withTab(async (tab) => {
    await tab.send('Page.enable');
    await tab.send('Page.navigate', { url: new URL('/', address).href });
    await tab.until(`document.title === 'module'`);
    const inModule = (code) => tab.value(`import('/imagesize.js').then(async ({ init, probe, probeStream, probeUrl, StreamProbe }) => { ${code} })
      .catch(({ name, code, message }) => [name, code, message].join(' '))`);
    const inWorker = (made) => tab.value(`new Promise((resolve, reject) => {
      const worker = ${made};
      worker.onmessage = ({ data }) => resolve(data);
      worker.onerror = ({ message }) => reject(new Error(message));
    })`);

    await t.test('before init each call says so', async () => {
      assert.match(await inModule(`return ${SIZE}`), /^ImageError NOT_LOADED .*await init\(\)/);
    });

    await t.test('after init it answers', async () => {
      assert.match(await inModule(`await init('/nothing.wasm')`), /^ImageError NO_LIBRARY .*answers 404/);
      assert.equal(await inModule(`await init(); return ${SIZE}`), 100);
    });

    await t.test('over streams, which it leaves', async () => {
      assert.deepEqual(await inModule(`
        const stream = new StreamProbe();
        const found = Array.from(${GIF}, (byte) => stream.feed(Uint8Array.of(byte))?.width ?? null);
        return [...found.slice(-2), (await probeStream(new Blob([${GIF}]).stream())).height];`), [null, 100, 50]);
      for (const call of [`probeStream((await fetch('/stalled.gif')).body)`, `probeUrl(new URL('/stalled.gif', document.baseURI))`]) {
        const closed = once(leaving, 'close', { signal: AbortSignal.timeout(10000) });
        assert.equal(await inModule(`return (await ${call}).width`), 100);
        await closed;
      }
    });

    await t.test('in a worker', async () => {
      assert.equal(await inWorker(`new Worker('/worker.js', { type: 'module' })`), 100);
    });

    await t.test('in a worker that is a script', { skip: hasBundler ? false : 'no esbuild here' }, async () => {
      assert.equal(await inWorker(`new Worker('/classic.js')`), 100);
    });

    await t.test('under the content security policy of the README, and not without', async () => {
      const open = async (name) => {
        await tab.send('Page.navigate', { url: new URL(name, address).href });
        await tab.until(`document.title === '${name.slice(1)}'`);
        return inModule(`await init(); return ${SIZE}`);
      };
      assert.equal(await open('/allowed'), 100);
      assert.match(await open('/strict'), /^ImageError NO_LIBRARY .*the content security policy of the page needs 'wasm-unsafe-eval' in script-src/);
    });
  }));
});
