// The example of an upload gate for forms, as its user runs it: in a project where the package and busboy are installed.

import assert from 'node:assert/strict';
import { spawn } from 'node:child_process';
import { once } from 'node:events';
import { cpSync, existsSync, mkdirSync, mkdtempSync, readFileSync, readdirSync, rmSync, symlinkSync } from 'node:fs';
import { connect } from 'node:net';
import { tmpdir } from 'node:os';
import { join } from 'node:path';
import { after, before, test } from 'node:test';
import { fileURLToPath } from 'node:url';
import { jpegBehind } from './support.js';

const here = fileURLToPath(new URL('../', import.meta.url));
// Where Debian has busboy, and where npm does.
const places = ['/usr/share/nodejs', join(here, 'node_modules')];
const modules = places.find((place) => existsSync(join(place, 'busboy')));
const skip = modules ? false : 'no busboy here: Debian has it as node-busboy';

const project = mkdtempSync(join(tmpdir(), 'imagesize-form-'));
const folder = join(project, 'images');
const gif = Buffer.from('GIF89ad\0\x32\0\0\0');
// The head of a PNG of 60,000 by 60,000 pixels.
const large = Buffer.from('89504e470d0a1a0a0000000d494844520000ea600000ea60080200000000000000', 'hex');
let server;
let port;

before(async () => {
  if (skip) return;
  mkdirSync(join(project, 'node_modules'));
  mkdirSync(folder);
  cpSync(here, join(project, 'node_modules', 'imagesize-proved'), { recursive: true, filter: (path) => !path.includes('tests') });
  symlinkSync(join(modules, 'busboy'), join(project, 'node_modules', 'busboy'));
  const command = ['node_modules/imagesize-proved/examples/form.mjs', folder, '0'];
  server = spawn(process.execPath, command, { cwd: project, env: { ...process.env, NODE_PATH: modules }, stdio: ['ignore', 'pipe', 'inherit'] });
  const [line] = await once(server.stdout, 'data', { signal: AbortSignal.timeout(10000) });
  ({ port } = new URL(String(line)));
});

after(() => {
  server?.kill();
  rmSync(project, { recursive: true });
});

// A form with these files.
async function post(...files) {
  const form = new FormData();
  form.append('title', 'a holiday');
  for (const bytes of files) form.append('image', new Blob([bytes]), 'a.jpg');
  const response = await fetch(`http://127.0.0.1:${port}/`, { method: 'POST', body: form });
  return [response.status, await response.text()];
}

const stored = () => readdirSync(folder).map((name) => readFileSync(join(folder, name)));

test('the images of a form are stored', { skip }, async () => {
  const jpeg = jpegBehind(20, 50_000);
  assert.deepEqual(await post(jpeg), [201, 'image: Jpeg 7x5']);
  assert.ok(stored()[0].equals(jpeg));
  assert.deepEqual(await post(gif, jpeg), [201, 'image: Gif 100x50\nimage: Jpeg 7x5']);
  assert.equal(stored().length, 3);
});

test('a form with one bad file stores none of its files', { skip }, async () => {
  const count = stored().length;
  assert.deepEqual(await post(gif, large), [413, '60000x60000 are too many pixels']);
  assert.equal((await post(gif, Buffer.alloc(100)))[0], 415);
  assert.deepEqual(await post(), [400, 'The form has no file']);
  assert.equal((await post(...Array(11).fill(gif)))[0], 400);
  const plain = await fetch(`http://127.0.0.1:${port}/`, { method: 'POST', body: gif });
  assert.deepEqual([plain.status, await plain.text()], [400, 'Missing Content-Type']);
  assert.equal(stored().length, count);
});

// The reply to the beginning of a form, of which no more comes.
async function begun(front, ended) {
  const socket = connect(port, '127.0.0.1');
  const head = '--b\r\nContent-Disposition: form-data; name="image"; filename="a.png"\r\n\r\n';
  const length = ended ? head.length + front.length : 500_000_000;
  socket.write(`POST / HTTP/1.1\r\nHost: a\r\nContent-Type: multipart/form-data; boundary=b\r\nContent-Length: ${length}\r\n\r\n${head}`);
  socket.write(front);
  let reply = '';
  socket.setEncoding('utf8').on('data', (text) => { reply += text; });
  await once(socket, 'end', { signal: AbortSignal.timeout(10000) });
  return reply;
}

test('an image with too many pixels is refused before it has come', { skip }, async () => {
  assert.match(await begun(large, false), /^HTTP\/1\.1 413 .*60000x60000 are too many pixels$/s);
});

test('a form that is cut is refused', { skip }, async () => {
  assert.match(await begun(large.subarray(0, 20), true), /^HTTP\/1\.1 400 .*Unexpected end of form$/s);
});
