// Which bytes tell the size of an image: files, folders and addresses are read here, and nothing is uploaded.

import * as library from '../../bindings/js/imagesize.js';
import { inspect } from './inspector.js';
import { add, startTable } from './table.js';
import { count } from './texts.js';

// How long a server is waited for in milliseconds, and how many images are read at once.
const PATIENCE = 30_000;
const AT_ONCE = 16;

const SAMPLES = [
  ['segments.jpg', 'JPEG with segments'],
  ['photo.avif', 'AVIF'],
  ['end.tif', 'TIFF, directory at the end'],
  ['texture.dds', 'DDS texture'],
  ['render.exr', 'OpenEXR'],
  ['cut.jpg', 'JPEG that is cut'],
];

const part = (id) => document.getElementById(id);
const say = (text, wrong = false) => {
  part('status').textContent = text;
  part('status').classList.toggle('error', wrong);
};

const ofFile = (file, name = file.name) => ({
  name,
  file,
  probe: (options) => library.probeBlob(file, options),
  around: async (begin, end) => new Uint8Array(await file.slice(begin, end).arrayBuffer()),
});

const ofAddress = (address) => ({
  name: address,
  async probe(options) {
    if (!URL.canParse(address)) throw new Error('This is no web address.');
    return library.probeUrl(address, { ...options, signal: AbortSignal.timeout(PATIENCE) });
  },
});

// What cannot be read: its probe fails for that reason.
const unread = (name, error) => ({ name, probe: () => Promise.reject(error) });

// Reads an image; an error is its result.
async function read(input, trace) {
  const begin = performance.now();
  const result = await input.probe({ trace }).catch((error) => error);
  return { input, result, time: performance.now() - begin };
}

// What was asked for and is not read yet, from all calls of readAll together.
let work = { asked: 0, read: 0, sized: 0 };

function showProgress() {
  part('progress').max = work.asked;
  part('progress').value = work.read;
  part('sofar').textContent = `${work.read.toLocaleString('en')} of ${count(work.asked, 'image')} read`;
  part('running').hidden = work.asked < 2 * AT_ONCE || work.read === work.asked;
}

// Reads images, some at a time, and takes each group as it comes.
async function readAll(inputs, take) {
  if (inputs.length === 0) return say('There is no file here.', true);
  work.asked += inputs.length;
  say(`Reading ${count(work.asked, 'image')}`);
  for (let first = 0; first < inputs.length; first += AT_ONCE) {
    showProgress();
    const images = await Promise.all(inputs.slice(first, first + AT_ONCE).map((input) => read(input, inputs.length === 1)));
    work.read += images.length;
    work.sized += images.filter(({ result }) => result.width !== undefined).length;
    take(images);
    if (first === 0) show(images[0]);
  }
  showProgress();
  if (work.read < work.asked) return;
  const sized = work.asked > 1 ? `, ${work.sized.toLocaleString('en')} with a size` : '';
  say(`${count(work.asked, 'image')} read${sized}`);
  work = { asked: 0, read: 0, sized: 0 };
}

let latest;

// Shows the bytes of an image, which is read again if its spans were not asked for.
async function show(image) {
  latest = image;
  const { input, result } = image;
  const traced = result.trace === undefined && result.reads > 0 ? (await read(input, true)).result : result;
  if (latest === image) await inspect(input, traced);
}

// Shows an image of the table, and goes there.
async function open(image) {
  await show(image);
  part('name').focus();
}

async function trySample([file, name]) {
  const response = await fetch(new URL(`samples/${file}`, import.meta.url));
  if (!response.ok) throw new Error(`The sample could not be loaded: the server answers with status ${response.status}.`);
  await readAll([ofFile(await response.blob(), name)], () => {});
}

// An address as people write it: example.com/a.jpg is an https address.
const addressOf = (line) => (/^[a-z][a-z0-9+.-]*:/i.test(line) && !/^[\w.-]+:\d+/.test(line) ? line : `https://${line}`);

const addressesIn = (text) => text.split('\n').map((line) => line.trim()).filter((line) => line && !line.startsWith('#'));

// The files of a drop, and those in its folders.
async function dropped({ items, files }) {
  const entries = [...items].map((item) => item.webkitGetAsEntry?.()).filter(Boolean);
  if (entries.length === 0) return [...files].map((file) => ofFile(file));
  return (await Promise.all(entries.map(walk))).flat();
}

async function walk(entry) {
  const name = entry.fullPath.replace(/^\//, '');
  try {
    if (!entry.isFile) return (await Promise.all((await entriesOf(entry)).map(walk))).flat();
    return [ofFile(await new Promise((resolve, reject) => { entry.file(resolve, reject); }), name)];
  } catch (error) {
    return [unread(name, error)];
  }
}

// What is in a folder. A browser lists some of it at each call.
async function entriesOf(folder) {
  const reader = folder.createReader();
  const found = [];
  for (let more; more?.length !== 0; found.push(...more)) {
    more = await new Promise((resolve, reject) => { reader.readEntries(resolve, reject); });
  }
  return found;
}

function listSamples() {
  part('samples').append(...SAMPLES.map((sample) => {
    const item = document.createElement('li');
    const button = document.createElement('button');
    button.type = 'button';
    button.textContent = sample[1];
    button.addEventListener('click', () => trySample(sample).catch((error) => say(error.message, true)));
    item.append(button);
    return item;
  }));
}

function listenToDrops() {
  addEventListener('dragover', (event) => {
    event.preventDefault();
    document.body.classList.add('dragging');
  });
  for (const event of ['dragleave', 'drop']) addEventListener(event, () => document.body.classList.remove('dragging'));
  addEventListener('drop', async (event) => {
    event.preventDefault();
    const addresses = addressesIn(event.dataTransfer.getData('text/uri-list'));
    const files = await dropped(event.dataTransfer);
    await readAll([...files, ...(files.length ? [] : addresses.map(ofAddress))], add);
  });
}

/** Loads the library, and then listens. */
export async function start() {
  await library.init();
  listSamples();
  listenToDrops();
  startTable(open);
  part('choose').addEventListener('click', () => part('files').click());
  part('files').addEventListener('change', () => {
    const chosen = [...part('files').files].map((file) => ofFile(file));
    part('files').value = '';
    readAll(chosen, add);
  });
  part('lookup').addEventListener('submit', (event) => {
    event.preventDefault();
    const addresses = addressesIn(part('addresses').value);
    if (addresses.length === 0) say('Type an address first.', true);
    else readAll(addresses.map((line) => ofAddress(addressOf(line))), add);
  });
  say('Try a sample, or choose files of your own.');
}
