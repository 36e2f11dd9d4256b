// Many images: a table that can be sorted and copied. Rows are drawn as they are scrolled to.

import { bytesText, errorText, sizeText, typeText } from './texts.js';

const part = (id) => document.getElementById(id);

// How many rows are drawn at once.
const PAGE = 100;

// The side of a thumbnail, and how many pixels an image has at most that gets one.
const SIDE = 88;
const MOST_PIXELS = 5e7;

// What a browser can show of a file.
const SHOWN = new Set(['JPEG', 'GIF', 'WebP', 'BMP', 'ICO', 'AVIF', 'PNG']);

const { compare } = new Intl.Collator('en', { numeric: true });
const difference = (a, b) => a - b;

// Each column: its head, how it is sorted and by which value, and what it shows.
const COLUMNS = [
  ['Name', compare, ({ input }) => input.name, ({ input }) => input.name],
  ['Type', compare, ({ result }) => typeText(result), ({ result }) => typeText(result)],
  ['Size', difference, ({ result }) => (result.width ?? -1) * (result.height ?? 1), ({ result }) => sizeText(result) || errorText(result)],
  ['Read', difference, ({ result }) => result.bytesRead ?? 0, ({ result }) => (result.bytesRead ? bytesText(result.bytesRead) : '')],
  ['Time', difference, ({ time }) => time, ({ time }) => `${time.toFixed(1)} ms`],
];

let images = []; // in the order in which they came
let sorted = []; // in the order of the table
let order = { column: -1, down: false };

/** Starts the table; `open` is called with an image that a user asks for. */
export function startTable(open) {
  const picture = cell('th', 'columnheader', '');
  picture.ariaLabel = 'Picture';
  part('columns').append(picture, ...COLUMNS.map(([head], column) => {
    const made = cell('th', 'columnheader', '');
    made.scope = 'col';
    made.append(button(head, () => {
      sort(column, order.column === column && !order.down);
      part('scroll').scrollTop = 0;
    }));
    return made;
  }));
  part('csv').addEventListener('click', () => copy(csv(), part('csv')));
  part('json').addEventListener('click', () => copy(json(), part('json')));
  part('clear').addEventListener('click', clear);
  part('further').addEventListener('click', drawMore);
  // It is observed anew after each page: it may come into view again before the browser saw it leave.
  const nearing = new IntersectionObserver((entries) => {
    if (!entries.some(({ isIntersecting }) => isIntersecting)) return;
    drawMore();
    nearing.unobserve(part('further'));
    nearing.observe(part('further'));
  }, { root: part('scroll'), rootMargin: '400px' });
  nearing.observe(part('further'));
  part('rows').addEventListener('click', ({ target }) => {
    const row = target.closest('tr');
    if (row) open(images[Number(row.dataset.image)]);
  });
}

/** Adds images to the table. */
export function add(more) {
  more.forEach((image, at) => { image.index = images.length + at; });
  images.push(...more);
  sorted.push(...more);
  part('many').hidden = images.length < 2;
  if (order.column >= 0) sort(order.column, order.down);
  else if (part('rows').children.length < PAGE) drawMore();
  else nameRest();
}

function clear() {
  images = [];
  sorted = [];
  order = { column: -1, down: false };
  for (const head of part('columns').children) head.ariaSort = null;
  part('rows').replaceChildren();
  part('many').hidden = true;
}

function cell(name, role, text) {
  const made = document.createElement(name);
  made.setAttribute('role', role);
  made.textContent = text;
  return made;
}

function button(text, pressed) {
  const made = document.createElement('button');
  made.type = 'button';
  made.textContent = text;
  if (pressed) made.addEventListener('click', pressed);
  return made;
}

// Draws the next rows.
function drawMore() {
  const drawn = part('rows').children.length;
  const end = Math.min(sorted.length, (Math.floor(drawn / PAGE) + 1) * PAGE);
  part('rows').append(...sorted.slice(drawn, end).map((image, at) => rowOf(image, drawn + at)));
  nameRest();
}

function nameRest() {
  const drawn = part('rows').children.length;
  part('table').ariaRowCount = sorted.length + 1;
  part('further').hidden = drawn === sorted.length;
  part('further').textContent = `Show more: ${drawn.toLocaleString('en')} of ${sorted.length.toLocaleString('en')} rows are shown`;
}

function rowOf(image, index) {
  const row = cell('tr', 'row', '');
  row.dataset.image = image.index;
  row.ariaRowIndex = index + 2;
  row.classList.toggle('refused', image.result.width === undefined);
  const picture = cell('td', 'cell', '');
  picture.className = 'thumbnail';
  if (hasThumbnail(image)) waiting.observe(picture);
  row.append(picture, ...COLUMNS.map(([, , , shown], column) => {
    const made = cell('td', 'cell', column === 0 ? '' : shown(image));
    if (column === 0) made.append(button(shown(image)));
    if (column === 0) made.title = shown(image);
    return made;
  }));
  return row;
}

const hasThumbnail = ({ input, result }) => input.file && SHOWN.has(typeText(result)) && result.width * result.height <= MOST_PIXELS;

// A thumbnail is made as soon as its row comes into view.
const waiting = new IntersectionObserver((entries) => {
  for (const { target, isIntersecting } of entries) {
    if (!isIntersecting) continue;
    waiting.unobserve(target);
    const image = images[Number(target.parentElement?.dataset.image)];
    if (!image) continue;
    image.picture ??= thumbnailOf(image).catch(() => '');
    image.picture.then((picture) => target.append(picture));
  }
});

// The browser decodes it beside the page, which stays quick. An `img` would stop the page for a file with many segments.
async function thumbnailOf({ input, result: { width, height } }) {
  const bitmap = await createImageBitmap(input.file, width > height ? { resizeWidth: SIDE } : { resizeHeight: SIDE });
  const picture = document.createElement('canvas');
  picture.width = bitmap.width;
  picture.height = bitmap.height;
  picture.getContext('bitmaprenderer').transferFromImageBitmap(bitmap);
  return picture;
}

function sort(column, down) {
  order = { column, down };
  const [, compared, value] = COLUMNS[column];
  sorted = images.map((image) => [value(image), image])
    .sort((a, b) => (compared(a[0], b[0]) || a[1].index - b[1].index) * (down ? -1 : 1))
    .map(([, image]) => image);
  part('rows').replaceChildren();
  drawMore();
  [...part('columns').children].forEach((head, at) => {
    head.ariaSort = at === column + 1 ? (down ? 'descending' : 'ascending') : null;
  });
}

const recordOf = ({ input, result, time }) => ({
  name: input.name,
  kind: result.kind ?? null,
  compression: result.compression ?? null,
  width: result.width ?? null,
  height: result.height ?? null,
  code: result.width === undefined ? result.code ?? result.name : null,
  error: result.width === undefined ? errorText(result) : null,
  bytesRead: result.bytesRead ?? 0,
  milliseconds: Number(time.toFixed(2)),
});

const json = () => JSON.stringify(sorted.map(recordOf), null, 2);

function csv() {
  const records = sorted.map(recordOf);
  const quoted = (value) => (/[",\r\n]/.test(value) ? `"${String(value).replaceAll('"', '""')}"` : value ?? '');
  return [Object.keys(records[0]), ...records.map(Object.values)].map((row) => row.map(quoted).join(',')).join('\r\n');
}

async function copy(text, pressed) {
  pressed.dataset.label ??= pressed.textContent;
  try {
    await navigator.clipboard.writeText(text);
    pressed.textContent = 'Copied';
  } catch {
    pressed.textContent = 'The browser does not allow it';
  }
  setTimeout(() => { pressed.textContent = pressed.dataset.label; }, 2000);
}
