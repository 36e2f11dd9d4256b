// One image: the strip of the whole file, the fields that count, their bytes in hex, and the experiment.

import { probeBlob } from '../../bindings/js/imagesize.js';
import { namesOf } from './fields.js';
import { Scrambled } from './scrambled.js';
import { bytesText, costText, count, errorText, hex, sizeText, typeText } from './texts.js';

const STEPS_SHOWN = 200;
const ROW = 16;
const part = (id) => document.getElementById(id);

function element(name, className, text = '') {
  const made = document.createElement(name);
  if (className) made.className = className;
  made.textContent = text;
  return made;
}

// The bytes of a range, the last one included.
const rangeText = (start, end) => (end === start + 1 ? `byte ${start.toLocaleString('en')}`
  : `bytes ${start.toLocaleString('en')} to ${(end - 1).toLocaleString('en')}`);

let shown; // the image that is shown: its result, its bytes around the spans, and how much of it is listed

/** Shows an image, with the bytes that its result depends on. */
export async function inspect(input, found) {
  const total = found.total < Infinity ? found.total : found.bytesRead;
  const result = { ...found, kind: found.kind, name: found.name, message: found.message, total };
  shown = { result, names: [], listed: 0, chosen: 0, around: input.around };
  const { trace } = result;
  part('name').hidden = false;
  part('name').textContent = input.name;
  part('answer').textContent = answerText(result);
  part('answer').classList.toggle('error', result.width === undefined);
  part('cost').textContent = costText(found) + (trace === null ? '. The result depends on too many fields to draw them.' : '');
  part('evidence').hidden = !(trace?.length > 0);
  part('outcome').textContent = '';
  part('outcome').className = '';
  if (part('evidence').hidden) return;
  shown.names = namesOf(result.kind, trace, result.total);
  part('zoom').value = 0;
  part('zoom').max = Math.max(0, Math.ceil(Math.log2(result.total / 64)));
  part('listing').textContent = `The result depends on ${count(trace.length, 'field')}`;
  part('steps').replaceChildren();
  part('hex').replaceChildren();
  part('steps').scrollTop = 0;
  await list();
  choose(0);
}

function answerText(result) {
  const type = typeText(result);
  if (result.width !== undefined) return `${type}, ${sizeText(result)} pixels`;
  return type ? `${type}, no size. ${errorText(result)}` : errorText(result);
}

// Lists more fields, and their bytes.
async function list() {
  const { result: { trace }, names, listed } = shown;
  const end = Math.min(trace.length, listed + STEPS_SHOWN);
  part('steps').append(...trace.slice(listed, end).map((span, at) => stepOf(span, names[listed + at], listed + at)));
  shown.listed = end;
  part('more').hidden = end === trace.length;
  part('more').textContent = `Show more: ${end.toLocaleString('en')} of ${count(trace.length, 'field')} are listed`;
  await drawHex();
}

function stepOf({ start, bytes }, name, index) {
  const step = element('li', '');
  const button = element('button', 'step');
  button.type = 'button';
  button.dataset.step = index;
  button.append(element('b', '', name), element('span', '', rangeText(start, start + bytes.length)));
  step.append(button);
  return step;
}

// Rows of 16 bytes, those that have a byte of the listed spans, with a line for what is left out between them.
async function drawHex() {
  const asked = shown;
  const { result: { trace, total }, listed, names } = asked;
  const spans = trace.slice(0, listed);
  const numbers = [...new Set(spans.flatMap(({ start, bytes }) => {
    const first = Math.floor(start / ROW);
    return Array.from({ length: Math.floor((start + bytes.length - 1) / ROW) - first + 1 }, (_, at) => first + at);
  }))].sort((a, b) => a - b);
  const around = await Promise.all(numbers.map((number) =>
    asked.around?.(number * ROW, Math.min(total, (number + 1) * ROW)).catch(() => undefined)));
  if (shown !== asked) return;
  const rows = [];
  let next = 0;
  numbers.forEach((number, index) => {
    if (number > next) rows.push(gapOf(next * ROW, number * ROW));
    rows.push(rowOf(number * ROW, Math.min(ROW, total - number * ROW), spans, names, around[index]));
    next = number + 1;
  });
  if (next * ROW < total) rows.push(gapOf(next * ROW, total));
  part('hex').replaceChildren(...rows);
}

// A line for bytes that are left out. They may hold fields that are not listed yet.
function gapOf(from, to) {
  const { result: { trace }, listed } = shown;
  const later = trace.slice(listed).filter(({ start }) => from <= start && start < to).length;
  return element('div', 'gap', `↓ ${bytesText(to - from)} ${later > 0 ? `with ${count(later, 'more field')}` : 'with no effect'}`);
}

function rowOf(start, length, spans, names, around) {
  const row = element('div', 'row');
  const digits = element('code', 'digits');
  const here = spans.map((span, index) => ({ ...span, index })).filter(({ start: at, bytes }) => at < start + length && at + bytes.length > start);
  for (let offset = start; offset < start + length; offset += 1) {
    const covering = here.filter(({ start: at, bytes }) => at <= offset && offset < at + bytes.length);
    const known = covering.at(-1);
    const byte = known ? known.bytes[offset - known.start] : around?.[offset - start];
    const cell = element('span', known ? `byte read tone${known.index % 4}` : 'byte', byte === undefined ? '··' : hex([byte]));
    if (known) cell.dataset.steps = covering.map(({ index }) => index).join(' ');
    digits.append(cell);
  }
  const labels = here.filter(({ start: at }) => at >= start).map(({ index }) => `${index + 1} ${names[index]}`);
  row.append(element('code', 'offset', start.toLocaleString('en')), digits, element('span', 'labels', labels.join(', ')));
  return row;
}

// Highlights a field in the list, among the bytes and in the strip.
function choose(index) {
  shown.chosen = index;
  for (const old of document.querySelectorAll('.chosen')) {
    old.classList.remove('chosen');
    old.ariaCurrent = null;
  }
  const step = part('steps').querySelector(`[data-step="${index}"]`);
  step?.classList.add('chosen');
  if (step) step.ariaCurrent = 'step';
  const cells = part('hex').querySelectorAll(`[data-steps~="${index}"]`);
  for (const cell of cells) cell.classList.add('chosen');
  const box = part('hex');
  if (cells[0]) box.scrollTop = cells[0].offsetTop - box.offsetTop - box.clientHeight / 3;
  drawStrip();
}

// The part of the file that the strip shows: all of it, or a part around the field that is chosen.
function windowOf() {
  const { result: { total, trace }, chosen } = shown;
  const length = Math.max(1, total / 2 ** Number(part('zoom').value));
  const from = Math.min(Math.max(0, trace[chosen].start - length / 2), total - length);
  return { from: Number(part('zoom').value) === 0 ? 0 : from, length };
}

// A column of the strip is marked where a byte of it is read, so that dense spans stay visible.
function drawStrip() {
  const canvas = part('strip');
  const { result: { trace, total }, chosen } = shown;
  const { from, length } = windowOf();
  const width = Math.max(1, Math.round(canvas.clientWidth * devicePixelRatio));
  canvas.width = width;
  canvas.height = Math.round(canvas.clientHeight * devicePixelRatio);
  const style = getComputedStyle(canvas);
  const context = canvas.getContext('2d');
  const paint = ({ start, bytes }, colour, least) => {
    const left = Math.floor(((start - from) / length) * width);
    const right = Math.ceil(((start + bytes.length - from) / length) * width);
    context.fillStyle = colour;
    context.fillRect(left, 0, Math.max(right - left, least), canvas.height);
  };
  for (const span of trace) paint(span, style.color, 2 * devicePixelRatio);
  paint(trace[chosen], style.caretColor, 4 * devicePixelRatio);
  const read = trace.reduce((sum, { bytes }) => sum + bytes.length, 0);
  canvas.ariaLabel = `The whole file to scale: the result depends on ${count(trace.length, 'field')}, ${count(read, 'byte')} in all, of ${count(total, 'byte')}`;
  part('window').textContent = rangeText(Math.floor(from), Math.ceil(from + length));
}

// The field that is nearest to a point of the strip.
function nearest(event) {
  const { from, length } = windowOf();
  const offset = from + (event.offsetX / part('strip').clientWidth) * length;
  const distance = ({ start, bytes }) => Math.max(start - offset, offset - start - bytes.length, 0);
  const { trace } = shown.result;
  return trace.reduce((best, span, index) => (distance(span) < distance(trace[best]) ? index : best), 0);
}

// Replaces each byte outside of the spans by a random one, probes again, and shows the result.
async function scramble() {
  const asked = shown;
  const { result } = asked;
  const kept = new Set(result.trace.flatMap(({ start, bytes }) => Array.from(bytes, (_, at) => start + at))).size;
  const other = new Scrambled(result.total, result.trace, crypto.getRandomValues(new Uint32Array(1))[0]);
  const again = await probeBlob(other, { maxBytes: 2 ** 30 }).catch((error) => error);
  if (shown !== asked) return;
  const same = ['kind', 'compression', 'width', 'height', 'code'].every((name) => (again[name] ?? null) === (result[name] ?? null));
  const scrambled = bytesText(result.total - kept);
  part('outcome').textContent = `${scrambled} scrambled, ${bytesText(kept)} kept: ${answerText(again)}${again.width === undefined ? '' : '.'} ${same ? 'The same result.' : 'ANOTHER RESULT.'}`;
  part('outcome').className = same ? 'same' : 'error';
  asked.around = async (start, end) => other.bytes(start, end);
  await drawHex();
  choose(asked.chosen);
}

part('zoom').addEventListener('input', drawStrip);
part('scramble').addEventListener('click', scramble);
part('more').addEventListener('click', list);
part('strip').addEventListener('click', (event) => choose(nearest(event)));
part('steps').addEventListener('click', ({ target }) => {
  const step = target.closest('[data-step]');
  if (step) choose(Number(step.dataset.step));
});
part('hex').addEventListener('click', ({ target }) => {
  const steps = target.closest('[data-steps]')?.dataset.steps;
  if (steps) choose(Number(steps.split(' ').at(-1)));
});
addEventListener('resize', () => { if (!part('evidence').hidden) drawStrip(); });
