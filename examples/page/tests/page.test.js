// The page in a browser: samples, files, folders and addresses, the experiment, many files, keys, and what it looks like.

import assert from 'node:assert/strict';
import { execFileSync, spawn } from 'node:child_process';
import { once } from 'node:events';
import { closeSync, ftruncateSync, mkdirSync, mkdtempSync, openSync, readFileSync, rmSync, writeFileSync, writeSync } from 'node:fs';
import { tmpdir } from 'node:os';
import { join } from 'node:path';
import { test } from 'node:test';
import { fileURLToPath } from 'node:url';
import { gzipSync } from 'node:zlib';
import { spans } from '../../../bindings/js/imagesize.js';
import { giveRange, iconOf, jpegBehind, withServer, worked } from '../../../bindings/js/tests/support.js';
import { withTab } from './chromium.js';

const out = fileURLToPath(new URL('../../out/', import.meta.url));
const page = fileURLToPath(new URL('../', import.meta.url));
const serve = join(page, 'serve');

// Counts the bytes that the page reads of files.
const COUNTER = `
  globalThis.bytesAsked = 0;
  const { slice } = Blob.prototype;
  Blob.prototype.slice = function (...range) {
    const part = slice.apply(this, range);
    bytesAsked += part.size;
    part.isPart = true;
    return part;
  };
  for (const name of ['arrayBuffer', 'text', 'stream', 'bytes']) {
    const read = Blob.prototype[name];
    Blob.prototype[name] = function () { if (!this.isPart) bytesAsked += this.size; return read.call(this); };
  }`;

const text = (id) => `document.getElementById('${id}').textContent`;
const READ = `/ read(,|$)/.test(${text('status')})`;

// What the page shows of the chosen image.
const SHOWN = `({
  answer: ${text('answer')},
  cost: ${text('cost')},
  steps: Array.from(document.querySelectorAll('.step b'), (name) => name.textContent),
  listing: ${text('listing')},
  wrong: document.getElementById('answer').classList.contains('error'),
})`;

// A row of the table: its texts, and whether the image has no size.
const ROWS = `Array.from(document.querySelectorAll('#rows tr'), (row) => ({
  cells: Array.from(row.children, (cell) => cell.textContent),
  refused: row.classList.contains('refused'),
}))`;

// Runs `use` with the address of the page, which examples/page/serve serves.
async function withServe(use) {
  const server = spawn(serve, ['0'], { stdio: ['ignore', 'pipe', 'inherit'] });
  try {
    const [address] = await once(server.stdout.setEncoding('utf8'), 'data');
    return await use(new URL(address.trim()));
  } finally {
    server.kill();
  }
}

const LOADED = `!/^(Loading|This page needs|$)/.test(document.getElementById('status')?.textContent ?? '')`;

async function withPage(use, prepare = async () => {}, loaded = LOADED) {
  const folder = mkdtempSync(join(tmpdir(), 'imagesize-page-'));
  try {
    return await withServe((address) => withTab(async (tab) => {
      for (const domain of ['Page', 'Runtime', 'Network', 'DOM', 'Log']) await tab.send(`${domain}.enable`);
      await tab.send('Page.addScriptToEvaluateOnNewDocument', { source: COUNTER });
      await tab.send('Emulation.setScrollbarsHidden', { hidden: true });
      await viewport(tab, 1280, 900);
      await prepare(tab);
      await tab.send('Page.navigate', { url: address.href });
      await tab.until(loaded);
      return await use(tab, folder, address);
    }));
  } finally {
    rmSync(folder, { recursive: true });
  }
}

function writeInputs(folder, inputs) {
  return inputs.map(({ bytes }, index) => {
    const path = join(folder, `image ${index}`);
    writeFileSync(path, bytes);
    return path;
  });
}

// Does something that reads images, and waits until they are read.
async function reading(tab, act) {
  await tab.value(`${text('status')} = ''`);
  await act();
  await tab.until(READ);
}

async function click(tab, x, y) {
  for (const type of ['mousePressed', 'mouseReleased']) {
    await tab.send('Input.dispatchMouseEvent', { type, x, y, button: 'left', clickCount: 1 });
  }
}

async function trySample(tab, sample) {
  await reading(tab, () => press(tab, `#samples li:nth-child(${sample + 1}) button`));
  await tab.until(`document.querySelectorAll('.step').length > 0 && ${text('name')} === document.querySelector('#samples li:nth-child(${sample + 1})').textContent`);
}

const KEYS = { Enter: '\r', Tab: undefined };

async function key(tab, name) {
  for (const type of ['keyDown', 'keyUp']) {
    await tab.send('Input.dispatchKeyEvent', { type, key: name, code: name, text: KEYS[name], windowsVirtualKeyCode: name === 'Tab' ? 9 : 13 });
  }
}

const press = (tab, selector) => tab.value(`document.querySelector(${JSON.stringify(selector)}).click()`);

async function choose(tab, paths) {
  const { root } = await tab.send('DOM.getDocument');
  const { nodeId } = await tab.send('DOM.querySelector', { nodeId: root.nodeId, selector: '#files' });
  await reading(tab, () => tab.send('DOM.setFileInputFiles', { nodeId, files: paths }));
}

const lookUp = (tab, addresses) => reading(tab, () => tab.value(`document.getElementById('addresses').value = ${JSON.stringify(addresses.join('\n'))};
  document.querySelector('#lookup button').click()`));

async function drop(tab, files) {
  const data = { items: [], files, dragOperationsMask: 1 };
  await reading(tab, async () => {
    for (const type of ['dragEnter', 'dragOver', 'drop']) await tab.send('Input.dispatchDragEvent', { type, x: 200, y: 200, data });
  });
}

// A phone has a touch screen, and no pointer that hovers.
async function viewport(tab, width, height) {
  const phone = width < 500;
  await tab.send('Emulation.setDeviceMetricsOverride', { width, height, deviceScaleFactor: 1, mobile: phone });
  await tab.send('Emulation.setTouchEmulationEnabled', { enabled: phone });
}

async function screenshot(tab, name, [width, height], scheme) {
  await viewport(tab, width, height);
  await tab.send('Emulation.setEmulatedMedia', { features: [{ name: 'prefers-color-scheme', value: scheme }] });
  await tab.value('scrollTo(0, 0); dispatchEvent(new Event("resize")); document.activeElement.blur()');
  await tab.value('new Promise((resolve) => { requestAnimationFrame(() => requestAnimationFrame(() => setTimeout(resolve, 200))); })');
  const { data } = await tab.send('Page.captureScreenshot', { captureBeyondViewport: true });
  mkdirSync(out, { recursive: true });
  writeFileSync(join(out, `page-${name}.png`), Buffer.from(data, 'base64'));
}

// Runs in the page: what is wrong with its looks.
function faults(phone) {
  const found = [];
  const shown = Array.from(document.querySelectorAll('body *')).filter((element) => element.checkVisibility());
  const parse = (colour) => colour.match(/[\d.]+/g).map(Number);
  const luminance = (colour) => parse(colour).slice(0, 3)
    .map((part) => (part <= 10.3 ? part / 255 / 12.92 : ((part / 255 + 0.055) / 1.055) ** 2.4))
    .reduce((sum, part, at) => sum + part * [0.2126, 0.7152, 0.0722][at], 0);
  const behind = (element) => {
    for (let at = element; at; at = at.parentElement) {
      const { backgroundColor } = getComputedStyle(at);
      if ((parse(backgroundColor)[3] ?? 1) > 0.99) return backgroundColor;
    }
    return 'rgb(255, 255, 255)';
  };
  const isRed = (colour) => {
    const [red, green, blue, alpha = 1] = parse(colour);
    const most = Math.max(red, green, blue);
    const spread = most - Math.min(red, green, blue);
    if (alpha === 0 || spread < 60 || most !== red) return false;
    const hue = 60 * ((green - blue) / spread);
    return hue < 25 && hue > -30;
  };
  const says = (element) => Array.from(element.childNodes).some((node) => node.nodeType === 3 && node.textContent.trim());
  for (const element of shown) {
    const style = getComputedStyle(element);
    const name = `${element.tagName}#${element.id}.${element.className} ${element.textContent.slice(0, 30)}`;
    if (says(element)) {
      const [a, b] = [luminance(style.color), luminance(behind(element))];
      const contrast = (Math.max(a, b) + 0.05) / (Math.min(a, b) + 0.05);
      if (contrast < 4.5) found.push(`contrast ${contrast.toFixed(2)}: ${name}`);
    }
    const isError = element.closest('.error') || element.closest('.refused td:nth-child(4)');
    const colours = [style.color, style.backgroundColor, style.borderTopColor, style.caretColor];
    if (style.outlineStyle !== 'none') colours.push(style.outlineColor);
    if (!isError && colours.some(isRed)) found.push(`red: ${name}`);
    const { left, right, height } = element.getBoundingClientRect();
    if (left < 0 || right > innerWidth) found.push(`out of the page: ${name}`);
    if (!element.title && !element.closest('[title]') && element.scrollWidth > element.clientWidth + 1 && element.clientWidth > 0
      && style.display !== 'inline') found.push(`cut off: ${name}`);
    if (phone && /^(BUTTON|SUMMARY|INPUT|TEXTAREA|CANVAS)$/.test(element.tagName) && height < 43.9) found.push(`${height} px: ${name}`);
  }
  if (document.documentElement.scrollWidth > innerWidth) found.push('the page is wider than the window');
  if (phone && document.querySelector('.wide').checkVisibility()) found.push('a phone has nothing to drop');
  return found;
}

test('the page', async (t) => {
  await withPage(async (tab, folder, { origin }) => {
    await t.test('offers a first screen: a headline, six samples, a large button and a look-up behind a disclosure', async () => {
      const first = await tab.value(`({
        headline: document.querySelector('h1').textContent,
        samples: document.querySelectorAll('#samples button').length,
        choose: document.getElementById('choose').getBoundingClientRect().toJSON(),
        below: document.getElementById('status').getBoundingClientRect().bottom,
        lookUp: document.getElementById('addresses').checkVisibility(),
        status: ${text('status')},
        shown: ['name', 'evidence', 'many'].some((id) => document.getElementById(id).checkVisibility()),
      })`);
      assert.equal(first.headline, 'Which bytes tell the size of an image?');
      assert.deepEqual([first.samples, first.lookUp, first.shown], [6, false, false]);
      assert.ok(first.choose.height >= 80 && first.choose.width >= 600, JSON.stringify(first.choose));
      assert.ok(first.below <= 900, `${first.below} px`);
      assert.equal(first.status, 'Try a sample, or choose files of your own.');
      await press(tab, 'summary');
      assert.equal(await tab.value(`document.getElementById('addresses').checkVisibility()`), true);
      await press(tab, 'summary');
    });

    await t.test('opens the dialog for files by a click on the large button', async () => {
      await tab.send('Page.setInterceptFileChooserDialog', { enabled: true });
      const { x, y } = await tab.value(`document.getElementById('choose').getBoundingClientRect().toJSON()`);
      await click(tab, x + 30, y + 30);
      await tab.settled(() => tab.events('Page.fileChooserOpened').length > 0);
      assert.equal(tab.events('Page.fileChooserOpened')[0].mode, 'selectMultiple');
      await tab.send('Page.setInterceptFileChooserDialog', { enabled: false });
    });

    await t.test('answers six samples by one click each', async () => {
      const answers = [];
      for (let sample = 0; sample < 6; sample += 1) {
        await trySample(tab, sample);
        answers.push(await tab.value(SHOWN));
      }
      assert.deepEqual(answers.map(({ answer }) => answer), [
        'JPEG, 1,920 × 1,080 pixels', 'AVIF, 1,920 × 1,080 pixels', 'TIFF, 1,600 × 1,200 pixels', 'Bc7 DDS, 1,024 × 512 pixels',
        'OpenEXR, 2,048 × 858 pixels', 'JPEG, no size. The file ends before its size.',
      ]);
      assert.deepEqual(answers.map(({ wrong }) => wrong), [false, false, false, false, false, true]);
      assert.equal(answers[0].cost, '12 kB of 94 kB read, in 3 steps');
      assert.deepEqual(answers[0].steps.slice(-4), ['segment length', 'marker: frame', 'height', 'width']);
      assert.equal(answers[0].listing, `The result depends on ${answers[0].steps.length} fields`);
      assert.deepEqual(await tab.value(ROWS), []);
    });

    await t.test('shows the bytes that count in hex, each field marked and named in its order, and what is left out', async () => {
      await trySample(tab, 0);
      const file = readFileSync(join(page, 'samples', 'segments.jpg'));
      const rows = await tab.value(`Array.from(document.querySelectorAll('#hex > *'), (row) => row.className === 'gap' ? row.textContent : {
        start: Number(row.querySelector('.offset').textContent.replaceAll(',', '')),
        bytes: Array.from(row.querySelectorAll('.byte'), (byte) => byte.textContent),
        steps: Array.from(row.querySelectorAll('.byte'), (byte) => byte.dataset.steps ?? ''),
        label: row.querySelector('.labels').textContent,
      })`);
      const trace = spans(file);
      const marked = new Map();
      for (const { start, bytes, steps } of rows.filter((row) => row.start !== undefined)) {
        assert.equal(bytes.join(''), file.subarray(start, start + 16).toString('hex'));
        steps.forEach((step, at) => { if (step) marked.set(start + at, step); });
      }
      const wanted = new Map();
      trace.forEach(({ start, len }, index) => {
        for (let at = start; at < start + len; at += 1) wanted.set(at, wanted.has(at) ? `${wanted.get(at)} ${index}` : `${index}`);
      });
      assert.deepEqual(new Map([...marked].sort(([a], [b]) => a - b)), new Map([...wanted].sort(([a], [b]) => a - b)));
      assert.deepEqual(rows.flatMap((row) => (row.label ? row.label.split(', ').map((label) => Number(label.split(' ')[0])) : [])), trace.map((_, index) => index + 1));
      assert.equal(rows.at(-2).label, '13 height, 14 width');
      assert.deepEqual(rows.filter((row) => row.start === undefined), [
        '↓ 9.0 kB with no effect', '↓ 24 kB with no effect', '↓ 48 bytes with no effect', '↓ 400 bytes with no effect', '↓ 60 kB with no effect',
      ]);
    });

    await t.test('scrambles every other byte, and keeps those that count', async () => {
      await trySample(tab, 0);
      const bytes = (read) => tab.value(`Array.from(document.querySelectorAll('#hex .byte${read}'), (byte) => byte.textContent)`);
      const before = [await bytes('.read'), await bytes(':not(.read)')];
      await press(tab, '#scramble');
      await tab.until(`document.getElementById('outcome').className !== ''`);
      const kept = new Set(spans(readFileSync(join(page, 'samples', 'segments.jpg'))).flatMap(({ start, len }) => Array.from({ length: len }, (_, at) => start + at))).size;
      assert.equal(await tab.value(text('outcome')), `94 kB scrambled, ${kept} bytes kept: JPEG, 1,920 × 1,080 pixels. The same result.`);
      const after = [await bytes('.read'), await bytes(':not(.read)')];
      assert.deepEqual(after[0], before[0]);
      const changed = after[1].filter((byte, at) => byte !== before[1][at]).length;
      assert.ok(changed > 0.9 * after[1].length, `${changed} of ${after[1].length}`);
      await trySample(tab, 5);
      await press(tab, '#scramble');
      await tab.until(`document.getElementById('outcome').className !== ''`);
      assert.match(await tab.value(text('outcome')), /kept: JPEG, no size\. The file ends before its size\. The same result\.$/);
    });

    await t.test('shows each test vector, and the same result with every other byte scrambled', async () => {
      const shown = worked.filter(({ bytes }) => bytes.length > 0 && bytes.length <= 2 ** 16);
      const [tried, wrong] = await tab.value(`(async () => {
        const { inspect } = await import('./inspector.js');
        const { probeBlob } = await import('../../bindings/js/imagesize.js');
        const wrong = [];
        let tried = 0;
        for (const base64 of ${JSON.stringify(shown.map(({ bytes }) => bytes.toString('base64')))}) {
          const file = new Blob([Uint8Array.from(atob(base64), (letter) => letter.charCodeAt(0))]);
          const result = await probeBlob(file, { trace: true }).catch((error) => error);
          await inspect({ name: base64, around: async (begin, end) => new Uint8Array(await file.slice(begin, end).arrayBuffer()) }, result);
          document.getElementById('scramble').click();
          while (!document.getElementById('outcome').className) await new Promise((resolve) => { setTimeout(resolve); });
          tried += 1;
          const names = Array.from(document.querySelectorAll('.step b'), (name) => name.textContent);
          if (names.length !== Math.min(200, result.trace.length) || names.some((name) => /^$|read by|undefined|null/.test(name))) wrong.push(names);
          if (!/The same result\\.$/.test(document.getElementById('outcome').textContent)) wrong.push(base64);
        }
        return [tried, wrong];
      })()`);
      assert.deepEqual(wrong, []);
      assert.equal(tried, shown.length);
      assert.ok(tried >= worked.length - 1, `${tried} of ${worked.length}`);
    });

    await t.test('says so where the result is another one', async () => {
      const outcome = await tab.value(`(async () => {
        const { inspect } = await import('./inspector.js');
        const file = new Blob([new TextEncoder().encode('GIF89a0000000000')]);
        const { probeBlob } = await import('../../bindings/js/imagesize.js');
        const result = await probeBlob(file, { trace: true });
        await inspect({ name: 'other' }, { ...result, width: 7 });
        document.getElementById('scramble').click();
        while (!document.getElementById('outcome').className) await new Promise((resolve) => { setTimeout(resolve); });
        return [document.getElementById('outcome').textContent, document.getElementById('outcome').className];
      })()`);
      assert.match(outcome[0], /ANOTHER RESULT\.$/);
      assert.equal(outcome[1], 'error');
    });

    await t.test('reads less than 100 kB of a file of 3 GB', async () => {
      const path = join(folder, 'three gigabytes.tif');
      const file = openSync(path, 'w');
      const directory = Buffer.from('0200000103000100000005000000' + '01010400010000000700000000000000', 'hex');
      writeSync(file, Buffer.from('49492a00005ed0b2', 'hex'), 0, 8, 0);
      writeSync(file, directory, 0, directory.length, 3_000_000_000);
      ftruncateSync(file, 3_100_000_000);
      closeSync(file);
      await tab.value('bytesAsked = 0');
      await choose(tab, [path]);
      await tab.until(`document.querySelectorAll('.step').length === 9`);
      const { answer, cost } = await tab.value(SHOWN);
      assert.deepEqual([answer, cost], ['TIFF, 5 × 7 pixels', '8.2 kB of 3.1 GB read, in 2 steps']);
      const asked = await tab.value('bytesAsked');
      assert.ok(asked > 0 && asked < 100_000, `${asked} bytes`);
      await press(tab, '#clear');
    });

    await t.test('keeps 204 spans apart in the strip, and says where there are too many', async () => {
      const paths = [100, 50000].map((segments) => {
        const path = join(folder, `${segments} segments.jpg`);
        writeFileSync(path, jpegBehind(segments, 1000));
        return path;
      });
      await choose(tab, paths.slice(0, 1));
      await tab.until(`document.querySelectorAll('.step').length > 100`);
      const lines = await tab.value(`(() => {
        const { width, height } = document.getElementById('strip');
        const row = document.getElementById('strip').getContext('2d').getImageData(0, height / 2, width, 1).data;
        let lines = 0;
        for (let at = 1; at < width; at += 1) lines += row[4 * at + 3] > 0 && row[4 * at - 1] === 0;
        return lines;
      })()`);
      assert.ok(lines >= 90, `${lines} lines`);
      await tab.value(`document.getElementById('zoom').value = 5; document.getElementById('zoom').dispatchEvent(new Event('input'))`);
      assert.match(await tab.value(text('window')), /^bytes 0 to 3,/);
      await choose(tab, paths.slice(1));
      assert.match((await tab.value(SHOWN)).cost, /\. The result depends on too many fields to draw them\.$/);
      await press(tab, '#clear');
    });

    await t.test('walks a folder that is dropped, and lists what cannot be read', async () => {
      const below = join(folder, 'gallery', 'below');
      mkdirSync(below, { recursive: true });
      // A browser lists at most 100 entries at a call.
      const paths = [join(folder, 'gallery', 'a.gif'), ...Array.from({ length: 230 }, (_, index) => join(below, `${index}.gif`))];
      for (const path of paths) writeFileSync(path, 'GIF89a\x01\x00\x02\x00   ');
      await drop(tab, [join(folder, 'gallery')]);
      assert.equal(await tab.value(text('status')), '231 images read, 231 with a size');
      await press(tab, '#columns th:nth-child(2) button');
      assert.deepEqual((await tab.value(ROWS)).slice(0, 3).map(({ cells }) => cells.slice(1, 4)), [
        ['gallery/a.gif', 'GIF', '1 × 2'], ['gallery/below/0.gif', 'GIF', '1 × 2'], ['gallery/below/1.gif', 'GIF', '1 × 2'],
      ]);
      await press(tab, '#clear');
      await tab.value(`(async () => {
        const lost = async () => { throw new DOMException('gone', 'NotReadableError'); };
        const { add } = await import('./table.js');
        const result = await lost().catch((error) => error);
        add([{ input: { name: 'a', probe: lost }, result, time: 1 }, { input: { name: 'b', probe: lost }, result, time: 2 }]);
      })()`);
      assert.deepEqual((await tab.value(ROWS)).map(({ cells, refused }) => [cells[3], refused]), Array(2).fill(['The file cannot be read.', true]));
      await press(tab, '#clear');
    });

    await t.test('reads 2,000 files with a progress bar, and stays quick', async () => {
      const many = join(folder, 'many');
      mkdirSync(many);
      const paths = Array.from({ length: 2000 }, (_, index) => join(many, `${index}.jpg`));
      paths.forEach((path, index) => writeFileSync(path, index % 10 ? jpegBehind(1 + (index % 7), 40) : 'no image'));
      await tab.value(`globalThis.longest = 0; globalThis.values = []; globalThis.said = []; globalThis.chosen = Infinity;
        // What the browser itself does before it tells the page of 2,000 files does not count.
        document.getElementById('files').addEventListener('change', () => { chosen = performance.now(); }, true);
        new PerformanceObserver((list) => {
          for (const { startTime, duration } of list.getEntries()) longest = Math.max(longest, Math.min(duration, startTime + duration - chosen));
        }).observe({ type: 'longtask' });
        new MutationObserver(() => { if (!document.getElementById('running').hidden) values.push(document.getElementById('progress').value); })
          .observe(document.getElementById('sofar'), { childList: true });
        new MutationObserver(() => said.push(${text('status')})).observe(document.getElementById('status'), { childList: true })`);
      const begin = Date.now();
      await choose(tab, paths);
      const time = Date.now() - begin;
      const [longest, values, said, height, rows, hidden] = await tab.value(`[longest, values, said, document.documentElement.scrollHeight,
        document.querySelectorAll('#rows tr').length, document.getElementById('running').hidden]`);
      t.diagnostic(`2,000 files in ${time} ms, the longest task ${Math.round(longest)} ms`);
      assert.ok(values.length >= 100 && values.every((value, index) => index === 0 || value >= values[index - 1]), `${values}`);
      // A screen reader says the beginning and the end alone.
      assert.deepEqual(said.filter((text) => text), ['Reading 2,000 images', '2,000 images read, 1,800 with a size']);
      assert.ok(time < 15_000 && longest < 400 && height < 4000 && rows <= 200 && hidden, JSON.stringify({ time, longest, height, rows, hidden }));
      const shown = await tab.value(`new Promise((resolve) => {
        const scroll = document.getElementById('scroll');
        const more = () => {
          scroll.scrollTop = scroll.scrollHeight;
          if (document.getElementById('further').hidden) resolve([document.querySelectorAll('#rows tr').length, longest]);
          else setTimeout(more, 20);
        };
        more();
      })`);
      assert.equal(shown[0], 2000);
      assert.ok(shown[1] < 400, `${shown[1]} ms`);
    });

    await t.test('sorts the table, and copies it', async () => {
      const first = async () => (await tab.value(ROWS))[0].cells.slice(1, 4);
      await press(tab, '#columns th:nth-child(4) button');
      assert.deepEqual(await first(), ['0.jpg', '', 'The file ends before its size.']);
      assert.equal(await tab.value(`document.querySelector('#columns th:nth-child(4)').ariaSort`), 'ascending');
      await press(tab, '#columns th:nth-child(4) button');
      assert.deepEqual((await first()).slice(1), ['JPEG', '7 × 5']);
      assert.equal(await tab.value(`document.querySelector('#columns th:nth-child(4)').ariaSort`), 'descending');
      // 2.jpg comes before 10.jpg.
      await press(tab, '#columns th:nth-child(2) button');
      assert.deepEqual((await tab.value(ROWS)).slice(1, 12).map(({ cells }) => cells[1]), Array.from({ length: 11 }, (_, at) => `${at + 1}.jpg`));
      await tab.value(`navigator.clipboard.writeText = async (text) => { globalThis.copied = text; }`);
      await press(tab, '#csv');
      const lines = (await tab.value('copied')).split('\r\n');
      assert.deepEqual([lines.length, lines[0]], [2001, 'name,kind,compression,width,height,code,error,bytesRead,milliseconds']);
      assert.match(lines[1], /^0\.jpg,,,,,END_OF_INPUT,The file ends before its size\.,8,[\d.]+$/);
      assert.match(lines[2], /^1\.jpg,Jpeg,,7,5,,,\d+,[\d.]+$/);
      assert.equal(await tab.value(text('csv')), 'Copied');
      await press(tab, '#json');
      assert.equal(JSON.parse(await tab.value('copied'))[1].width, 7);
      await tab.until(`${text('json')} === 'Copy as JSON' && ${text('csv')} === 'Copy as CSV'`);
      await press(tab, '#clear');
      assert.equal(await tab.value(`document.getElementById('many').hidden`), true);
    });

    await t.test('shows a thumbnail where the browser can show one', async () => {
      const bitmap = Buffer.alloc(58);
      bitmap.write('BM');
      for (const [offset, value] of [[2, 58], [10, 54], [14, 40], [18, 1], [22, 1], [26, 1 | (24 << 16)], [34, 4]]) bitmap.writeUInt32LE(value, offset);
      bitmap.set([10, 120, 250], 54);
      await choose(tab, writeInputs(folder, [bitmap, 'no image', jpegBehind(1, 40)].map((bytes) => ({ bytes }))));
      await tab.value(`document.getElementById('many').scrollIntoView()`);
      await tab.until(`document.querySelectorAll('#rows canvas').length === 1`);
      const [type, pixel] = await tab.value(`(async () => {
        const picture = document.querySelector('#rows canvas');
        const copy = new OffscreenCanvas(1, 1).getContext('2d');
        copy.drawImage(picture, 0, 0, 1, 1);
        return [picture.closest('tr').children[2].textContent, Array.from(copy.getImageData(0, 0, 1, 1).data)];
      })()`);
      assert.deepEqual([type, pixel], ['BMP', [250, 120, 10, 255]]);
      await press(tab, '#clear');
    });

    await t.test('goes to an image of the table by a key, and shows the one that was asked for last', async () => {
      await choose(tab, [join(folder, 'many', '1.jpg'), join(folder, 'three gigabytes.tif')]);
      await tab.value(`document.querySelector('#rows tr:nth-child(2) button').focus()`);
      await key(tab, 'Enter');
      await tab.until(`${text('name')} === 'three gigabytes.tif' && document.activeElement.id === 'name'`);
      await tab.value(`for (const row of document.querySelectorAll('#rows tr button')) row.click();
        document.querySelector('#rows tr button').click()`);
      await tab.until(`${text('name')} === '1.jpg' && document.activeElement.id === 'name'`);
      await press(tab, '#clear');
    });

    await t.test('looks up addresses by ranges', async () => {
      await lookUp(tab, [`${origin}/examples/page/samples/end.tif`]);
      await tab.until(`document.querySelectorAll('.step').length > 0`);
      const { answer, cost } = await tab.value(SHOWN);
      assert.deepEqual([answer, cost], ['TIFF, 1,600 × 1,200 pixels', '5.4 kB of 120 kB read, in 2 steps']);
      await tab.value(`document.getElementById('addresses').value = ' '; document.querySelector('#lookup button').click()`);
      assert.equal(await tab.value(text('status')), 'Type an address first.');
      await tab.send('Network.setBlockedURLs', { urls: ['*://host.invalid/*'] });
      await lookUp(tab, ['host.invalid/a.jpg']);
      const asked = tab.events('Network.requestWillBeSent').map(({ request }) => request.url);
      assert.ok(asked.includes('https://host.invalid/a.jpg'));
      await press(tab, '#clear');
    });

    await t.test('reads servers of another origin as they allow it', async () => {
      const jpeg = jpegBehind(4, 50000);
      const allowed = { 'Access-Control-Allow-Origin': '*', 'Access-Control-Allow-Headers': 'Range' };
      const given = {
        open: { ...allowed, 'Access-Control-Expose-Headers': 'Content-Range, ETag', ETag: '"1"' },
        unexposed: allowed,
        closed: {},
        ranged: allowed,
        whole: allowed,
        packed: { ...allowed, 'Access-Control-Expose-Headers': 'Content-Range', 'Content-Encoding': 'gzip' },
      };
      const packed = gzipSync(iconOf(...Array(40).fill(16), 256));
      await withServer((request, response) => {
        const as = new URL(request.url, origin).searchParams.get('as');
        const headers = given[as];
        if (request.method === 'OPTIONS') return response.writeHead(204, headers).end();
        if (as === 'whole' || (as === 'unexposed' && !request.headers.range)) return response.writeHead(200, headers).end(jpeg);
        if (as === 'ranged' && !request.headers.range) return response.writeHead(206, headers).end(jpeg);
        if (as === 'packed') return giveRange(request, response, packed, headers);
        return giveRange(request, response, jpeg, headers);
      }, async (url) => {
        await lookUp(tab, [...Object.keys(given).map((name) => `${url}?as=${name}`), 'http://']);
        const rows = await tab.value(ROWS);
        assert.deepEqual(rows.slice(0, 5).map(({ cells }) => cells[3]), [
          '7 × 5',
          '7 × 5',
          'The server does not answer, or does not allow this page to read the file.',
          'The server does not tell this page which part of the file it sends.',
          '7 × 5',
        ]);
        // Some browsers reject such a response themselves.
        assert.ok(rows[5].refused);
        assert.equal(rows[6].cells[3], 'This is no web address.');
      });
      await press(tab, '#clear');
    });

    await t.test('tells each field to the keys and to a screen reader', async () => {
      await trySample(tab, 0);
      await tab.value(`document.querySelector('#steps li:nth-child(2) button').focus()`);
      await key(tab, 'Enter');
      assert.equal(await tab.value(`document.querySelector('[aria-current=step]').dataset.step`), '1');
      assert.equal(await tab.value(`document.querySelectorAll('#hex .byte.chosen').length`), 2);
      const { nodes } = await tab.send('Accessibility.getFullAXTree');
      const named = (role) => nodes.filter((node) => node.role?.value === role && !node.ignored).map(({ name }) => name?.value ?? '');
      assert.ok(named('button').every((name) => name !== '') && named('button').includes('Scramble every other byte'));
      assert.ok(named('image').concat(named('img')).some((name) => /^The whole file to scale: the result depends on 14 fields/.test(name)));
      assert.deepEqual(named('heading'), ['Which bytes tell the size of an image?', 'JPEG with segments', 'The result depends on 14 fields']);
      assert.ok(named('slider').includes('Zoom') && named('region').includes('Bytes in hex'));
      assert.equal(named('list').includes('The result depends on 14 fields'), true);
      // What is said without being asked for.
      const live = await tab.value(`['status', 'answer', 'outcome'].map((id) => document.getElementById(id).closest('[role=status], [aria-live=polite], output')?.checkVisibility())`);
      assert.deepEqual(live, [true, true, true]);
    });

    await t.test('has a table for a screen reader, on a phone too', async () => {
      await choose(tab, [join(folder, 'many', '1.jpg'), join(folder, 'many', '10.jpg')]);
      for (const width of [1280, 390]) {
        await viewport(tab, width, 900);
        const { nodes } = await tab.send('Accessibility.getFullAXTree');
        const roles = (role) => nodes.filter((node) => node.role?.value === role && !node.ignored).length;
        assert.deepEqual([roles('table'), roles('row'), roles('columnheader') >= 5, roles('cell')], [1, 3, true, 12]);
      }
      await viewport(tab, 1280, 900);
      await press(tab, '#clear');
    });

    await t.test('is walked by the tabulator from the top to the bottom', async () => {
      await choose(tab, [join(folder, 'many', '1.jpg'), join(folder, 'many', '2.jpg')]);
      await tab.until(`${text('name')} === '1.jpg'`);
      await tab.value(`document.querySelector('#samples button').focus()`);
      const walked = [];
      for (let at = 0; at < 80; at += 1) {
        await key(tab, 'Tab');
        const place = await tab.value(`(() => {
          const { id, tagName, textContent } = document.activeElement;
          const { top } = document.activeElement.closest('#samples, .bytes, .tools, thead, tr, #one .experiment, .scale')?.getBoundingClientRect() ?? document.activeElement.getBoundingClientRect();
          const { outlineStyle } = getComputedStyle(document.activeElement);
          return { name: id || textContent, tagName, top: top + scrollY, outlineStyle };
        })()`);
        if (place.tagName === 'BODY') break;
        walked.push(place);
      }
      const names = walked.map(({ name }) => name);
      for (const name of ['JPEG that is cut', 'choose', 'Look up web addresses', 'zoom', 'scramble', 'hex', 'csv', 'json', 'clear', 'scroll', 'Size', '2.jpg']) {
        assert.ok(names.includes(name), `${name}: ${names}`);
      }
      assert.ok(walked.every(({ top }, at) => at === 0 || top >= walked[at - 1].top), JSON.stringify(walked));
      assert.ok(walked.every(({ outlineStyle }) => outlineStyle !== 'none'), JSON.stringify(walked));
      await press(tab, '#clear');
    });

    await t.test('is drawn at two widths, in light and in dark, with nothing cut off, clear contrast, and red for errors alone', async () => {
      const name = `${'a long name without a space '.replaceAll(' ', '_').repeat(6)}.jpg`;
      writeFileSync(join(folder, name), jpegBehind(4, 50000));
      await choose(tab, [join(folder, name), join(folder, '100 segments.jpg'), join(folder, 'many', '0.jpg'), join(folder, 'three gigabytes.tif')]);
      await trySample(tab, 0);
      await press(tab, '#scramble');
      await tab.until(`document.getElementById('outcome').className === 'same'`);
      for (const scheme of ['light', 'dark']) {
        for (const [device, size] of [['wide', [1280, 900]], ['phone', [390, 844]]]) {
          await screenshot(tab, `${device}-${scheme}`, size, scheme);
          assert.deepEqual(await tab.value(`(${faults})(${device === 'phone'})`), [], `${device}, ${scheme}`);
        }
      }
      await trySample(tab, 5);
      await screenshot(tab, 'phone-error', [390, 844], 'light');
      assert.deepEqual(await tab.value(`(${faults})(true)`), []);
      await screenshot(tab, 'wide-error', [1280, 900], 'dark');
      assert.deepEqual(await tab.value(`(${faults})(false)`), []);
      await press(tab, '#clear');
    });

    await t.test('uploads nothing, throws nothing and breaks no rule of its own', () => {
      const requests = tab.events('Network.requestWillBeSent').map(({ request }) => request);
      assert.ok(requests.every(({ method }) => ['GET', 'OPTIONS'].includes(method)));
      const thrown = tab.events('Runtime.exceptionThrown').map(({ exceptionDetails }) => exceptionDetails.text);
      const logged = tab.events('Log.entryAdded').map(({ entry }) => entry.text);
      assert.deepEqual([...thrown, ...logged.filter((entry) => entry.includes('Content Security Policy'))], []);
    });
  });

  for (const blocked of ['*.wasm', '*/table.js', '*/http.js']) {
    await t.test(`says so where ${blocked} does not load, and has no control that works`, async () => {
      const block = (tab) => tab.send('Network.setBlockedURLs', { urls: [blocked] });
      await withPage(async (tab) => {
        assert.match(await tab.value(text('status')), /^The page could not be loaded: .*Failed to fetch.*\. Reload it to try again\.$/);
        assert.equal(await tab.value(`document.getElementById('status').classList.contains('error')`), true);
        assert.doesNotMatch(await tab.value('document.body.innerText'), /ready|try a sample/i);
        const working = await tab.value(`Array.from(document.querySelectorAll('main button, main textarea')).filter(({ disabled }) => !disabled).length`);
        assert.equal(working, 0);
      }, block);
    });
  }

  await t.test('says so where no script runs', async () => {
    const block = (tab) => tab.send('Network.setBlockedURLs', { urls: ['*/start.js'] });
    await withPage(async (tab) => {
      assert.equal(await tab.value(text('status')), 'This page needs JavaScript, and its scripts have not loaded.');
    }, block, `document.readyState === 'complete' && ${text('status')} !== ''`);
  });

  await t.test('is at most 80 kB, packed, with the library', async (t) => {
    await withPage(async (tab, folder, { origin }) => {
      const sent = new Set(tab.events('Network.requestWillBeSent').map(({ request }) => request.url).filter((url) => url.startsWith(origin)));
      const files = [...sent].map((url) => new URL(url).pathname).map((path) => (path.endsWith('/') ? `${path}index.html` : path));
      for (const name of ['index.html', 'page.css', 'fields.js', 'imagesize.wasm', 'http.js']) assert.ok(files.some((file) => file.endsWith(`/${name}`)), name);
      const packed = (file) => gzipSync(readFileSync(join(page, '../..', file)), { level: 9 }).length;
      const length = files.reduce((sum, file) => sum + packed(file), 0);
      t.diagnostic(`${files.length} files, ${length} bytes packed by gzip -9`);
      assert.ok(length <= 80_000, `${length} bytes`);
    });
  });

  await t.test('has the samples that its script writes', () => {
    execFileSync(join(page, 'make_samples.py'), ['--check']);
  });

  await t.test('is served with ranges, and nothing else is', async () => {
    await withServe(async (address) => {
      const file = readFileSync(join(page, 'samples', 'end.tif'));
      const get = async (path, range) => {
        const response = await fetch(new URL(path, address), { headers: range ? { Range: range } : {} });
        return [response.status, response.headers.get('Content-Range'), Buffer.from(await response.arrayBuffer())];
      };
      assert.deepEqual(await get('samples/end.tif', 'bytes=120000-120009'), [206, `bytes 120000-120009/${file.length}`, file.subarray(120000, 120010)]);
      assert.deepEqual(await get('samples/end.tif', 'bytes=120000-'), [206, `bytes 120000-${file.length - 1}/${file.length}`, file.subarray(120000)]);
      assert.deepEqual(await get('samples/end.tif', 'bytes=0-999999'), [206, `bytes 0-${file.length - 1}/${file.length}`, file]);
      assert.deepEqual((await get('samples/end.tif', `bytes=${file.length}-`)).slice(0, 2), [416, `bytes */${file.length}`]);
      for (const range of [undefined, 'bytes=9-5', 'bytes=0-1,5-6', 'pages=1-2']) {
        assert.deepEqual(await get('samples/end.tif', range), [200, null, file], range);
      }
      for (const path of ['/README.md', '/examples/run', '/examples/page/../../README.md', '/examples/page/%2e%2e/run', '/bindings/python/pyproject.toml']) {
        assert.equal((await get(path))[0], 404, path);
      }
    });
  });
});
