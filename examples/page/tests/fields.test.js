// The names of spans: each has one, in every test vector and in every cut of it, and it is that of the field.

import assert from 'node:assert/strict';
import { readFileSync } from 'node:fs';
import { test } from 'node:test';
import { probe, spans } from '../../../bindings/js/imagesize.js';
import { worked } from '../../../bindings/js/tests/support.js';
import { namesOf } from '../fields.js';
import { Scrambled } from '../scrambled.js';

// What the library says of some bytes, with the name of each span.
function named(bytes) {
  let result;
  try {
    result = probe(bytes);
  } catch (error) {
    result = error;
  }
  const trace = spans(bytes).map(({ start, len }) => ({ start, bytes: new Uint8Array(bytes.subarray(start, start + len)) }));
  return { result, trace, names: namesOf(result.kind, trace, bytes.length) };
}

const hex = (...parts) => Buffer.concat(parts.map((part) => Buffer.from(part.replaceAll(' ', ''), 'hex')));
const ascii = (text) => Buffer.from(text, 'latin1').toString('hex');

test('each span of each test vector has a name, wherever the input ends', () => {
  const kinds = new Set();
  for (const { bytes } of worked) {
    for (let length = Math.min(bytes.length, 200); length >= 0; length -= 1) {
      const { result, names } = named(length < 200 ? bytes.subarray(0, length) : bytes);
      for (const name of names) assert.match(name, /^(?!.*(undefined|null|NaN|read by|\0)).+$/s, `${result.kind}: ${names}`);
      if (result.kind) kinds.add(result.kind);
    }
  }
  const [, declared] = /export type Kind =(.*?);/s.exec(readFileSync(new URL('../../../bindings/js/imagesize.d.ts', import.meta.url), 'utf8'));
  assert.deepEqual([...declared.matchAll(/'(\w+)'/g)].map(([, kind]) => kind).filter((kind) => !kinds.has(kind) && kind !== 'Png'), []);
});

test('a span named width holds the width, and one named height the height', () => {
  // A WebP packs its sides, and a TIFF may hold more entries than the one that counts.
  const readings = [
    (bytes) => bytes.readUIntBE(0, Math.min(bytes.length, 6)), (bytes) => bytes.readUIntLE(0, Math.min(bytes.length, 6)),
    (bytes) => bytes.readUInt32BE(0), (bytes) => bytes.readUInt16BE(0), (bytes) => bytes.readUInt16LE(0), (bytes) => Number(bytes.toString().replace(/^\p{White_Space}+|\p{White_Space}+$/gu, '')),
  ];
  let checked = 0;
  for (const { bytes, line } of worked.filter((row) => !/^(Webp|Tga|Jxl)/.test(row.line))) {
    const { result, trace, names } = named(bytes);
    if (result.width === undefined) continue;
    for (const side of ['width', 'height']) {
      const last = names.lastIndexOf(side);
      if (last < 0) continue;
      const held = readings.map((read) => { try { return read(Buffer.from(trace[last].bytes)); } catch { return undefined; } });
      assert.ok(held.includes(result[side]), `${line}, ${side}: ${held}`);
      checked += 1;
    }
  }
  assert.ok(checked >= 100, `${checked} sides`);
});

test('names follow the structure of a format', () => {
  const cases = [
    // A marker with only one byte there; and a segment of length 0, whose own bytes are read as the next marker.
    [hex('ffd8 ffe0 0007 0000000000 ff'), ['marker: APP0', 'segment length', 'marker, which is cut']],
    [hex('ffd8 ffe0 0000 000000000000'), ['marker: APP0', 'segment length', 'no marker']],
    // A chunk of 2 bytes: the header is 10 bytes after it.
    [hex(`${ascii('FORM')} 00000020 ${ascii('ILBMANNO')} 00000002 0000 ${ascii('BMHD')} 00000014 0140 00c8 00000000`),
      ['chunk: ANNO', 'chunk: BMHD', 'width', 'height']],
    // Extents without their last three bytes.
    [hex(`00000010 ${ascii('ftypavif')} 00000000 00000039 ${ascii('meta')} 00000000 0000002d ${ascii('iprp')} 00000025 ${ascii('ipco')} 00000014 ${ascii('ispe')} 0000000000000040 00`),
      ['size of the first box', 'box: meta', 'version and flags', 'box: iprp', 'box: ipco', 'box: ispe', 'width and height']],
    // A comment, a width, and a height that begins as a comment does.
    [Buffer.from('P1 # one\n12 #7\n00000'), ['comment', 'comment', 'width', 'height']],
    // The name of an attribute has 16 bytes, as a data window has.
    [hex(`762f3101 02000000 ${ascii('aaaaaaaaaaaaaaa\0int\0')} 04000000 00000000 ${ascii('bbbbbbbbbbbbbbb\0int\0')} 04000000 00000000 ${ascii('dataWindow\0box2i\0')} 10000000 00000000 00000000 06000000 04000000`),
      ['version', 'attribute: aaaaaaaaaaaaaaa', 'type of the attribute', 'size of the attribute', 'attribute: bbbbbbbbbbbbbbb',
        'type of the attribute', 'size of the attribute', 'attribute: dataWindow', 'type of the attribute', 'size of the attribute', 'data window']],
    // A box whose size has 8 bytes, and then two pieces of the codestream.
    [hex(`0000000c 4a584c20 0d0a870a 00000001 ${ascii('free')} 0000000000000012 ffff 0000000e ${ascii('jxlp')} 00000000 ff0a 0000000f ${ascii('jxlp')} 80000001 41c000`),
      ['signature', 'box: free', 'size of the box', 'box: jxlp', 'index of the piece', 'width and height, in bits', 'box: jxlp',
        'index of the piece', 'width and height, in bits']],
    // A texture in a PKM file, whose data type is one of ATC.
    [hex(`${ascii('PKM 10')} 8c92 0040 0028 003c 0028 00`), ['signature', 'signature', 'signature', 'padded width', 'padded height', 'width', 'height']],
    [Buffer.from('nothing that is known'), []],
  ];
  for (const [bytes, expected] of cases) {
    const { names } = named(bytes);
    assert.deepEqual(names.slice(1), expected);
  }
  assert.deepEqual(namesOf('Png', [[0, 12], [16, 4], [20, 4]].map(([start, length]) => ({ start, bytes: new Uint8Array(length) })), 99), ['signature', 'width', 'height']);
  assert.deepEqual(namesOf('Other', [[0, 12], [16, 4]].map(([start, length]) => ({ start, bytes: new Uint8Array(length) })), 99)[1], 'read by Other');
});

test('a scrambled input keeps its length and its spans, and nothing else', () => {
  const total = 6_000_000_000;
  const trace = [{ start: 0, bytes: new Uint8Array([1, 2, 3]) }, { start: 5_000_000_000, bytes: new Uint8Array([7, 7]) }];
  const other = new Scrambled(total, trace, 12345);
  assert.equal(other.size, total);
  assert.deepEqual([...other.bytes(0, 3)], [1, 2, 3]);
  assert.deepEqual([...other.bytes(5_000_000_000, 5_000_000_002)], [7, 7]);
  assert.deepEqual(other.bytes(100, 300).subarray(50), other.bytes(150, 300));
  assert.equal(other.bytes(total - 5, total + 5).length, 5);
  for (const start of [3, 4_999_000_000]) {
    const counts = new Map();
    for (const byte of other.bytes(start, start + 100_000)) counts.set(byte, (counts.get(byte) ?? 0) + 1);
    assert.ok(counts.size === 256 && Math.max(...counts.values()) < 600, 'bytes are spread evenly');
  }
  assert.notDeepEqual(other.bytes(3, 100), new Scrambled(total, trace, 54321).bytes(3, 100));
});
