// The proved library as WebAssembly: its calls, over bytes that are copied into its memory.

import { ImageError } from './errors.js';

/** What a call returns, by its number in include/imagesize.h. */
export const STATUSES = [
  // by bindings/lists.py: statuses
  'ANSWERED', 'NOT_SUPPORTED', 'CORRUPTED_IMAGE', 'FAULT', 'END_OF_INPUT', 'NOT_ENOUGH_DATA', 'BUDGET_SPENT',
  'OUT_OF_MEMORY', 'NO_DELIMITER', 'NOT_UTF8', 'INVALID_HEIF_BOX_SIZE', 'INVALID_JXL_BOX_SIZE', 'INVALID_JXL_SIGNATURE',
  'INVALID_TIFF_HEADER', 'BIG_TIFF_OFFSET_SIZE', 'INVALID_BIG_TIFF_HEADER', 'INVALID_IFD_OFFSET',
  'IFD_TYPE_FOR_STANDARD_TIFF', 'INVALID_IFD_TYPE', 'INVALID_IFD_VALUE_LENGTH', 'NO_DIMENSIONS_IN_IFD', 'INVALID_VP8_TAG',
  'DATA_WINDOW_NOT_FOUND', 'INVALID_HDR_IDENTIFIER', 'INVALID_HDR_DIMENSIONS_LINE', 'HDR_DIMENSIONS_NOT_FOUND',
  'PNM_DIMENSIONS_NOT_FOUND', 'BUFFER_TOO_SMALL', 'UNKNOWN_TYPE', 'UNKNOWN_STATUS', 'BYTES_WANTED',
  // end of the list
];
const ANSWERED = 0;
const BYTES_WANTED = 30;

const PAGE = 65536;
const SPAN = 16;

// The offsets of a call's results from the base of the free memory, and the offset of the buffers that it gets.
const AT = { type: 0, compression: 4, width: 8, height: 16, wanted: 24, count: 40, lent: 48 };
const TEXT_ROOM = 256;

// How many bytes the state of a push parser has, or of a probe over spans, and the length of an input if it is not known.
const STATE_SIZE = 1280;
const LENGTH_UNKNOWN = 0xffff_ffff_ffff_ffffn;

// Longer bytes are copied to a memory of their own.
const SMALL = 2 ** 20;

/** How many bytes a push parser or a probe over spans is passed at once, at most. */
export const PIECE = 65536;

// How many bytes of an array are passed first. Most sizes lie within them.
const BLOCK = 4096;

const NO_NAMES = { kind: null, compression: null };

// PNG among the numbers of types. The library has calls of its own for PNG, and no number.
const PNG = 1000;
export const PNG_SIGNATURE = [0x89, 0x50, 0x4e, 0x47, 0x0d, 0x0a, 0x1a, 0x0a];

/** The library in a memory of its own, whose addresses have 32 or 64 bits. */
export class Library {
  #module;
  #calls;
  #memory;
  #base;
  #answers;
  #bytes;
  #view;
  #names = { [PNG]: [{ kind: 'Png', compression: null }] };
  #texts = [];

  constructor(module, { exports }) {
    this.#module = module;
    this.#calls = exports;
    this.#memory = exports.memory;
    this.#base = Math.ceil(Number(exports.__heap_base.value) / SPAN) * SPAN;
    this.#answers = Object.fromEntries(Object.entries(AT).map(([name, at]) => [name, this.#pointer(at)]));
    this.#lend(AT.lent + STATE_SIZE + PIECE);
  }

  /** How many bytes its memory has. */
  get size() {
    return this.#memory.buffer.byteLength;
  }

  /**
   * Type and size of the image in some bytes: `{ image }` or `{ error }`. They are copied block by block, and bytes between two far
   * blocks are not copied. No other call comes between, so the state stays in the memory.
   */
  probe(bytes) {
    if (beginsPng(bytes)) return this.probePng(bytes.subarray(0, BLOCK), bytes.length);
    this.#begin(bytes.length);
    let block = { start: 0, end: BLOCK };
    for (;;) {
      this.#pass(block.start, bytes.subarray(block.start, block.end));
      const answer = this.#answer();
      if (!answer.wanted) return answer;
      block = blockAfter(block, answer.wanted);
    }
  }

  /** The state of a probe over spans at the beginning of an input of `total` bytes. */
  roundsOf(total) {
    this.#begin(total);
    return this.#state.slice();
  }

  /**
   * Passes the bytes of an input from an offset on to a probe over spans, whose state changes. Returns `{ wanted }`, a span that is
   * needed, `{ image }` or `{ error }`.
   */
  supply(state, start, bytes) {
    this.#bytes.set(state, this.#base + AT.lent);
    this.#pass(start, bytes);
    // A text of the answer is written over the state.
    state.set(this.#state);
    return this.#answer();
  }

  // Makes the state in the memory that of an input of `total` bytes.
  #begin(total) {
    this.#calls.imagesize_rounds_new(this.#pointer(AT.lent), BigInt(total));
  }

  // Passes bytes to the state in the memory.
  #pass(start, bytes) {
    const [state, buffer] = [this.#pointer(AT.lent), this.#pointer(AT.lent + STATE_SIZE)];
    for (let at = 0; at < bytes.length; at += PIECE) {
      const piece = bytes.subarray(at, at + PIECE);
      this.#bytes.set(piece, this.#base + AT.lent + STATE_SIZE);
      this.#calls.imagesize_rounds_supply(state, BigInt(start + at), buffer, BigInt(piece.length));
    }
  }

  // What the state in the memory says.
  #answer() {
    this.#putNumber(AT.type, 0);
    const { type, compression, width, height, wanted } = this.#answers;
    const status = this.#calls.imagesize_rounds_answer(this.#pointer(AT.lent), type, compression, width, height, wanted);
    return status === BYTES_WANTED ? { wanted: this.#span(AT.wanted) } : this.#told(status);
  }

  /** The size of a PNG of `total` bytes with these first bytes: `{ wanted }`, `{ image }` or `{ error }`. */
  probePng(front, total) {
    return this.#probePng({ pieces: [{ start: 0, bytes: front }], length: front.length }, total);
  }

  #probePng({ pieces, length }, total) {
    const bytes = AT.lent + SPAN * pieces.length;
    this.#lend(bytes + length);
    this.#putSpans(AT.lent, pieces);
    this.#putPieces(bytes, pieces);
    this.#putNumber(AT.type, PNG);
    const { width, height, wanted } = this.#answers;
    const known = [this.#pointer(bytes), BigInt(length), this.#pointer(AT.lent), BigInt(pieces.length), BigInt(total)];
    const status = this.#calls.imagesize_png_parts_size(...known, width, height, wanted);
    return status === BYTES_WANTED ? { wanted: this.#span(AT.wanted) } : this.#told(status);
  }

  /** The state of a push parser at the beginning of an input of `total` bytes, or of `Infinity` if that is not known. */
  streamOf(total) {
    this.#calls.imagesize_stream_new(this.#pointer(AT.lent), total < Infinity ? BigInt(total) : LENGTH_UNKNOWN);
    return this.#state.slice();
  }

  /**
   * Passes the next bytes, at most `PIECE`, to a push parser, whose state changes. Returns `{ image }` or `{ error }`, or null if more
   * bytes are needed.
   */
  push(state, bytes) {
    this.#putPieces(AT.lent, [{ bytes: state }, { bytes }]);
    const passed = [this.#pointer(AT.lent + STATE_SIZE), BigInt(bytes.length)];
    const status = this.#parse(this.#calls.imagesize_stream_push, ...passed);
    state.set(this.#state);
    return status === BYTES_WANTED ? null : this.#told(status);
  }

  /** Ends the input of a push parser, whose state is then of no more use. */
  finish(state) {
    this.#putPieces(AT.lent, [{ bytes: state }]);
    return this.#told(this.#parse(this.#calls.imagesize_stream_finish));
  }

  /** The spans that type and size of these bytes depend on, if there are at most so many. */
  spans(bytes, most) {
    if (beginsPng(bytes)) return this.#spansOfPng(bytes, bytes.length, most);
    const library = bytes.length > SMALL ? this.#apart() : this;
    return library.#spansOf([{ start: 0, bytes }], bytes.length, most);
  }

  /**
   * The spans of an input of `total` bytes, if its known parts give the result: then no other bytes matter. The input is in a
   * memory of its own, and the engine allocates only the pages that are written.
   */
  async spansOfParts(parts, total, most) {
    if (beginsPng(parts.pieces[0]?.bytes)) return this.#spansOfPng(parts.pieces[0].bytes, total, most);
    const apart = new Library(this.#module, await WebAssembly.instantiate(this.#module));
    return apart.#spansOf(parts.pieces, total, most);
  }

  /** The same at once, in Node. */
  spansOfPartsSync(parts, total, most) {
    if (beginsPng(parts.pieces[0]?.bytes)) return this.#spansOfPng(parts.pieces[0].bytes, total, most);
    return this.#apart().#spansOf(parts.pieces, total, most);
  }

  // The library in another memory, which is freed after its use: a memory that has grown never shrinks. Some engines make none at once
  // in the thread of a page. Then it is this memory that grows.
  #apart() {
    try {
      return new Library(this.#module, new WebAssembly.Instance(this.#module));
    } catch {
      return this;
    }
  }

  #spansOf(pieces, length, most) {
    const buffer = AT.lent + Math.ceil(length / SPAN) * SPAN;
    this.#lend(buffer);
    for (const { start, bytes } of pieces) this.#bytes.set(bytes, this.#base + AT.lent + start);
    const count = this.#tellSpans(length, buffer, 0);
    checkCount(count, most);
    this.#lend(buffer + SPAN * count);
    this.#tellSpans(length, buffer, count);
    return Array.from({ length: count }, (_, index) => this.#span(buffer + SPAN * index));
  }

  // The spans of a PNG with these first bytes: each requested span in turn.
  #spansOfPng(front, total, most) {
    const known = { pieces: [], length: 0 };
    const spans = [];
    for (;;) {
      const { wanted } = this.#probePng(known, total);
      if (!wanted) break;
      spans.push(wanted);
      known.pieces.push({ start: wanted.start, bytes: front.subarray(wanted.start, wanted.start + wanted.len) });
      known.length += wanted.len;
    }
    checkCount(spans.length, most);
    return spans;
  }

  // A call over the state that is in the memory.
  #parse(call, ...passed) {
    this.#putNumber(AT.type, 0);
    const { type, compression, width, height } = this.#answers;
    return call(this.#pointer(AT.lent), ...passed, type, compression, width, height);
  }

  get #state() {
    const start = this.#base + AT.lent;
    return this.#bytes.subarray(start, start + STATE_SIZE);
  }

  #tellSpans(length, buffer, count) {
    this.#calls.imagesize_spans(
      this.#pointer(AT.lent), BigInt(length), this.#pointer(buffer), BigInt(count), this.#pointer(AT.count),
    );
    return this.#number(AT.count);
  }

  // Makes the memory at least so many bytes long after the base, and renews the views of a memory that has grown.
  #lend(size) {
    const missing = this.#base + size - this.#memory.buffer.byteLength;
    if (missing > 0) grow(this.#memory, Math.ceil(missing / PAGE));
    if (this.#bytes?.buffer !== this.#memory.buffer) {
      this.#bytes = new Uint8Array(this.#memory.buffer);
      this.#view = new DataView(this.#memory.buffer);
    }
  }

  #pointer(at) {
    return BigInt(this.#base + at);
  }

  // The bytes of pieces, one piece after another.
  #putPieces(at, pieces) {
    let offset = this.#base + at;
    for (const { bytes } of pieces) {
      this.#bytes.set(bytes, offset);
      offset += bytes.length;
    }
  }

  // The spans of pieces.
  #putSpans(at, pieces) {
    let offset = at;
    for (const { start, bytes } of pieces) {
      this.#putNumber(offset, start);
      this.#putNumber(offset + 8, bytes.length);
      offset += SPAN;
    }
  }

  #putNumber(at, number) {
    this.#view.setUint32(this.#base + at, number >>> 0, true);
    this.#view.setUint32(this.#base + at + 4, Math.floor(number / 2 ** 32), true);
  }

  #span(at) {
    return { start: this.#number(at), len: this.#number(at + 8) };
  }

  // A number of 64 bits, which is exact under 2^53.
  #number(at) {
    return this.#view.getUint32(this.#base + at, true) + this.#view.getUint32(this.#base + at + 4, true) * 2 ** 32;
  }

  #told(status) {
    const { kind, compression } = this.#named();
    if (status !== ANSWERED) {
      return { error: new ImageError(STATUSES[status], this.#statusText(status), { kind, compression }) };
    }
    const width = this.#number(AT.width);
    const height = this.#number(AT.height);
    if (Math.max(width, height) <= Number.MAX_SAFE_INTEGER) return { image: { kind, compression, width, height } };
    return { error: new ImageError('SIDE_TOO_LARGE', 'A side has 2^53 pixels or more', { kind, compression }) };
  }

  // The names of the type and the compression that the call wrote.
  #named() {
    const type = this.#view.getUint32(this.#base + AT.type, true);
    const compression = this.#view.getUint32(this.#base + AT.compression, true);
    const known = this.#names[type]?.[compression];
    if (known !== undefined || type === 0) return known ?? NO_NAMES;
    const kind = this.#text(this.#calls.imagesize_type_name, type, compression);
    const name = this.#text(this.#calls.imagesize_compression_name, type, compression);
    const names = { kind, compression: name || null };
    (this.#names[type] ??= [])[compression] = names;
    return names;
  }

  #statusText(status) {
    this.#texts[status] ??= this.#text(this.#calls.imagesize_status_text, status);
    return this.#texts[status];
  }

  // The text of a call. All texts are shorter than the buffer.
  #text(call, ...numbers) {
    call(...numbers, this.#pointer(AT.lent), BigInt(TEXT_ROOM), this.#pointer(AT.count));
    const start = this.#base + AT.lent;
    return String.fromCharCode(...this.#bytes.subarray(start, start + this.#number(AT.count)));
  }
}

/**
 * The block of some bytes that is passed after another. It begins at the first byte that is needed. If at most as many bytes lie between
 * them as the last block has, it is twice as long, up to `PIECE`: each block costs a call. Otherwise it has `BLOCK` bytes.
 */
export function blockAfter({ start, end }, wanted) {
  const length = end - start;
  const isNear = wanted.start <= end + length;
  return { start: wanted.start, end: wanted.start + (isNear ? Math.min(2 * length, PIECE) : BLOCK) };
}

/** Whether an input that begins with these bytes is a PNG. */
export function beginsPng(bytes) {
  return PNG_SIGNATURE.every((byte, index) => bytes?.[index] === byte);
}

function checkCount(count, most) {
  if (count > most) throw new ImageError('TOO_MANY_SPANS', `The result depends on ${count} spans, and ${most} are allowed`);
}

// The pages of a 32-bit memory are counted by a number, and those of a 64-bit one by a BigInt, or in older engines by a number.
function grow(memory, pages) {
  try {
    memory.grow(BigInt(pages));
  } catch (error) {
    if (error.name !== 'TypeError') throw error; // Another realm has a TypeError of its own.
    memory.grow(Math.min(pages, 2 ** 32 - 1));
  }
}
