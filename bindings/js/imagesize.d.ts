/** A type of image. */
export type Kind =
  // by bindings/lists.py: types
  | 'Aseprite' | 'Astc' | 'Atc' | 'Bmp' | 'Dds' | 'Eac' | 'Etc2' | 'Exr' | 'Farbfeld' | 'Gif' | 'Hdr' | 'Heif' | 'Ico'
  | 'Ilbm' | 'Jpeg' | 'Jxl' | 'Ktx2' | 'Pnm' | 'Pvrtc' | 'Psd' | 'Qoi' | 'Tga' | 'Tiff' | 'Vtf' | 'Webp'
  // end of the list
  | 'Png';

/** A compression, for the types that have one. */
export type Compression =
  | 'Unknown' | 'Rgb' | 'RgbaExplicit' | 'RgbaInterpolated' | 'Bc1' | 'Bc2' | 'Bc3' | 'Bc4' | 'Bc5' | 'Bc6h' | 'Bc7'
  | 'Rgba32' | 'Rgb24' | 'Etc1' | 'Etc2' | 'Etc2A1' | 'Etc2A8' | 'EacR' | 'EacRg' | 'EacRSigned' | 'EacRgSigned' | 'Av1'
  | 'Hevc' | 'Jpeg' | 'Pvrtc2BppRgb' | 'Pvrtc2BppRgba' | 'Pvrtc4BppRgb' | 'Pvrtc4BppRgba' | 'Etc2Rgb' | 'Etc2Rgba'
  | 'Etc2RgbA1' | 'EacR11' | 'EacRg11';

/** The type and the size of an image. */
export interface Image {
  /** The type, such as `'Gif'`. */
  kind: Kind;
  /** The compression, such as `'Bc7'` for a DDS or `'Av1'` for a HEIF; null if the type has none. */
  compression: Compression | null;
  /** The width in pixels. */
  width: number;
  /** The height in pixels. */
  height: number;
}

/** A range of bytes: `len` bytes from offset `start`. Offsets count from 0. */
export interface Span {
  start: number;
  len: number;
}

/** Some of the bytes, from offset `start` on. */
export interface Piece {
  start: number;
  bytes: Uint8Array;
}

/** What a probe in blocks, ranges or chunks has read. */
export interface Reads {
  /** The length of the input in bytes. It is `Infinity` as long as the length of a stream is not known. */
  total: number;
  /** How many slices, blocks or ranges were read. A stream counts as one. */
  reads: number;
  /** How many bytes were read in all. */
  bytesRead: number;
  /**
   * With the option `trace`: the bytes of each span that the result depends on, as `spans` returns them. It is null if there
   * are more than 65,536, or if the input is longer than the library's memory (4 GiB, or what the engine gives).
   */
  trace?: Piece[] | null;
}

export interface Options {
  /** Ends the probe with the signal's reason. Without one, the probe waits for a server that stalls. */
  signal?: AbortSignal;
  /**
   * How many bytes may be read. The default is 1 MiB from a server or of the request of a client, whose bytes are stored, and 64 MiB of a
   * file, a blob or another stream.
   */
  maxBytes?: number;
  /** Whether the bytes that the result depends on are returned, also in an `ImageError`. All chunks of a stream are then stored. */
  trace?: boolean;
}

/** What is known about a stream before its first byte. */
export interface StreamLength {
  /** The length of the input in bytes. The default is `Infinity`: not known. Bytes past that length do not count. */
  total?: number;
}

/** A stream of bytes: `Response.body`, `Blob.stream()`, a `Readable` of Node, or an iterable of chunks. */
export type Chunks = ReadableStream<Uint8Array> | AsyncIterable<Uint8Array> | Iterable<Uint8Array>;

/**
 * Loads the library, once: later calls wait for the first. Await it before any other call. In Node it is not needed, since the
 * first call loads the file `imagesize.wasm` of this package.
 *
 * @param source where the library is: its address (in Node also a path), its bytes, or its module. The default is
 * `out/imagesize.wasm` next to this ES module. A script that a bundler made as `iife` does not know its address, so it must
 * pass `source`.
 * @throws {ImageError} `'NO_LIBRARY'`, with the reason as its `cause`; then `init` may be called again
 * @example
 * await init(new URL('imagesize.wasm', document.baseURI))
 */
export function init(source?: string | URL | ArrayBuffer | ArrayBufferView | WebAssembly.Module): Promise<void>;

/**
 * Returns type and size of the image in some bytes: all bytes of its file, or its first bytes.
 *
 * @throws {ImageError} if there is no size; see `RefusalCode`
 * @throws {TypeError} if the argument is not bytes
 * @example
 * probe(new TextEncoder().encode('GIF89a00000')) // { kind: 'Gif', compression: null, width: 12336, height: 12336 }
 */
export function probe(bytes: ArrayBufferLike | ArrayBufferView): Image;

/**
 * Returns the spans that the result of `probe` depends on, in the order of the reads and with repeats, also if it is an error.
 * Every other input of this length that has the same bytes there has the same result. All bytes are copied once, to memory that is
 * freed afterwards.
 *
 * @throws {RangeError} if the copy does not fit into the library's memory (4 GiB, or what the engine gives)
 * @throws {ImageError} `'TOO_MANY_SPANS'` if there are more than `limit` spans, by default 65,536
 * @throws {TypeError} if the argument is not bytes
 */
export function spans(bytes: ArrayBufferLike | ArrayBufferView, options?: { limit?: number }): Span[];

/**
 * Returns type and size of the image in a `Blob` or `File`. Only a few slices are read.
 *
 * @throws {TypeError} if the argument is no `Blob`
 * @throws {ImageError} as `probe`; `'CUT_SHORT'` if a slice is shorter than the blob reported, `'LIMIT_REACHED'`
 */
export function probeBlob(blob: Blob, options?: Options): Promise<Image & Reads>;

/**
 * Returns type and size of the image at an address. Only a few ranges are fetched. A server that gives no ranges is read from
 * the beginning until there is a result. After a redirect, later ranges are fetched from the new address.
 *
 * A server of another origin must allow this one, and must expose the header `Content-Range` for ranges. If it does not, or if its
 * `Content-Range` is odd, the input is requested whole, and is read from the beginning until there is a result.
 *
 * @throws {ImageError} as `probe`; see `SourceCode`
 * @throws {TypeError} if the argument is not an address
 */
export function probeUrl(url: string | URL, options?: Options): Promise<Image & Reads>;

/**
 * Returns type and size of the image in a file. Only a few blocks are read. It works only in Node.
 *
 * @throws {ImageError} as `probe`; `'NOT_A_FILE'`, `'CUT_SHORT'` if the file becomes shorter while it is read, `'LIMIT_REACHED'`
 * @throws {Error} the error of the system, such as `ENOENT`
 */
export function probeFile(path: string | URL, options?: Options): Promise<Image & Reads>;

/**
 * Returns type and size of the image in a file at once, for programs that read one file after another. It works only in Node. It takes
 * a fifth to a tenth of the time of `probeFile`, and other code waits meanwhile.
 *
 * @throws {ImageError} as `probeFile`
 * @throws {Error} the error of the system, such as `ENOENT`
 * @example
 * const { kind, width, height } = probeFileSync('photo.jpg');
 */
export function probeFileSync(path: string | URL, options?: Omit<Options, 'signal'>): Image & Reads;

/**
 * Returns type and size of the image in a stream. Each chunk is passed to the library once, and then forgotten. The stream is
 * cancelled as soon as there is a result, an error or an abort: a reader by `cancel()`, an iterator by `return()`, and a stream of
 * Node by `destroy()`.
 *
 * A request in a Node server is not destroyed, because the reply goes through its socket. Its bytes are stored until there is a
 * result, and are then given back: the server can reply, and can read the whole body as if nothing had been read. At most `maxBytes` are
 * stored, by default 1 MiB. A TIFF whose directory is at its end, or a JPEG with more metadata, needs a higher limit. If the server
 * does not read the body, it calls `request.resume()` after its reply, so that the connection can be used again.
 *
 * @throws {ImageError} as `probe`; `'CUT_SHORT'` if the stream ends before `total` bytes, `'LIMIT_REACHED'`
 * @throws {RangeError} if `total` or `maxBytes` is no whole number of bytes
 * @throws {TypeError} if the argument is no stream, if it is locked, or if a chunk is not bytes, as after `request.setEncoding()`
 * @throws the stream's own error
 * @example
 * await probeStream(response.body) // { kind: 'Gif', compression: null, width: 100, height: 50, total: Infinity, .. }
 */
export function probeStream(stream: Chunks, options?: Options & StreamLength): Promise<Image & Reads>;

/**
 * A probe of bytes that come in chunks of any length, for a caller that passes them on too. It has 1.3 kB of state, keeps no chunk,
 * and needs no release.
 *
 * @example
 * const probe = new StreamProbe();
 * for await (const chunk of chunks) {
 *   const image = probe.feed(chunk); // null until the size is known
 *   if (image && image.width * image.height > 50_000_000) return refuse(image);
 *   file.write(chunk);
 * }
 * probe.close();
 */
export class StreamProbe {
  /**
   * @throws {RangeError} if `total` is no whole number of bytes
   * @throws {ImageError} `'NOT_LOADED'` or `'NO_LIBRARY'`
   */
  constructor(options?: StreamLength);

  /**
   * Passes the next bytes. Returns null as long as more bytes are needed, and type and size as soon as they depend on no later
   * byte. From then on each call returns the same, or throws the same.
   *
   * @throws {ImageError} as `probe`, as soon as the error depends on no later byte
   * @throws {TypeError} if the argument is not bytes; then nothing was passed
   */
  feed(chunk: ArrayBufferLike | ArrayBufferView): Image | null;

  /**
   * Ends the input, and returns what `probe` returns for the bytes that were passed.
   *
   * @throws {ImageError} as `probe`
   */
  close(): Image;
}

/** Why an image has no size. */
export type RefusalCode =
  // by bindings/lists.py: errors
  /** The bytes are of no known type. */
  | 'NOT_SUPPORTED'
  /** The type is known, and its records are malformed, or end before the size. */
  | 'CORRUPTED_IMAGE'
  /** The bytes end before a byte that the layout needs. */
  | 'END_OF_INPUT'
  /** A HEIF property list holds no image size. */
  | 'NOT_ENOUGH_DATA'
  /** A text has no delimiter within its greatest length. */
  | 'NO_DELIMITER'
  /** A text is not UTF-8. */
  | 'NOT_UTF8'
  /** A HEIF box is smaller than its own header. */
  | 'INVALID_HEIF_BOX_SIZE'
  /** A JPEG XL box is smaller than its own header. */
  | 'INVALID_JXL_BOX_SIZE'
  /** A JPEG XL codestream does not begin with its signature. */
  | 'INVALID_JXL_SIGNATURE'
  /** A TIFF has no known byte order or version. */
  | 'INVALID_TIFF_HEADER'
  /** A BigTIFF has offsets of another size than 8 bytes. */
  | 'BIG_TIFF_OFFSET_SIZE'
  /** The two bytes of a BigTIFF that are always zero are not. */
  | 'INVALID_BIG_TIFF_HEADER'
  /** A TIFF's directory is at offset 0. */
  | 'INVALID_IFD_OFFSET'
  /** A TIFF entry has a field type that only BigTIFF has. */
  | 'IFD_TYPE_FOR_STANDARD_TIFF'
  /** A TIFF entry has an unknown field type. */
  | 'INVALID_IFD_TYPE'
  /** The bytes end within a TIFF entry's value. */
  | 'INVALID_IFD_VALUE_LENGTH'
  /** A TIFF directory gives no width or no height. */
  | 'NO_DIMENSIONS_IN_IFD'
  /** A WebP's first chunk is unknown. */
  | 'INVALID_VP8_TAG'
  /** An EXR header ends before a data window. */
  | 'DATA_WINDOW_NOT_FOUND'
  /** An HDR does not begin with its identifier. */
  | 'INVALID_HDR_IDENTIFIER'
  /** An HDR's line of sizes does not have four words. */
  | 'INVALID_HDR_DIMENSIONS_LINE'
  /** One of the sizes in an HDR's line is not a number. */
  | 'HDR_DIMENSIONS_NOT_FOUND'
  /** The width or the height of a PNM is not a number. */
  | 'PNM_DIMENSIONS_NOT_FOUND'
  // end of the list
  /** A side has 2^53 pixels or more, which a number cannot hold exactly. */
  | 'SIDE_TOO_LARGE';

/** Why an input could not be read. */
export type SourceCode =
  /** The result depends on more bytes than may be read. */
  | 'LIMIT_REACHED'
  /** Fewer bytes came than the input or the server reported. */
  | 'CUT_SHORT'
  /** The path is a folder, a pipe or a device. */
  | 'NOT_A_FILE'
  /** The server cannot be reached, or does not allow this origin. The message says which one, and `cause` is the error of `fetch`. */
  | 'UNREACHABLE'
  /** The HTTP status is none of 206, 200 and 203. The error's `status` has it. */
  | 'HTTP_STATUS'
  /** The server gave ranges first, and then status 200 with the whole input. */
  | 'NO_RANGES'
  /** The server compresses the response, although the request forbids it. */
  | 'CONTENT_ENCODING'
  /**
   * The response has no `Content-Range` with a length, or does not expose it to this origin, and the server does not give the whole
   * input either.
   */
  | 'NO_CONTENT_RANGE'
  /** The response is another range than the requested one, or has more bytes than its range. */
  | 'WRONG_RANGE'
  /** `ETag`, `Last-Modified` or the length changed between two ranges. */
  | 'CHANGED';

/** Why a call could not begin. */
export type CallCode =
  /** The library is not loaded: outside Node, await `init` first. */
  | 'NOT_LOADED'
  /** The WebAssembly of the library is missing, or this engine cannot run it. The error's `cause` says more. */
  | 'NO_LIBRARY'
  /** The result depends on more spans than are allowed. */
  | 'TOO_MANY_SPANS';

/** Why an input has no result. */
export class ImageError extends Error implements Partial<Reads> {
  /** What went wrong. */
  readonly code: RefusalCode | SourceCode | CallCode;
  /** The type, if one was found. */
  readonly kind: Kind | null;
  /** Its compression, if it has one. */
  readonly compression: Compression | null;
  /** The HTTP status, for `'HTTP_STATUS'`. */
  readonly status?: number;
  readonly total?: number;
  readonly reads?: number;
  readonly bytesRead?: number;
  readonly trace?: Piece[] | null;
}
