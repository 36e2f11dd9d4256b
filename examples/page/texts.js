// Results as people read them.

const TYPES = {
  // by bindings/lists.py: types
  Aseprite: 'Aseprite', Astc: 'ASTC', Atc: 'ATC', Bmp: 'BMP', Dds: 'DDS', Eac: 'EAC', Etc2: 'ETC2', Exr: 'OpenEXR',
  Farbfeld: 'Farbfeld', Gif: 'GIF', Hdr: 'HDR', Heif: 'HEIF', Ico: 'ICO', Ilbm: 'ILBM', Jpeg: 'JPEG', Jxl: 'JPEG XL',
  Ktx2: 'KTX 2', Pnm: 'PNM', Pvrtc: 'PVR', Psd: 'PSD', Qoi: 'QOI', Tga: 'TGA', Tiff: 'TIFF', Vtf: 'VTF', Webp: 'WebP',
  // end of the list
  Png: 'PNG',
};
const BRANDS = { Av1: 'AVIF', Hevc: 'HEIC' };

/** Why an image has no size, by the code of the error. */
export const ERRORS = {
  NOT_SUPPORTED: 'This is no image of a known type.',
  CORRUPTED_IMAGE: 'The file is damaged: its size is missing.',
  END_OF_INPUT: 'The file ends before its size.',
  NOT_ENOUGH_DATA: 'The file lists no image size.',
  NO_DELIMITER: 'The header has a line or a word that is too long.',
  NOT_UTF8: 'The header is no valid text.',
  INVALID_HEIF_BOX_SIZE: 'The file is damaged: the size of a box is wrong.',
  INVALID_JXL_BOX_SIZE: 'The file is damaged: the size of a box is wrong.',
  INVALID_JXL_SIGNATURE: 'The file is damaged: its image data has no signature.',
  INVALID_TIFF_HEADER: 'The TIFF header is damaged.',
  BIG_TIFF_OFFSET_SIZE: 'The BigTIFF header is damaged: the size of an offset is wrong.',
  INVALID_BIG_TIFF_HEADER: 'The BigTIFF header is damaged.',
  INVALID_IFD_OFFSET: 'The file is damaged: its directory is missing.',
  IFD_TYPE_FOR_STANDARD_TIFF: 'The directory of this TIFF has a type that only BigTIFF knows.',
  INVALID_IFD_TYPE: 'The directory of this TIFF has an unknown type.',
  INVALID_IFD_VALUE_LENGTH: 'The file ends within its directory.',
  NO_DIMENSIONS_IN_IFD: 'The directory of this TIFF has no width or no height.',
  INVALID_VP8_TAG: 'The first chunk of this WebP is unknown.',
  DATA_WINDOW_NOT_FOUND: 'The header has no data window, which gives the size.',
  INVALID_HDR_IDENTIFIER: 'The first line is not that of a Radiance HDR.',
  INVALID_HDR_DIMENSIONS_LINE: 'The line with the size is damaged.',
  HDR_DIMENSIONS_NOT_FOUND: 'The line with the size has no numbers.',
  PNM_DIMENSIONS_NOT_FOUND: 'The width or the height is no number.',
  SIDE_TOO_LARGE: 'The width or the height is 2^53 pixels or more.',
  LIMIT_REACHED: 'The size is too far into the file.',
  CUT_SHORT: 'The file became shorter while it was read, or the server sent too few bytes.',
  NOT_A_FILE: 'This is no file.',
  UNREACHABLE: 'The server does not answer, or does not allow this page to read the file.',
  HTTP_STATUS: 'The server answers with an error.',
  NO_RANGES: 'The server first sent a part of the file, and then all of it.',
  CONTENT_ENCODING: 'The server compresses the file, although this page asked for it as it is.',
  NO_CONTENT_RANGE: 'The server does not tell this page which part of the file it sends.',
  WRONG_RANGE: 'The server sends another part of the file than this page asked for.',
  CHANGED: 'The file changed while it was read.',
};

// Errors of the browser, by their name.
const OF_BROWSER = {
  TimeoutError: 'The server took too long.',
  NotFoundError: 'The file is no longer there.',
  NotReadableError: 'The file cannot be read.',
};

export const count = (number, one) => `${number.toLocaleString('en')} ${one}${number === 1 ? '' : 's'}`;

/** A type as people write it: JPEG, AVIF, Bc7 DDS. */
export function typeText({ kind, compression }) {
  if (!kind) return '';
  if (kind === 'Heif') return BRANDS[compression] ?? 'HEIF';
  return compression && compression !== 'Unknown' ? `${compression} ${TYPES[kind]}` : TYPES[kind] ?? kind;
}

/** Width and height in pixels. */
export const sizeText = ({ width, height }) => (width === undefined ? '' : `${width.toLocaleString('en')} × ${height.toLocaleString('en')}`);

/** Why an image has no size. */
export function errorText({ code, status, name, message }) {
  if (status) return `The server answers with status ${status}.`;
  return ERRORS[code] ?? OF_BROWSER[name] ?? message;
}

/** A number of bytes. */
export function bytesText(bytes) {
  for (const [unit, power] of [['GB', 1e9], ['MB', 1e6], ['kB', 1e3]]) {
    if (bytes >= power) return `${(bytes / power).toFixed(bytes < 10 * power ? 1 : 0)} ${unit}`;
  }
  return count(bytes, 'byte');
}

/** How much was read: "12 kB of 8.5 MB read, in 3 steps". A server may not tell the length. */
export function costText({ bytesRead, total, reads }) {
  const whole = total < Infinity ? ` of ${bytesText(total)}` : '';
  return reads > 0 ? `${bytesText(bytesRead)}${whole} read, in ${count(reads, 'step')}` : '';
}

/** Bytes in hex. */
export const hex = (bytes) => Array.from(bytes, (byte) => byte.toString(16).padStart(2, '0')).join(' ');
