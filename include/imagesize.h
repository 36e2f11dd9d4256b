/*
 * The type of an image, and its width and height in pixels, from a few bytes. No pixel is decoded.
 *
 * Each call is proved. It returns, and its result is the one that docs/LAYOUTS.md defines. It reads only the buffers that the
 * caller passes, and writes only what is said here. It allocates nothing, and keeps nothing between two calls: a push parser and a
 * probe over spans are in memory of the caller. Calls may run at the same time on several threads, if none writes what another reads.
 * docs/PROMISES.md lists the promises.
 *
 * The caller must keep these rules, which the library cannot check:
 *  - A pointer must be aligned for its type and must not be NULL, even if the length is 0 or the result is not needed. No call
 *    tests for NULL, since the calls are proved over references.
 *  - A buffer of bytes, text or spans must have as many items as its length says, and fewer than 2^63 bytes.
 *  - A buffer that is written must overlap no other buffer of the call. Text and spans must be initialised.
 *
 * Each call that has a result returns a status: IMAGESIZE_ANSWERED, or a number for each error. The comment of a call says what it
 * writes. The call changes nothing else, also when it returns an error.
 *
 * A text is ASCII, without a zero at its end. A call that finds a text writes the text's length. If the buffer is long enough, it
 * writes the text too. If not, the buffer does not change, and the status is IMAGESIZE_BUFFER_TOO_SMALL. Spans and their number are
 * written in the same way. To ask for the length alone, pass a buffer of length 0.
 *
 * The library runs on Linux on x86-64 processors with the instructions of x86-64-v2, which nearly all have since 2009. It uses
 * memcpy, memmove and memset of the C library, and nothing else.
 */
#ifndef IMAGESIZE_H
#define IMAGESIZE_H

#include <stddef.h>
#include <stdint.h>

#ifdef __cplusplus
extern "C" {
#endif

/* What a call returns. */
enum imagesize_status {
    IMAGESIZE_ANSWERED = 0, /* success */
    IMAGESIZE_NOT_SUPPORTED = 1, /* the bytes are of no known type */
    IMAGESIZE_CORRUPTED_IMAGE = 2, /* the type is known, and its records are malformed, or end before the size */
    IMAGESIZE_FAULT = 3, /* a file cannot be read; only the calls of imagesize_file.h return it */
    IMAGESIZE_END_OF_INPUT = 4, /* the bytes end before a byte that the layout needs */
    IMAGESIZE_NOT_ENOUGH_DATA = 5, /* a HEIF property list holds no image size */
    IMAGESIZE_BUDGET_SPENT = 6, /* too many bytes of a file are needed; only the calls of imagesize_file.h return it */
    IMAGESIZE_OUT_OF_MEMORY = 7, /* there is no memory; only the calls of imagesize_file.h return it */
    IMAGESIZE_NO_DELIMITER = 8, /* a text has no delimiter within its greatest length */
    IMAGESIZE_NOT_UTF8 = 9, /* a text is not UTF-8 */
    IMAGESIZE_INVALID_HEIF_BOX_SIZE = 10, /* a HEIF box is smaller than its own header */
    IMAGESIZE_INVALID_JXL_BOX_SIZE = 11, /* a JPEG XL box is smaller than its own header */
    IMAGESIZE_INVALID_JXL_SIGNATURE = 12, /* a JPEG XL codestream does not begin with its signature */
    IMAGESIZE_INVALID_TIFF_HEADER = 13, /* a TIFF has no known byte order or version */
    IMAGESIZE_BIG_TIFF_OFFSET_SIZE = 14, /* a BigTIFF has offsets of another size than 8 bytes */
    IMAGESIZE_INVALID_BIG_TIFF_HEADER = 15, /* the two bytes of a BigTIFF that are always zero are not */
    IMAGESIZE_INVALID_IFD_OFFSET = 16, /* a TIFF's directory is at offset 0 */
    IMAGESIZE_IFD_TYPE_FOR_STANDARD_TIFF = 17, /* a TIFF entry has a field type that only BigTIFF has */
    IMAGESIZE_INVALID_IFD_TYPE = 18, /* a TIFF entry has an unknown field type */
    IMAGESIZE_INVALID_IFD_VALUE_LENGTH = 19, /* the bytes end within a TIFF entry's value */
    IMAGESIZE_NO_DIMENSIONS_IN_IFD = 20, /* a TIFF directory gives no width or no height */
    IMAGESIZE_INVALID_VP8_TAG = 21, /* a WebP's first chunk is unknown */
    IMAGESIZE_DATA_WINDOW_NOT_FOUND = 22, /* an EXR header ends before a data window */
    IMAGESIZE_INVALID_HDR_IDENTIFIER = 23, /* an HDR does not begin with its identifier */
    IMAGESIZE_INVALID_HDR_DIMENSIONS_LINE = 24, /* an HDR's line of sizes does not have four words */
    IMAGESIZE_HDR_DIMENSIONS_NOT_FOUND = 25, /* one of the sizes in an HDR's line is not a number */
    IMAGESIZE_PNM_DIMENSIONS_NOT_FOUND = 26, /* the width or the height of a PNM is not a number */
    IMAGESIZE_BUFFER_TOO_SMALL = 27, /* the result has more items than the buffer */
    IMAGESIZE_UNKNOWN_TYPE = 28, /* no type has these numbers */
    IMAGESIZE_UNKNOWN_STATUS = 29, /* no status has this number */
    IMAGESIZE_BYTES_WANTED = 30 /* more bytes of the input are needed; only calls over parts, of rounds and of streams return it */
};

/* The types of images. Each comment begins with the usual name, and ends with the MIME type, if there is one, and the extension. */
enum imagesize_type_number {
    IMAGESIZE_ASEPRITE = 1, /* Aseprite: animated sprites of the editor; .aseprite */
    IMAGESIZE_ASTC = 2, /* ASTC: adaptive scalable texture compression; image/astc, .astc */
    IMAGESIZE_ATC = 3, /* ATC: a texture, in a PKM file; it has a compression; .pkm */
    IMAGESIZE_BMP = 4, /* BMP: Windows bitmap; image/bmp, .bmp */
    IMAGESIZE_DDS = 5, /* DDS: DirectDraw surface; it has a compression; image/x-dds, .dds */
    IMAGESIZE_EAC = 6, /* EAC: a texture, in a PKM file; it has a compression; .pkm */
    IMAGESIZE_ETC2 = 7, /* ETC2: a texture in ETC1 or ETC2, in a PKM file; it has a compression; .pkm */
    IMAGESIZE_EXR = 8, /* OpenEXR; image/x-exr, .exr */
    IMAGESIZE_FARBFELD = 9, /* Farbfeld; .ff */
    IMAGESIZE_GIF = 10, /* GIF: graphics interchange format; image/gif, .gif */
    IMAGESIZE_HDR = 11, /* HDR: Radiance RGBE; image/vnd.radiance, .hdr */
    IMAGESIZE_HEIF = 12, /* HEIF (HEIC, AVIF); it has a compression; image/heif, .heif */
    IMAGESIZE_ICO = 13, /* ICO: Windows icon; image/vnd.microsoft.icon, .ico */
    IMAGESIZE_ILBM = 14, /* ILBM: interleaved bitmap, in an IFF file; image/x-ilbm, .iff */
    IMAGESIZE_JPEG = 15, /* JPEG; image/jpeg, .jpg */
    IMAGESIZE_JXL = 16, /* JPEG XL; image/jxl, .jxl */
    IMAGESIZE_KTX2 = 17, /* KTX 2: Khronos texture, version 2; image/ktx2, .ktx2 */
    IMAGESIZE_PNM = 18, /* PNM: PBM, PGM and PPM; image/x-portable-anymap, .pnm */
    IMAGESIZE_PVRTC = 19, /* PVR: PowerVR texture; it has a compression; .pvr */
    IMAGESIZE_PSD = 20, /* PSD: Photoshop document; image/vnd.adobe.photoshop, .psd */
    IMAGESIZE_QOI = 21, /* QOI: quite OK image; image/qoi, .qoi */
    IMAGESIZE_TGA = 22, /* TGA: Truevision; image/x-tga, .tga */
    IMAGESIZE_TIFF = 23, /* TIFF (BigTIFF); image/tiff, .tif */
    IMAGESIZE_VTF = 24, /* VTF: Valve texture; image/vnd.valve.source.texture, .vtf */
    IMAGESIZE_WEBP = 25 /* WebP; image/webp, .webp */
};

/* The compressions of the types that have one. */
enum imagesize_compression_number {
    IMAGESIZE_NO_COMPRESSION = 0, /* the type has none */
    IMAGESIZE_UNKNOWN_COMPRESSION = 1, /* the type has one, which is not one of those below */
    IMAGESIZE_ATC_RGB = 2, /* ATC, from here on */
    IMAGESIZE_ATC_RGBA_EXPLICIT = 3,
    IMAGESIZE_ATC_RGBA_INTERPOLATED = 4,
    IMAGESIZE_DDS_BC1 = 5, /* DDS, from here on */
    IMAGESIZE_DDS_BC2 = 6,
    IMAGESIZE_DDS_BC3 = 7,
    IMAGESIZE_DDS_BC4 = 8,
    IMAGESIZE_DDS_BC5 = 9,
    IMAGESIZE_DDS_BC6H = 10,
    IMAGESIZE_DDS_BC7 = 11,
    IMAGESIZE_DDS_RGBA32 = 12,
    IMAGESIZE_DDS_RGB24 = 13,
    IMAGESIZE_HEIF_AV1 = 14, /* HEIF, from here on */
    IMAGESIZE_HEIF_HEVC = 15,
    IMAGESIZE_HEIF_JPEG = 16,
    IMAGESIZE_PKM_ETC1 = 17, /* ETC and EAC, in a PKM file, from here on */
    IMAGESIZE_PKM_ETC2 = 18,
    IMAGESIZE_PKM_ETC2A1 = 19,
    IMAGESIZE_PKM_ETC2A8 = 20,
    IMAGESIZE_PKM_EAC_R = 21,
    IMAGESIZE_PKM_EAC_RG = 22,
    IMAGESIZE_PKM_EAC_R_SIGNED = 23,
    IMAGESIZE_PKM_EAC_RG_SIGNED = 24,
    IMAGESIZE_PVRTC_2BPP_RGB = 25, /* PowerVR, from here on */
    IMAGESIZE_PVRTC_2BPP_RGBA = 26,
    IMAGESIZE_PVRTC_4BPP_RGB = 27,
    IMAGESIZE_PVRTC_4BPP_RGBA = 28,
    IMAGESIZE_PVR_ETC2_RGB = 29,
    IMAGESIZE_PVR_ETC2_RGBA = 30,
    IMAGESIZE_PVR_ETC2_RGB_A1 = 31,
    IMAGESIZE_PVR_EAC_R11 = 32,
    IMAGESIZE_PVR_EAC_RG11 = 33
};

/* What compressions have in common, across types. */
enum imagesize_family_number {
    IMAGESIZE_NO_FAMILY = 0, /* not a texture, or its compression is unknown */
    IMAGESIZE_FAMILY_BLOCK_COMPRESSION = 1, /* BC1 to BC7 */
    IMAGESIZE_FAMILY_ETC = 2, /* ETC1 and ETC2 */
    IMAGESIZE_FAMILY_EAC = 3, /* EAC of one or two channels */
    IMAGESIZE_FAMILY_PVRTC = 4, /* PVRTC */
    IMAGESIZE_FAMILY_ASTC = 5, /* ASTC */
    IMAGESIZE_FAMILY_ATC = 6, /* ATC */
    IMAGESIZE_FAMILY_UNCOMPRESSED = 7 /* no compression */
};

/* A range of bytes: `len` bytes from offset `start`. Offsets count from 0. */
typedef struct imagesize_span {
    uint64_t start;
    uint64_t len;
} imagesize_span;

/*
 * Detects the type from the first bytes, with its compression if the type has one. Twelve bytes are enough for most types, and
 * for the compression of a PKM and an ATC. A PVR and a DDS have their compression after these, and a HEIF may have its brand
 * there. A TGA has its footer at the end of the file.
 *
 * Errors: IMAGESIZE_NOT_SUPPORTED, and IMAGESIZE_END_OF_INPUT if there are fewer than 12 bytes.
 */
uint32_t imagesize_type(const uint8_t *bytes, size_t length, uint32_t *type, uint32_t *compression);

/*
 * Reads width and height, in pixels. The bytes are those of the whole file, or its first bytes.
 *
 * The size that the first bytes give is that of the whole file, except for three types. The first bytes of a HEIF or an icon
 * can give another size. Take these 24 bytes as an example: the first 12 are an icon of 128x32, and all of them one of 128x256.
 *
 *     00 00 01 00 FC FF 80 20 00 DA 26 00 3D FF E9 FF 13 9A FF B8 0F 93 80 00
 *
 * A TGA may need its footer, which only the whole file has. imagesize_parts_probe gives the result of the whole file from a few
 * parts of it.
 *
 * Errors: those of imagesize_type, IMAGESIZE_END_OF_INPUT if the bytes end before the size, and the errors of the type's layout,
 * which are listed above.
 *
 * With more bytes of the file, these errors may disappear: IMAGESIZE_END_OF_INPUT for every type,
 * IMAGESIZE_INVALID_IFD_VALUE_LENGTH for a TIFF, IMAGESIZE_NOT_ENOUGH_DATA for a HEIF, IMAGESIZE_CORRUPTED_IMAGE for a JPEG XL,
 * and IMAGESIZE_NOT_SUPPORTED, which may become a TGA.
 */
uint32_t imagesize_size(const uint8_t *bytes, size_t length, uint64_t *width, uint64_t *height);

/*
 * Reads both. The status is that of imagesize_size. Type and compression are written whenever imagesize_type would write them,
 * also if only the size has an error.
 */
uint32_t imagesize_probe(const uint8_t *bytes, size_t length, uint32_t *type, uint32_t *compression,
                         uint64_t *width, uint64_t *height);

/*
 * Reads type and size of an input of `total` bytes from the parts that are known, or asks for another part.
 *
 * The parts are `count` spans of the input. They may be in any order, overlap, or be empty, and there may be none. `bytes` has
 * the bytes of all spans, one span after another. Leave out the bytes of a span that lie past the end of the input.
 *
 * If another part is needed, the status is IMAGESIZE_BYTES_WANTED, and only `wanted` is written. It has at least one byte and
 * lies within the input. Its first byte is one that the result depends on and that no part has. For text formats (OpenEXR,
 * Radiance and the portable bitmaps), only this byte is certain to be needed. For all others, each byte of it is needed. The
 * caller may fetch all of `wanted`, or a block around it; the next call gets further if the first byte is there.
 *
 * Otherwise status, type, compression, width and height are those of imagesize_probe over the whole input, and `wanted` does
 * not change. This is certain once the parts have every byte that the result depends on.
 *
 *     uint8_t bytes[4096];
 *     imagesize_span parts[64], wanted;
 *     size_t length = 0, count = 0;
 *     while ((status = imagesize_parts_probe(bytes, length, parts, count, total, &type, &compression, &width, &height,
 *                                            &wanted)) == IMAGESIZE_BYTES_WANTED) {
 *         if (count == 64 || wanted.len > sizeof bytes - length || !fetch(wanted.start, wanted.len, bytes + length)) {
 *             return GAVE_UP;
 *         }
 *         parts[count++] = wanted;
 *         length += wanted.len;
 *     }
 *
 * Each call reads the parts from the beginning. With many records, imagesize_rounds_answer below is faster: it keeps its state, and
 * no list of parts is needed.
 *
 * If two parts give different values for one byte, the first part counts. If there are fewer bytes than the spans have, the last
 * bytes are unknown. Bytes that are left over are not read. For a total of 2^63 bytes or more the result is unspecified. The call
 * still returns, and a requested part lies within `total`.
 */
uint32_t imagesize_parts_probe(const uint8_t *bytes, size_t length, const imagesize_span *spans, size_t count, uint64_t total,
                               uint32_t *type, uint32_t *compression, uint64_t *width, uint64_t *height, imagesize_span *wanted);

/*
 * Reads the type and its compression from the parts of an input, or asks for another part. The parts are passed as to
 * imagesize_parts_probe. `wanted` is written as there, and is a part that the type depends on.
 *
 * Otherwise status, type and compression are those of imagesize_type over the whole input.
 */
uint32_t imagesize_parts_type(const uint8_t *bytes, size_t length, const imagesize_span *spans, size_t count, uint64_t total,
                              uint32_t *type, uint32_t *compression, imagesize_span *wanted);

/*
 * Reads the size of an input, as the type with these two numbers, from the parts that are known; or asks for another part. The
 * input may be of another type: its bytes are read as those of this type. The compression does not change the size.
 *
 * The parts are passed as to imagesize_parts_probe. `wanted` is written as there, and is a part that this size depends on.
 * Otherwise the status says whether the whole input has a size of this type, or why it has none.
 *
 * Errors: IMAGESIZE_UNKNOWN_TYPE if no type has these numbers, IMAGESIZE_END_OF_INPUT if the input ends before the size, and the
 * errors of the type's layout.
 */
uint32_t imagesize_parts_size(uint32_t type, uint32_t compression, const uint8_t *bytes, size_t length, const imagesize_span *spans,
                              size_t count, uint64_t total, uint64_t *width, uint64_t *height, imagesize_span *wanted);

/*
 * A push parser: type and size of an input whose bytes come one after another, as from a socket or a pipe. The caller passes each
 * chunk as it comes, of any length, and keeps none of them.
 *
 *     imagesize_stream stream;
 *     uint8_t chunk[4096];
 *     ssize_t got;
 *     uint32_t status = IMAGESIZE_BYTES_WANTED;
 *     imagesize_stream_new(&stream, IMAGESIZE_LENGTH_UNKNOWN);
 *     while (status == IMAGESIZE_BYTES_WANTED && (got = read(0, chunk, sizeof chunk)) > 0) {
 *         status = imagesize_stream_push(&stream, chunk, (size_t)got, &type, &compression, &width, &height);
 *     }
 *     if (status == IMAGESIZE_BYTES_WANTED) {
 *         status = imagesize_stream_finish(&stream, &type, &compression, &width, &height);
 *     }
 *
 * The state is in memory of the caller, on the stack or wherever there are IMAGESIZE_STREAM_SIZE bytes. It holds at most 1,023
 * bytes of the input, and no pointer. It needs no release.
 *
 * The caller must keep these rules too, which the library cannot check:
 *  - imagesize_stream_new comes before any other call with the same memory, and again after imagesize_stream_finish.
 *  - One call at a time uses the same memory.
 *  - The caller does not write into the memory. Between two calls it may copy all of it by memcpy or assignment. The copy and the
 *    original then go on independently, each with its own bytes.
 */

/* The size of the memory in bytes, and the length to pass if the length of the input is not known. */
#define IMAGESIZE_STREAM_SIZE 1280
#define IMAGESIZE_LENGTH_UNKNOWN UINT64_MAX

/* The memory of a push parser. Its content is the library's own. */
typedef struct imagesize_stream {
    uint64_t opaque[IMAGESIZE_STREAM_SIZE / 8];
} imagesize_stream;

/*
 * Begins an input of `total` bytes, whatever the memory holds. Bytes past that length do not count. For an unknown length pass
 * IMAGESIZE_LENGTH_UNKNOWN; every number above 2^63 - 1 means the same.
 *
 * A known length lets some results come earlier. No result is lost without it.
 */
void imagesize_stream_new(imagesize_stream *stream, uint64_t total);

/*
 * Passes the next `length` bytes of the input. There may be none.
 *
 * If the result depends on more bytes, the status is IMAGESIZE_BYTES_WANTED and nothing is written. Otherwise status, type,
 * compression, width and height are those of imagesize_probe over the whole input, whatever bytes follow. Every later call returns and
 * writes the same.
 *
 * If the length is known, the result comes with the last byte that it depends on, or with the last byte of the input. If it is
 * not, the result of a TGA may come from imagesize_stream_finish alone, since its footer is at the end of the file.
 */
uint32_t imagesize_stream_push(imagesize_stream *stream, const uint8_t *bytes, size_t length, uint32_t *type, uint32_t *compression,
                               uint64_t *width, uint64_t *height);

/*
 * Ends the input. Status, type, compression, width and height are those of imagesize_probe over the bytes that were passed, without
 * those past the length. The status is never IMAGESIZE_BYTES_WANTED. Then the memory is free, or may be begun again.
 */
uint32_t imagesize_stream_finish(imagesize_stream *stream, uint32_t *type, uint32_t *compression, uint64_t *width, uint64_t *height);

/*
 * Type and size of an input whose bytes can be fetched by offset, as from a file or by range requests. In each round the caller fetches
 * a span and passes its bytes. It keeps neither spans nor bytes, and no round reads again what an earlier one read.
 *
 *     imagesize_rounds rounds;
 *     imagesize_span wanted;
 *     uint8_t block[4096];
 *     ssize_t got;
 *     imagesize_rounds_new(&rounds, total);
 *     while ((status = imagesize_rounds_answer(&rounds, &type, &compression, &width, &height, &wanted)) == IMAGESIZE_BYTES_WANTED) {
 *         if ((got = pread(file, block, sizeof block, (off_t)wanted.start)) <= 0) {
 *             return GAVE_UP;
 *         }
 *         imagesize_rounds_supply(&rounds, wanted.start, block, (size_t)got);
 *     }
 *
 * The state is in memory of the caller, on the stack or wherever there are IMAGESIZE_ROUNDS_SIZE bytes. It holds at most 1,023 bytes
 * of the input, and no pointer. It needs no release. imagesize_file.h reads files in this way, in blocks of 4096 bytes.
 *
 * The rules of the push parser hold for this memory too. imagesize_rounds_new comes first, and one call at a time uses the memory. The
 * caller does not write into it, but may copy all of it between two calls.
 */

/* The size of the memory in bytes. */
#define IMAGESIZE_ROUNDS_SIZE 1280

/* The memory of a probe over spans. Its content is the library's own. */
typedef struct imagesize_rounds {
    uint64_t opaque[IMAGESIZE_ROUNDS_SIZE / 8];
} imagesize_rounds;

/*
 * Begins an input of `total` bytes, whatever the memory holds. If the input turns out to be shorter, begin again with its true length.
 * A total of 2^63 bytes or more means 2^63 - 1.
 */
void imagesize_rounds_new(imagesize_rounds *parts, uint64_t total);

/*
 * Passes the `length` bytes of the input from `offset` on: those of the requested span, or more of them, or fewer. Nothing is returned:
 * imagesize_rounds_answer has the result.
 *
 * Bytes before the requested span are ignored, and so are bytes past the end of the input. If `offset` lies after the start of the
 * requested span, or if there is a result already, nothing changes. If the byte at the start of the requested span is among them, a
 * result or a later span follows. If all bytes of the span are, a result or a span after it follows.
 */
void imagesize_rounds_supply(imagesize_rounds *parts, uint64_t offset, const uint8_t *bytes, size_t length);

/*
 * Reads type and size from the spans that were passed, or asks for another one. The memory of the probe does not change.
 *
 * If another span is needed, the status is IMAGESIZE_BYTES_WANTED, and only `wanted` is written. It lies within the input. It has 1 to
 * 132 bytes, or up to 1,024 for the text formats (OpenEXR, Radiance and the portable bitmaps). The result depends on a byte at its start
 * or after it. The caller may fetch all of `wanted`, a block from its start on or around it, or its first byte alone.
 *
 * Otherwise status, type, compression, width and height are those of imagesize_probe over the whole input, and `wanted` does not
 * change. Every later call returns and writes the same.
 */
uint32_t imagesize_rounds_answer(const imagesize_rounds *parts, uint32_t *type, uint32_t *compression, uint64_t *width,
                                 uint64_t *height, imagesize_span *wanted);

/*
 * Lists the bytes that type and size depend on: a span for each read, in order, with repeats. Every other input of this length
 * with the same bytes there has the same type and size, or the same error. `count` is set to the number of spans. At most `capacity`
 * spans are written. An ordinary image has from a few to some dozens of spans. A hostile one has about as many as it has bytes.
 *
 * The spans are written also if the size has an error. Error: IMAGESIZE_BUFFER_TOO_SMALL.
 */
uint32_t imagesize_spans(const uint8_t *bytes, size_t length, imagesize_span *spans, size_t capacity, size_t *count);

/*
 * PNG has calls of its own. The calls above leave it out, and it has no number. To find PNG too, call one of these first. If it returns
 * IMAGESIZE_NOT_SUPPORTED, the file is no PNG, and more bytes of it do not change that. Then call one of those above.
 */

/*
 * Tests for the signature of PNG, the eight bytes 89 50 4E 47 0D 0A 1A 0A. `answer` is set to 1 if the bytes begin with it, and to 0
 * if they do not, or if there are fewer than eight. No error.
 */
uint32_t imagesize_png_matches(const uint8_t *bytes, size_t length, uint32_t *answer);

/*
 * Reads width and height of a PNG, in pixels. The bytes are those of the whole file, or its first bytes; 24 are enough. They are the
 * bytes at offset 16 and 20: a file whose first chunk is not the image header, such as CgBI, has a wrong size.
 *
 * Errors: IMAGESIZE_NOT_SUPPORTED if the first eight bytes are not the signature, and IMAGESIZE_END_OF_INPUT if the bytes end before
 * the signature or before the size.
 */
uint32_t imagesize_png_size(const uint8_t *bytes, size_t length, uint64_t *width, uint64_t *height);

/*
 * Reads width and height of a PNG of `total` bytes from the parts that are known, or asks for another part.
 *
 * The parts are passed as to imagesize_parts_probe, and `wanted` is written as there. Each byte of it is needed. Otherwise status,
 * width and height are those of imagesize_png_size over the whole input.
 */
uint32_t imagesize_png_parts_size(const uint8_t *bytes, size_t length, const imagesize_span *spans, size_t count, uint64_t total,
                                  uint64_t *width, uint64_t *height, imagesize_span *wanted);

/*
 * Writes the name of a type, such as "Gif"; of its compression, such as "Bc7"; or of its container, such as "KTX2". A type without
 * a compression or a container has an empty text. `written` is set to the length of the text in bytes.
 *
 * Errors: IMAGESIZE_UNKNOWN_TYPE if no type has these two numbers, and then nothing is written; IMAGESIZE_BUFFER_TOO_SMALL.
 */
uint32_t imagesize_type_name(uint32_t type, uint32_t compression, char *text, size_t capacity, size_t *written);
uint32_t imagesize_compression_name(uint32_t type, uint32_t compression, char *text, size_t capacity, size_t *written);
uint32_t imagesize_container_format(uint32_t type, uint32_t compression, char *text, size_t capacity, size_t *written);

/*
 * Writes the text of a status, for people. The texts of IMAGESIZE_NO_DELIMITER and of the two invalid box sizes have no number.
 *
 * Errors: IMAGESIZE_UNKNOWN_STATUS, and then nothing is written; IMAGESIZE_BUFFER_TOO_SMALL.
 */
uint32_t imagesize_status_text(uint32_t status, char *text, size_t capacity, size_t *written);

/*
 * Gives the family of a type's compression; whether it is a block compression (1 or 0); and whether the type's container can hold
 * several families (1 or 0).
 *
 * Error: IMAGESIZE_UNKNOWN_TYPE if no type has these two numbers, and then nothing is written.
 */
uint32_t imagesize_compression_family(uint32_t type, uint32_t compression, uint32_t *family);
uint32_t imagesize_is_block_compressed(uint32_t type, uint32_t compression, uint32_t *answer);
uint32_t imagesize_is_multi_compression_container(uint32_t type, uint32_t compression, uint32_t *answer);

#ifdef __cplusplus
}
#endif

#endif
