/*
 * Type and size of the image in a file, over the calls of imagesize.h. Only the blocks of the file are read that the result
 * depends on. A pipe, a socket or another file that cannot seek is read forward, once, until the result is known. All of it is in
 * this header; nothing more is linked than libimagesize and the C library.
 *
 *     imagesize_image image;
 *     uint32_t status = imagesize_path_probe("photo.jpg", &image);
 *     if (status == IMAGESIZE_ANSWERED) {
 *         printf("%llux%llu\n", (unsigned long long)image.width, (unsigned long long)image.height);
 *     }
 *
 * PNG is tried first: imagesize.h has calls of its own for it, and no number. Here it has the type IMAGESIZE_PNG, whose name
 * imagesize_image_name writes too.
 *
 * Each call returns a status: that of imagesize_probe over all bytes of the file, that of imagesize_png_size if it is a PNG, or one of
 * these three.
 *  - IMAGESIZE_FAULT: the file cannot be opened or read. `errno` says why; it is 0 if the file became shorter meanwhile.
 *  - IMAGESIZE_BUDGET_SPENT: the result needs more than IMAGESIZE_FILE_MOST bytes. No more are read.
 *  - IMAGESIZE_OUT_OF_MEMORY: `malloc` returned NULL. Only a block of more than IMAGESIZE_FILE_BLOCK bytes is allocated.
 *
 * The call writes all of `image`. The type is 0 if none was found. Width and height are 0 if the status is not
 * IMAGESIZE_ANSWERED; the type may be known then.
 *
 * The calls over paths and descriptors need POSIX.1-2008. They are here if _POSIX_C_SOURCE is 200809L or more, as by default in
 * gcc and clang; with -std=c11 define it before the first #include. Windows has none of them. These functions are tested, and not proved.
 */
#ifndef IMAGESIZE_FILE_H
#define IMAGESIZE_FILE_H

#include "imagesize.h"

#include <errno.h>
#include <stdio.h>
#include <stdlib.h>
#include <string.h>

#if defined _POSIX_C_SOURCE && _POSIX_C_SOURCE >= 200809L && !defined _WIN32
#include <fcntl.h>
#include <sys/stat.h>
#include <unistd.h>
#endif

#ifdef __cplusplus
extern "C" {
#endif

/* The bytes of a block, the bytes that one call reads at most, and the blocks after which they grow. */
enum { IMAGESIZE_FILE_BLOCK = 4096, IMAGESIZE_FILE_MOST = 64 << 20, IMAGESIZE_FILE_FEW = 64 };

/* PNG among the numbers of types, and the bytes of a PNG up to the end of its size. */
enum { IMAGESIZE_PNG = 1000, IMAGESIZE_PNG_FRONT = 24 };

/* What a file is: the numbers of imagesize.h for type and compression, or IMAGESIZE_PNG, and the size in pixels. */
typedef struct imagesize_image {
    uint32_t type, compression;
    uint64_t width, height;
} imagesize_image;

/* Writes the name of the type, such as "Gif" or "Png". It is used as imagesize_type_name is, and has its errors. */
static inline uint32_t imagesize_image_name(const imagesize_image *image, char *text, size_t capacity, size_t *written)
{
    if (image->type != IMAGESIZE_PNG) {
        return imagesize_type_name(image->type, image->compression, text, capacity, written);
    }
    *written = 3;
    if (capacity < 3) {
        return IMAGESIZE_BUFFER_TOO_SMALL;
    }
    memcpy(text, "Png", 3);
    return IMAGESIZE_ANSWERED;
}

/* The status and the size of a PNG with these first bytes; IMAGESIZE_NOT_SUPPORTED if they are none, or too few to tell. */
static inline uint32_t imagesize_file_png(const uint8_t *bytes, size_t length, imagesize_image *image)
{
    uint32_t begins = 0;
    imagesize_png_matches(bytes, length, &begins);
    if (!begins) {
        return IMAGESIZE_NOT_SUPPORTED;
    }
    image->type = IMAGESIZE_PNG;
    return imagesize_png_size(bytes, length, &image->width, &image->height);
}

/* Reads `length` bytes from an offset on, all of them. Returns IMAGESIZE_ANSWERED, or a status of its own such as IMAGESIZE_FAULT. */
typedef uint32_t imagesize_read(void *reader, uint8_t *bytes, size_t length, uint64_t offset);

/* A probe over a file, and what was read for it: how many blocks, how many bytes in all, and where the last block ends. */
struct imagesize_file_rounds {
    imagesize_rounds parts;
    size_t blocks, length;
    uint64_t end;
};

/* The block around a span. On long walks it is as long as all that was read, so that they take few rounds. The first one has the size of
 * a PNG. */
static inline imagesize_span imagesize_file_block(const struct imagesize_file_rounds *rounds, imagesize_span wanted, uint64_t total)
{
    imagesize_span block = {wanted.start - wanted.start % IMAGESIZE_FILE_BLOCK, 0};
    uint64_t end = wanted.start + wanted.len, grown = block.start;
    if (rounds->end == block.start || rounds->blocks > IMAGESIZE_FILE_FEW) {
        grown += rounds->length < IMAGESIZE_FILE_MOST - rounds->length ? rounds->length : IMAGESIZE_FILE_MOST - rounds->length;
    }
    end = end > grown ? end : grown;
    if (block.start == 0 && end < IMAGESIZE_PNG_FRONT) {
        end = IMAGESIZE_PNG_FRONT;
    }
    end += (IMAGESIZE_FILE_BLOCK - end % IMAGESIZE_FILE_BLOCK) % IMAGESIZE_FILE_BLOCK;
    block.len = (end < total ? end : total) - block.start;
    return block;
}

/*
 * Reads the block around a span, and passes it to the probe, which keeps what it needs of it. The first block of a PNG has its size:
 * then the image has the type IMAGESIZE_PNG, and the status is its own.
 */
static inline uint32_t imagesize_file_round(struct imagesize_file_rounds *rounds, void *reader, imagesize_read *read,
                                            imagesize_span wanted, uint64_t total, imagesize_image *image)
{
    uint8_t one[IMAGESIZE_FILE_BLOCK], *bytes = one;
    imagesize_span block = imagesize_file_block(rounds, wanted, total);
    if (block.len > IMAGESIZE_FILE_MOST - rounds->length) {
        return IMAGESIZE_BUDGET_SPENT;
    }
    if (block.len > sizeof one && (bytes = (uint8_t *)malloc((size_t)block.len)) == NULL) {
        return IMAGESIZE_OUT_OF_MEMORY;
    }
    uint32_t status = read(reader, bytes, (size_t)block.len, block.start);
    if (status == IMAGESIZE_ANSWERED && block.start == 0) {
        uint32_t png = imagesize_file_png(bytes, (size_t)block.len, image);
        status = image->type == IMAGESIZE_PNG ? png : status;
    }
    if (status == IMAGESIZE_ANSWERED && image->type != IMAGESIZE_PNG) {
        imagesize_rounds_supply(&rounds->parts, block.start, bytes, (size_t)block.len);
        rounds->blocks++;
        rounds->length += (size_t)block.len;
        rounds->end = block.start + block.len;
    }
    if (bytes != one) {
        free(bytes);
    }
    return status;
}

/* Type and size of the image in an input of `total` bytes, fewer than 2^63. `read` returns some of them. */
static inline uint32_t imagesize_reader_probe(void *reader, imagesize_read *read, uint64_t total, imagesize_image *image)
{
    static const imagesize_image none = {0, 0, 0, 0};
    struct imagesize_file_rounds rounds;
    imagesize_span wanted = {0, 0};
    uint32_t status = IMAGESIZE_ANSWERED;
    *image = none;
    imagesize_rounds_new(&rounds.parts, total);
    rounds.blocks = rounds.length = 0;
    rounds.end = 0;
    while (status == IMAGESIZE_ANSWERED) {
        status = imagesize_rounds_answer(&rounds.parts, &image->type, &image->compression, &image->width, &image->height, &wanted);
        if (status != IMAGESIZE_BYTES_WANTED) {
            return status;
        }
        status = imagesize_file_round(&rounds, reader, read, wanted, total, image);
        if (image->type == IMAGESIZE_PNG) {
            return status;
        }
    }
    return status;
}

/* Reads the next bytes, at most `length` of them. Returns their number, 0 at the end of the input, or -1 if the read failed. */
typedef long imagesize_read_next(void *reader, uint8_t *bytes, size_t length);

/* An input that is read forward: its push parser, and its first bytes, which tell a PNG. */
struct imagesize_file_forward {
    imagesize_stream stream;
    uint8_t front[IMAGESIZE_PNG_FRONT];
    size_t length;
};

/* Passes the next bytes of an input. The push parser has no result before twelve bytes, and a PNG is known by eight. */
static inline uint32_t imagesize_file_push(struct imagesize_file_forward *forward, const uint8_t *chunk, size_t got, imagesize_image *image)
{
    size_t missing = sizeof forward->front - forward->length, kept = got < missing ? got : missing;
    memcpy(forward->front + forward->length, chunk, kept);
    forward->length += kept;
    uint32_t status = imagesize_file_png(forward->front, forward->length, image), wanted = IMAGESIZE_BYTES_WANTED;
    if (image->type == IMAGESIZE_PNG) {
        return status == IMAGESIZE_END_OF_INPUT ? wanted : status;
    }
    return imagesize_stream_push(&forward->stream, chunk, got, &image->type, &image->compression, &image->width, &image->height);
}

/* Ends an input. */
static inline uint32_t imagesize_file_finish(struct imagesize_file_forward *forward, imagesize_image *image)
{
    if (image->type == IMAGESIZE_PNG) {
        return IMAGESIZE_END_OF_INPUT;
    }
    return imagesize_stream_finish(&forward->stream, &image->type, &image->compression, &image->width, &image->height);
}

/* Type and size of the image in an input that is read forward, once. After a result no more of it is read. */
static inline uint32_t imagesize_forward_probe(void *reader, imagesize_read_next *next, imagesize_image *image)
{
    static const imagesize_image none = {0, 0, 0, 0};
    uint8_t chunk[IMAGESIZE_FILE_BLOCK];
    struct imagesize_file_forward forward;
    uint32_t status = IMAGESIZE_BYTES_WANTED;
    long got = 1;
    *image = none;
    forward.length = 0;
    imagesize_stream_new(&forward.stream, IMAGESIZE_LENGTH_UNKNOWN);
    for (size_t most = IMAGESIZE_FILE_MOST; status == IMAGESIZE_BYTES_WANTED && got > 0; most -= (size_t)got) {
        if (most == 0) {
            return IMAGESIZE_BUDGET_SPENT;
        }
        got = next(reader, chunk, most < sizeof chunk ? most : sizeof chunk);
        if (got < 0) {
            return IMAGESIZE_FAULT;
        }
        status = imagesize_file_push(&forward, chunk, (size_t)got, image);
    }
    return status == IMAGESIZE_BYTES_WANTED ? imagesize_file_finish(&forward, image) : status;
}

static inline uint32_t imagesize_stdio_read(void *reader, uint8_t *bytes, size_t length, uint64_t offset)
{
    FILE *file = (FILE *)reader;
    errno = 0;
    return fseek(file, (long)offset, SEEK_SET) == 0 && fread(bytes, 1, length, file) == length ? IMAGESIZE_ANSWERED : IMAGESIZE_FAULT;
}

static inline long imagesize_stdio_next(void *reader, uint8_t *bytes, size_t length)
{
    FILE *file = (FILE *)reader;
    size_t got = fread(bytes, 1, length, file);
    return got == 0 && ferror(file) ? -1 : (long)got;
}

/*
 * Type and size of the image in an open stream. If the stream can seek, the call reads from its first byte on, and keeps its
 * position. Otherwise it reads whole blocks from here on.
 */
static inline uint32_t imagesize_stdio_probe(FILE *file, imagesize_image *image)
{
    static const imagesize_image none = {0, 0, 0, 0};
    long position = ftell(file), total = -1;
    *image = none;
    if (position < 0) {
        return imagesize_forward_probe(file, imagesize_stdio_next, image);
    }
    if (fseek(file, 0, SEEK_END) != 0 || (total = ftell(file)) < 0) {
        return IMAGESIZE_FAULT;
    }
    uint32_t status = imagesize_reader_probe(file, imagesize_stdio_read, (uint64_t)total, image);
    if (fseek(file, position, SEEK_SET) != 0) {
        return IMAGESIZE_FAULT;
    }
    return status;
}

#if defined _POSIX_C_SOURCE && _POSIX_C_SOURCE >= 200809L && !defined _WIN32

static inline uint32_t imagesize_fd_read(void *reader, uint8_t *bytes, size_t length, uint64_t offset)
{
    while (length > 0) {
        ssize_t got = pread(*(int *)reader, bytes, length, (off_t)offset);
        if (got == 0) {
            errno = 0;
        }
        if (got == 0 || (got < 0 && errno != EINTR)) {
            return IMAGESIZE_FAULT;
        }
        if (got > 0) {
            bytes += got;
            length -= (size_t)got;
            offset += (uint64_t)got;
        }
    }
    return IMAGESIZE_ANSWERED;
}

static inline long imagesize_fd_next(void *reader, uint8_t *bytes, size_t length)
{
    ssize_t got;
    do {
        got = read(*(int *)reader, bytes, length);
    } while (got < 0 && errno == EINTR);
    return (long)got;
}

/*
 * Type and size of the image in an open file. The position of a regular file is neither used nor changed. Any other file is read
 * forward from here on.
 */
static inline uint32_t imagesize_fd_probe(int file, imagesize_image *image)
{
    static const imagesize_image none = {0, 0, 0, 0};
    struct stat about;
    *image = none;
    if (fstat(file, &about) != 0) {
        return IMAGESIZE_FAULT;
    }
    if (!S_ISREG(about.st_mode)) {
        return imagesize_forward_probe(&file, imagesize_fd_next, image);
    }
    return imagesize_reader_probe(&file, imagesize_fd_read, (uint64_t)about.st_size, image);
}

/*
 * Type and size of the image in the file at a path. A pipe without a writer has no bytes, and no writer is waited for. If there is
 * one, the call waits for its bytes.
 */
static inline uint32_t imagesize_path_probe(const char *path, imagesize_image *image)
{
    static const imagesize_image none = {0, 0, 0, 0};
    int file = open(path, O_RDONLY | O_NONBLOCK | O_CLOEXEC);
    *image = none;
    if (file < 0) {
        return IMAGESIZE_FAULT;
    }
    (void)fcntl(file, F_SETFL, 0); /* the reads wait, as the call to open did not */
    uint32_t status = imagesize_fd_probe(file, image);
    int why = errno;
    close(file);
    errno = why;
    return status;
}

#endif

#ifdef __cplusplus
}
#endif

#endif
