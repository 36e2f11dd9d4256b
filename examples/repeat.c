/*
 * Calls the library TIMES times over the bytes of a file, for count.py and check_work.py.
 *
 *     repeat CALL TIMES FILE
 *
 *     size, probe, spans    the call of that name
 *     parts                 imagesize_parts_probe with one part, which has all bytes
 *     many                  the same with 63 parts more, which lie past the end and have no bytes
 *     stream                a push parser that gets all bytes at once
 *     chunks, bytes         one that gets chunks of 4,096 bytes, or the first 4,096 bytes one by one
 *     again                 a push parser and a probe over spans that get all bytes again after their result
 *     none                  nothing
 */
#include "imagesize.h"

#include <stdio.h>
#include <stdlib.h>
#include <string.h>

enum { ROOM = 1 << 20, CHUNK = 4096 };

struct told {
    uint32_t type, compression;
    uint64_t width, height;
};

typedef uint32_t call(const uint8_t *bytes, size_t length, struct told *told);

static uint32_t none(const uint8_t *bytes, size_t length, struct told *told)
{
    (void)bytes;
    told->width = length;
    return 0;
}

static uint32_t size(const uint8_t *bytes, size_t length, struct told *told)
{
    return imagesize_size(bytes, length, &told->width, &told->height);
}

static uint32_t probe(const uint8_t *bytes, size_t length, struct told *told)
{
    return imagesize_probe(bytes, length, &told->type, &told->compression, &told->width, &told->height);
}

static uint32_t parts(const uint8_t *bytes, size_t length, struct told *told)
{
    imagesize_span all = {0, length}, wanted;
    return imagesize_parts_probe(bytes, length, &all, 1, length, &told->type, &told->compression, &told->width, &told->height,
                                 &wanted);
}

static uint32_t many(const uint8_t *bytes, size_t length, struct told *told)
{
    imagesize_span all[64], wanted;
    all[0] = (imagesize_span){0, length};
    for (size_t i = 1; i < 64; i++) {
        all[i] = (imagesize_span){length, 1};
    }
    return imagesize_parts_probe(bytes, length, all, 64, length, &told->type, &told->compression, &told->width, &told->height,
                                 &wanted);
}

static uint32_t spans(const uint8_t *bytes, size_t length, struct told *told)
{
    static imagesize_span found[4096];
    size_t count = 0;
    uint32_t status = imagesize_spans(bytes, length, found, 4096, &count);
    told->width = count;
    return status;
}

static uint32_t stream(const uint8_t *bytes, size_t length, struct told *told)
{
    imagesize_stream state;
    imagesize_stream_new(&state, length);
    return imagesize_stream_push(&state, bytes, length, &told->type, &told->compression, &told->width, &told->height);
}

/* Passes at most this many bytes to a push parser, in chunks of a size. */
static uint32_t pushed(const uint8_t *bytes, size_t most, size_t chunk, size_t length, struct told *told)
{
    imagesize_stream state;
    uint32_t status = IMAGESIZE_BYTES_WANTED;
    imagesize_stream_new(&state, length);
    for (size_t at = 0; at < most && status == IMAGESIZE_BYTES_WANTED; at += chunk) {
        status = imagesize_stream_push(&state, bytes + at, most - at < chunk ? most - at : chunk, &told->type, &told->compression,
                                       &told->width, &told->height);
    }
    return status;
}

static uint32_t chunks(const uint8_t *bytes, size_t length, struct told *told)
{
    return pushed(bytes, length, CHUNK, length, told);
}

static uint32_t by_bytes(const uint8_t *bytes, size_t length, struct told *told)
{
    return pushed(bytes, length < CHUNK ? length : CHUNK, 1, length, told);
}

/* Passes all bytes to a push parser and to a probe over spans that have their result. count.py counts only this function. */
__attribute__((noinline)) static uint32_t passed_again(imagesize_stream *stream, imagesize_rounds *parts, const uint8_t *bytes,
                                                       size_t length, struct told *told)
{
    imagesize_rounds_supply(parts, 0, bytes, length);
    return imagesize_stream_push(stream, bytes, length, &told->type, &told->compression, &told->width, &told->height);
}

static uint32_t again(const uint8_t *bytes, size_t length, struct told *told)
{
    imagesize_stream stream;
    imagesize_rounds state;
    imagesize_span wanted;
    imagesize_stream_new(&stream, length);
    imagesize_stream_push(&stream, bytes, length, &told->type, &told->compression, &told->width, &told->height);
    imagesize_rounds_new(&state, length);
    while (imagesize_rounds_answer(&state, &told->type, &told->compression, &told->width, &told->height, &wanted) ==
           IMAGESIZE_BYTES_WANTED) {
        imagesize_rounds_supply(&state, wanted.start, bytes + wanted.start, length - wanted.start);
    }
    return passed_again(&stream, &state, bytes, length, told);
}

static call *called(const char *name)
{
    static const struct {
        const char *name;
        call *called;
    } calls[] = {{"size", size}, {"probe", probe}, {"spans", spans}, {"parts", parts}, {"many", many}, {"stream", stream},
                 {"chunks", chunks}, {"bytes", by_bytes}, {"again", again}};
    for (size_t i = 0; i < sizeof calls / sizeof *calls; i++) {
        if (strcmp(name, calls[i].name) == 0) {
            return calls[i].called;
        }
    }
    return none;
}

int main(int count, char **words)
{
    FILE *file = count == 4 ? fopen(words[3], "rb") : NULL;
    uint8_t *bytes = malloc(ROOM);
    if (file == NULL || bytes == NULL) {
        return 2;
    }
    size_t length = fread(bytes, 1, ROOM, file);
    fclose(file);
    call *volatile chosen = called(words[1]);
    struct told told = {0, 0, 0, 0};
    uint64_t sum = 0;
    for (long i = strtol(words[2], NULL, 10); i > 0; i--) {
        sum += chosen(bytes, length, &told) + told.width;
    }
    free(bytes);
    return sum == UINT64_MAX;
}
