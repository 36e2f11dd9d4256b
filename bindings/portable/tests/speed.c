/*
 * Prints how many nanoseconds each call takes over the bytes of each file, the least of some rounds.
 *
 *     speed CALL FILE..
 *
 * CALL is size, probe, spans, parts, rounds, stream or none. `parts` passes one part, which has all bytes. `rounds` passes the blocks of 4,096
 * bytes that are requested, and `stream` chunks of 4,096 bytes.
 */
#define _POSIX_C_SOURCE 200809L
#include "imagesize.h"

#include <stdio.h>
#include <stdlib.h>
#include <string.h>
#include <time.h>

enum { ROOM = 1 << 20, BLOCK = 4096, ROUNDS = 15 };

struct found {
    uint32_t type, compression;
    uint64_t width, height;
};

typedef uint32_t call(const uint8_t *bytes, size_t length, struct found *found);

static uint32_t none(const uint8_t *bytes, size_t length, struct found *found)
{
    (void)bytes;
    found->width = length;
    return 0;
}

static uint32_t size(const uint8_t *bytes, size_t length, struct found *found)
{
    return imagesize_size(bytes, length, &found->width, &found->height);
}

static uint32_t probe(const uint8_t *bytes, size_t length, struct found *found)
{
    return imagesize_probe(bytes, length, &found->type, &found->compression, &found->width, &found->height);
}

static uint32_t spans(const uint8_t *bytes, size_t length, struct found *found)
{
    static imagesize_span list[4096];
    size_t count = 0;
    uint32_t status = imagesize_spans(bytes, length, list, 4096, &count);
    found->width = count;
    return status;
}

static uint32_t parts(const uint8_t *bytes, size_t length, struct found *found)
{
    imagesize_span all = {0, length}, wanted;
    return imagesize_parts_probe(bytes, length, &all, 1, length, &found->type, &found->compression, &found->width, &found->height, &wanted);
}

static uint32_t rounds(const uint8_t *bytes, size_t length, struct found *found)
{
    imagesize_rounds state;
    imagesize_span wanted = {0, 0};
    uint32_t status;
    imagesize_rounds_new(&state, length);
    while ((status = imagesize_rounds_answer(&state, &found->type, &found->compression, &found->width, &found->height, &wanted))
           == IMAGESIZE_BYTES_WANTED) {
        size_t start = (size_t)wanted.start, left = length - start;
        imagesize_rounds_supply(&state, start, bytes + start, left < BLOCK ? left : BLOCK);
    }
    return status;
}

static uint32_t stream(const uint8_t *bytes, size_t length, struct found *found)
{
    imagesize_stream state;
    uint32_t status = IMAGESIZE_BYTES_WANTED;
    imagesize_stream_new(&state, length);
    for (size_t at = 0; at < length && status == IMAGESIZE_BYTES_WANTED; at += BLOCK) {
        status = imagesize_stream_push(&state, bytes + at, length - at < BLOCK ? length - at : BLOCK, &found->type, &found->compression,
                                       &found->width, &found->height);
    }
    return status;
}

static call *called(const char *name)
{
    static const struct {
        const char *name;
        call *called;
    } calls[] = {{"size", size}, {"probe", probe}, {"spans", spans}, {"parts", parts}, {"rounds", rounds}, {"stream", stream}};
    for (size_t i = 0; i < sizeof calls / sizeof *calls; i++) {
        if (strcmp(name, calls[i].name) == 0) {
            return calls[i].called;
        }
    }
    return none;
}

/* The processor's seconds, which other processes do not count in. */
static double seconds(void)
{
    struct timespec now;
    clock_gettime(CLOCK_PROCESS_CPUTIME_ID, &now);
    return (double)now.tv_sec + (double)now.tv_nsec / 1e9;
}

static double nanoseconds(call *volatile chosen, const uint8_t *bytes, size_t length)
{
    double least = 1;
    long times = 1;
    for (int round = 0; round < ROUNDS; round++) {
        struct found found = {0, 0, 0, 0};
        double start = seconds(), taken;
        for (long i = 0; i < times; i++) {
            chosen(bytes, length, &found);
        }
        taken = seconds() - start;
        if (taken < 2e-3) {
            times *= 2;
            round--;
        } else if (taken / (double)times < least) {
            least = taken / (double)times;
        }
    }
    return least * 1e9;
}

int main(int count, char **words)
{
    static uint8_t bytes[ROOM];
    for (int i = 2; i < count; i++) {
        FILE *file = fopen(words[i], "rb");
        if (file == NULL) {
            return 2;
        }
        size_t length = fread(bytes, 1, ROOM, file);
        fclose(file);
        printf("%.1f\n", nanoseconds(called(words[1]), bytes, length));
    }
    return 0;
}
