/*
 * Passes each test vector to a push parser, in pieces of several lengths, and to a probe over spans, in rounds that bring all of each
 * requested span or less, and compares the results with imagesize_probe.
 *
 *     streams TABLE
 *
 * TABLE is the file that expand.py writes. The status is 0 if each result is right.
 */
#define _POSIX_C_SOURCE 200809L
#include "imagesize.h"

#include <ctype.h>
#include <stdio.h>
#include <stdlib.h>
#include <string.h>

enum { LONGEST = 5000, SHORT = 200 };

static int failures;

static void expect(int holds, const char *what)
{
    if (!holds) {
        fprintf(stderr, "not so: %s\n", what);
        failures++;
    }
}

/* The status and the results of a call. The initial numbers are not possible results. */
struct answer {
    uint32_t status, type, compression;
    uint64_t width, height;
};

static const struct answer nothing = {IMAGESIZE_BYTES_WANTED, 100, 101, 102, 103};

static int is_same(struct answer a, struct answer b)
{
    return a.status == b.status && a.type == b.type && a.compression == b.compression && a.width == b.width && a.height == b.height;
}

static struct answer probe(const uint8_t *bytes, size_t length)
{
    struct answer a = nothing;
    a.status = imagesize_probe(bytes, length, &a.type, &a.compression, &a.width, &a.height);
    return a;
}

/* The memory of a push parser, between numbers that no call may change. */
struct memory {
    uint64_t before;
    imagesize_stream stream;
    uint64_t after;
};

static void begin(struct memory *memory, uint64_t total)
{
    memory->before = memory->after = 0xA5A5A5A5;
    imagesize_stream_new(&memory->stream, total);
}

/* Passes bytes that end where the sanitizer ends the memory. */
static struct answer push(struct memory *memory, const uint8_t *bytes, size_t length)
{
    struct answer a = nothing;
    uint8_t *piece = malloc(length + (length == 0));
    if (piece == NULL) {
        exit(2);
    }
    memcpy(piece, bytes, length);
    a.status = imagesize_stream_push(&memory->stream, piece, length, &a.type, &a.compression, &a.width, &a.height);
    free(piece);
    expect(a.status != IMAGESIZE_BYTES_WANTED || is_same(a, nothing), "a call that needs more bytes writes nothing");
    return a;
}

static struct answer finish(struct memory *memory)
{
    struct answer a = nothing;
    a.status = imagesize_stream_finish(&memory->stream, &a.type, &a.compression, &a.width, &a.height);
    expect(memory->before == 0xA5A5A5A5 && memory->after == 0xA5A5A5A5, "nothing beside the memory is written");
    return a;
}

/* An input in pieces. A result that comes before its end is the right one, and stays. */
static void in_pieces(struct memory *memory, const uint8_t *bytes, size_t length, size_t piece, uint64_t total)
{
    struct answer right = probe(bytes, length), a = nothing;
    begin(memory, total);
    for (size_t at = 0; at <= length; at += piece) {
        struct answer before = a;
        a = push(memory, bytes + at, length - at < piece ? length - at : piece);
        expect(is_same(before, nothing) || is_same(before, a), "a result stays");
        expect(is_same(a, nothing) || is_same(a, right), "a result before the end is that of the whole input");
    }
    expect(total != length || is_same(a, right), "the last byte of a known length brings the result");
    expect(is_same(finish(memory), right), "the end of the input brings the result");
}

/* Each front of an input, ended by a copy of the memory, has the result of imagesize_probe over that front. */
static void each_front(struct memory *memory, const uint8_t *bytes, size_t length, uint64_t total)
{
    struct memory copy;
    begin(memory, total);
    for (size_t front = 0; front <= length && front <= SHORT; front++) {
        memcpy(&copy, memory, sizeof copy);
        expect(is_same(finish(&copy), probe(bytes, front)), "a front that ends has its own result");
        if (front < length) {
            push(memory, bytes + front, 1);
        }
    }
}

/* A copy in mid-stream goes on as the original does, each with bytes of its own. */
static void copied(struct memory *memory, const uint8_t *bytes, size_t length)
{
    uint8_t other[LONGEST];
    size_t half = length / 2;
    struct memory *copy = malloc(sizeof *copy);
    if (copy == NULL) {
        exit(2);
    }
    memcpy(other, bytes, half);
    memset(other + half, 0x20, length - half);
    begin(memory, length);
    push(memory, bytes, half);
    memcpy(copy, memory, sizeof *copy);
    expect(is_same(push(copy, other + half, length - half), probe(other, length)), "a copy goes on");
    expect(is_same(push(memory, bytes + half, length - half), probe(bytes, length)), "and so does the original");
    finish(copy);
    finish(memory);
    free(copy);
}

/* An input of bytes past the length that was passed, which do not count. */
static void past_the_length(struct memory *memory, const uint8_t *bytes, size_t length)
{
    size_t total = length / 2;
    begin(memory, total);
    expect(is_same(push(memory, bytes, length), probe(bytes, total)), "bytes past the length do not count");
    expect(is_same(finish(memory), probe(bytes, total)), "not at the end either");
}

/* The memory of a probe over spans, between numbers that no call may change. */
struct rounds {
    uint64_t before;
    imagesize_rounds parts;
    uint64_t after;
};

/* Passes bytes from an offset on. They end where the sanitizer ends the memory. */
static void supply(struct rounds *rounds, uint64_t offset, const uint8_t *bytes, size_t length)
{
    uint8_t *piece = malloc(length + (length == 0));
    if (piece == NULL) {
        exit(2);
    }
    memcpy(piece, bytes, length);
    imagesize_rounds_supply(&rounds->parts, offset, piece, length);
    free(piece);
}

/* The result, or the requested span, which lies within the input and begins at this offset or after it. */
static struct answer ask(const struct rounds *rounds, size_t length, uint64_t least, imagesize_span *wanted)
{
    struct answer a = nothing, again = nothing;
    imagesize_span span = {7, 8};
    *wanted = span;
    a.status = imagesize_rounds_answer(&rounds->parts, &a.type, &a.compression, &a.width, &a.height, wanted);
    again.status = imagesize_rounds_answer(&rounds->parts, &again.type, &again.compression, &again.width, &again.height, &span);
    expect(is_same(a, again) && wanted->start == span.start && wanted->len == span.len, "a second call returns the same");
    if (a.status == IMAGESIZE_BYTES_WANTED) {
        expect(is_same(a, nothing), "a call that requests a span writes nothing else");
        expect(wanted->start >= least && wanted->len > 0 && wanted->start < length && wanted->len <= length - wanted->start,
               "a requested span lies within the input, and after the start of the last one");
    } else {
        expect(wanted->start == 7 && wanted->len == 8, "a call with a result requests nothing");
    }
    expect(rounds->before == 0xA5A5A5A5 && rounds->after == 0xA5A5A5A5, "nothing beside the memory is written");
    return a;
}

/* Rounds that bring at most so many bytes of each requested span, or these and all bytes before. Bytes after a gap are ignored. A copy of
 * the memory goes on by itself. */
static void in_rounds(const uint8_t *bytes, size_t length, size_t most, int with_all_before)
{
    struct rounds rounds = {0xA5A5A5A5, {{0}}, 0xA5A5A5A5}, copy;
    struct answer right = probe(bytes, length), a;
    imagesize_span wanted, last;
    uint64_t least = 0;
    imagesize_rounds_new(&rounds.parts, length);
    while (a = ask(&rounds, length, least, &wanted), a.status == IMAGESIZE_BYTES_WANTED) {
        size_t start = (size_t)wanted.start, brought = wanted.len < most ? (size_t)wanted.len : most;
        least = wanted.start + 1;
        supply(&rounds, start + 1, bytes + start + 1, length - start - 1);
        copy = rounds;
        supply(&copy, start, bytes + start, length - start);
        expect(is_same(ask(&copy, length, 0, &last), right), "a copy that gets all the rest has the result");
        if (with_all_before) {
            supply(&rounds, 0, bytes, start + brought);
        } else {
            supply(&rounds, start, bytes + start, brought);
        }
    }
    expect(is_same(a, right), "rounds lead to the right result");
    supply(&rounds, 0, bytes, length);
    expect(is_same(ask(&rounds, length, 0, &last), right), "which stays");
}

static void all_rounds(const uint8_t *bytes, size_t length)
{
    static const size_t most[] = {1, 2, 5, LONGEST};
    for (size_t i = 0; i < sizeof most / sizeof *most; i++) {
        in_rounds(bytes, length, most[i], 0);
        in_rounds(bytes, length, most[i], 1);
    }
}

static void all_ways(struct memory *memory, const uint8_t *bytes, size_t length)
{
    static const size_t pieces[] = {1, 2, 3, 7, 4096, LONGEST + 1};
    const uint64_t totals[] = {length, IMAGESIZE_LENGTH_UNKNOWN, length + 1, UINT64_C(1) << 63, (UINT64_C(1) << 63) - 1};
    for (size_t i = 0; i < sizeof pieces / sizeof *pieces; i++) {
        for (size_t j = 0; j < sizeof totals / sizeof *totals; j++) {
            in_pieces(memory, bytes, length, pieces[i], totals[j]);
        }
    }
    each_front(memory, bytes, length, length);
    each_front(memory, bytes, length, IMAGESIZE_LENGTH_UNKNOWN);
    copied(memory, bytes, length);
    past_the_length(memory, bytes, length);
    all_rounds(bytes, length);
}

/* The bytes of a line's first cell, in hex, or `-` for none. Their number is returned. */
static size_t bytes_of(const char *line, uint8_t *bytes)
{
    size_t length = 0;
    /* Not past the tab: the next cell may begin with a hexadecimal digit too. */
    for (unsigned byte; length < LONGEST && isxdigit((unsigned char)line[2 * length]) && sscanf(line + 2 * length, "%2x", &byte) == 1;
         length++) {
        bytes[length] = (uint8_t)byte;
    }
    return length;
}

int main(int count, char **arguments)
{
    static struct memory memory;
    char *line = NULL;
    size_t room = 0, vectors = 0;
    uint8_t bytes[LONGEST];
    FILE *table = count == 2 ? fopen(arguments[1], "r") : NULL;
    if (table == NULL) {
        fprintf(stderr, "usage: streams TABLE\n");
        return 2;
    }
    memset(&memory, 0xA5, sizeof memory);
    for (; getline(&line, &room, table) > 0; vectors++) {
        all_ways(&memory, bytes, bytes_of(line, bytes));
    }
    free(line);
    fclose(table);
    expect(vectors > 200, "the table has its vectors");
    printf("%zu test vectors as streams and in rounds: %s\n", vectors, failures == 0 ? "as they should be" : "NOT as they should be");
    return failures != 0;
}
