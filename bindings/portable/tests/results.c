/*
 * Prints a checksum of all that the library's calls write for some inputs, so that two libraries, or two machines, can be compared.
 *
 *     results FILE EVERY [FIRST]
 *
 * FILE has inputs as inputs.c writes them. A line is printed for each EVERY inputs: the number of the first, and the checksum. With
 * FIRST, only the lines from that input on are printed, EVERY inputs of it. The last line has the number of inputs and of calls.
 *
 * Every call of imagesize.h is made, over the whole input, over parts that are requested one by one, in rounds, and in pieces. A
 * variable that a call may write holds another number before. Its value afterwards is part of the checksum, whatever the status is.
 */
#include "imagesize.h"

#include <stdio.h>
#include <stdlib.h>
#include <string.h>

enum { ROOM = 1 << 20, SPANS = 1 << 16, PARTS = 512, TEXT = 300 };

#define UNWRITTEN UINT32_C(0xFEFEFEFE)
#define FEW 40

static uint64_t checksum, state;
static unsigned long long calls;

/* The next random number, by splitmix64. It depends on the input alone. */
static uint64_t next(void)
{
    uint64_t z = state += UINT64_C(0x9E3779B97F4A7C15);
    z = (z ^ z >> 30) * UINT64_C(0xBF58476D1CE4E5B9);
    z = (z ^ z >> 27) * UINT64_C(0x94D049BB133111EB);
    return z ^ z >> 31;
}

static uint64_t below(uint64_t bound)
{
    return next() % bound;
}

/* Adds a number to the checksum, by FNV-1a over eight bytes. */
static void add(uint64_t number)
{
    for (int at = 0; at < 8; at++) {
        checksum = (checksum ^ (number >> 8 * at & 0xFF)) * UINT64_C(0x100000001B3);
    }
}

/* What a call writes. */
struct result {
    uint32_t status, type, compression;
    uint64_t width, height;
    imagesize_span wanted;
};

static const struct result unwritten = {UNWRITTEN, UNWRITTEN, UNWRITTEN, UNWRITTEN, UNWRITTEN, {UNWRITTEN, UNWRITTEN}};

static void add_result(const struct result *of)
{
    calls++;
    add(of->status);
    add(of->type);
    add(of->compression);
    add(of->width);
    add(of->height);
    add(of->wanted.start);
    add(of->wanted.len);
}

static void add_text(uint32_t status, const char *text, size_t capacity, size_t written)
{
    calls++;
    add(status);
    add(written);
    for (size_t at = 0; at < capacity; at++) {
        add((uint8_t)text[at]);
    }
}

/* Each call that writes a text or a number for a type. */
static void names(uint32_t type, uint32_t compression)
{
    static uint32_t (*const texts[])(uint32_t, uint32_t, char *, size_t, size_t *) = {
        imagesize_type_name, imagesize_compression_name, imagesize_container_format};
    static uint32_t (*const queries[])(uint32_t, uint32_t, uint32_t *) = {
        imagesize_compression_family, imagesize_is_block_compressed, imagesize_is_multi_compression_container};
    char text[TEXT];
    for (int at = 0; at < 3; at++) {
        size_t written = UNWRITTEN, capacity = (size_t)below(2) ? sizeof text : (size_t)below(12);
        uint32_t number = UNWRITTEN;
        memset(text, '.', sizeof text);
        uint32_t status = texts[at](type, compression, text, capacity, &written);
        add_text(status, text, sizeof text, written);
        add(queries[at](type, compression, &number));
        add(number);
    }
    for (int at = 0; at < 2; at++) {
        size_t written = UNWRITTEN, capacity = at ? sizeof text : (size_t)below(60);
        memset(text, '.', sizeof text);
        uint32_t status = imagesize_status_text((uint32_t)below(33), text, capacity, &written);
        add_text(status, text, sizeof text, written);
    }
}

static void whole(const uint8_t *bytes, size_t length)
{
    static imagesize_span spans[SPANS];
    struct result probe = unwritten, size = unwritten, type = unwritten, png = unwritten;
    uint32_t answer = UNWRITTEN;
    probe.status = imagesize_probe(bytes, length, &probe.type, &probe.compression, &probe.width, &probe.height);
    add_result(&probe);
    size.status = imagesize_size(bytes, length, &size.width, &size.height);
    add_result(&size);
    type.status = imagesize_type(bytes, length, &type.type, &type.compression);
    add_result(&type);
    png.status = imagesize_png_size(bytes, length, &png.width, &png.height);
    add_result(&png);
    add(imagesize_png_matches(bytes, length, &answer));
    add(answer);
    size_t capacity = below(3) ? SPANS : (size_t)below(4), count = UNWRITTEN;
    spans[0].start = spans[0].len = UNWRITTEN;
    uint32_t status = imagesize_spans(bytes, length, spans, capacity, &count);
    calls++;
    add(status);
    add(count);
    for (size_t at = 0; at < (status == IMAGESIZE_ANSWERED ? count : 1); at++) {
        add(spans[at].start);
        add(spans[at].len);
    }
    names(probe.type, probe.compression);
    uint32_t type_number = (uint32_t)below(28), compression_number = (uint32_t)below(36);
    names(type_number, compression_number);
}

enum how { BOTH, TYPE, SIZE, PNG };

/* A call over parts, from none on, until there is a result. The first parts may be random ones. */
static void by_parts(const uint8_t *bytes, size_t length, enum how how)
{
    static uint8_t known[2 * ROOM];
    static imagesize_span parts[PARTS];
    size_t have = 0, count = 0;
    uint32_t type = (uint32_t)below(27), compression = (uint32_t)below(2);
    for (uint64_t more = below(2) ? 0 : below(4); more-- > 0 && length > 0; count++) {
        parts[count].start = below(length);
        parts[count].len = 1 + below(length - parts[count].start);
        memcpy(known + have, bytes + parts[count].start, (size_t)parts[count].len);
        have += (size_t)parts[count].len;
    }
    for (;;) {
        struct result found = unwritten;
        switch (how) {
        case BOTH:
            found.status = imagesize_parts_probe(known, have, parts, count, length, &found.type, &found.compression, &found.width,
                                                 &found.height, &found.wanted);
            break;
        case TYPE:
            found.status = imagesize_parts_type(known, have, parts, count, length, &found.type, &found.compression, &found.wanted);
            break;
        case SIZE:
            found.status = imagesize_parts_size(type, compression, known, have, parts, count, length, &found.width, &found.height,
                                                &found.wanted);
            break;
        default:
            found.status = imagesize_png_parts_size(known, have, parts, count, length, &found.width, &found.height, &found.wanted);
        }
        add_result(&found);
        if (found.status != IMAGESIZE_BYTES_WANTED || count == FEW) {
            return;
        }
        parts[count++] = found.wanted;
        memcpy(known + have, bytes + found.wanted.start, (size_t)found.wanted.len);
        have += (size_t)found.wanted.len;
    }
}

/* Rounds that bring a requested span, or a block around it. */
static void by_rounds(const uint8_t *bytes, size_t length)
{
    imagesize_rounds parts;
    uint64_t around = below(2) ? 0 : below(64);
    imagesize_rounds_new(&parts, length);
    for (int round = 0; round < 4 * FEW; round++) {
        struct result found = unwritten;
        found.status = imagesize_rounds_answer(&parts, &found.type, &found.compression, &found.width, &found.height, &found.wanted);
        add_result(&found);
        if (found.status != IMAGESIZE_BYTES_WANTED) {
            return;
        }
        uint64_t start = found.wanted.start < around ? 0 : found.wanted.start - around, end = found.wanted.start + found.wanted.len + around;
        end = end < length ? end : length;
        imagesize_rounds_supply(&parts, start, bytes + start, (size_t)(end - start));
    }
}

/* Pieces of some length, with the length of the input known or not. */
static void by_stream(const uint8_t *bytes, size_t length)
{
    imagesize_stream stream;
    size_t most = (size_t)(below(2) ? 1 + below(length + 1) : 1 + below(16));
    imagesize_stream_new(&stream, below(2) ? length : IMAGESIZE_LENGTH_UNKNOWN);
    for (size_t at = 0, left = 4 * FEW; at < length && left > 0; at += most, left--) {
        struct result found = unwritten;
        size_t piece = length - at < most ? length - at : most;
        found.status = imagesize_stream_push(&stream, bytes + at, piece, &found.type, &found.compression, &found.width, &found.height);
        add_result(&found);
    }
    struct result ended = unwritten;
    ended.status = imagesize_stream_finish(&stream, &ended.type, &ended.compression, &ended.width, &ended.height);
    add_result(&ended);
}

static void all_calls(const uint8_t *bytes, size_t length)
{
    whole(bytes, length);
    by_parts(bytes, length, BOTH);
    by_parts(bytes, length, TYPE);
    by_parts(bytes, length, SIZE);
    by_parts(bytes, length, PNG);
    by_rounds(bytes, length);
    by_stream(bytes, length);
}

/* Reads the next input. Returns 0 at the end of the file. */
static int read_input(FILE *file, uint8_t *bytes, size_t *length)
{
    uint8_t head[4];
    if (fread(head, 1, 4, file) != 4) {
        return 0;
    }
    *length = head[0] | (size_t)head[1] << 8 | (size_t)head[2] << 16 | (size_t)head[3] << 24;
    return *length <= ROOM && fread(bytes, 1, *length, file) == *length;
}

int main(int count, char **words)
{
    static uint8_t input[ROOM];
    size_t length;
    FILE *file = count >= 3 ? fopen(words[1], "rb") : NULL;
    unsigned long long every = count >= 3 ? strtoull(words[2], NULL, 10) : 0, first = count > 3 ? strtoull(words[3], NULL, 10) : 0, at = 0;
    if (file == NULL || every == 0) {
        fprintf(stderr, "usage: results FILE EVERY [FIRST]\n");
        return 2;
    }
    while (read_input(file, input, &length) && (count <= 3 || at < first + every)) {
        if (at >= first) {
            /* The bytes end where a sanitizer ends the memory. */
            uint8_t *bytes = malloc(length + (length == 0));
            if (bytes == NULL) {
                return 2;
            }
            memcpy(bytes, input, length);
            state = at;
            all_calls(bytes, length);
            free(bytes);
            if (count > 3) {
                printf("%llu\t%016llx\t", at, (unsigned long long)checksum);
                for (size_t i = 0; i < length; i++) {
                    printf("%02x", input[i]);
                }
                printf("\n");
            } else if ((at + 1) % every == 0) {
                printf("%llu\t%016llx\n", at + 1 - every, (unsigned long long)checksum);
            }
        }
        at++;
    }
    printf("inputs %llu, calls %llu, %016llx\n", at - (at < first ? at : first), calls, (unsigned long long)checksum);
    return 0;
}
