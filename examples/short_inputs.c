/*
 * Calls the library over a hundred thousand short inputs, in eight threads at once. Each input and each buffer ends at a page that
 * cannot be read, so a call that reads or writes past its end faults. Then it makes the mistakes that a caller may make.
 *
 *     short_inputs
 *
 * The status is 0 if every expectation holds.
 */
#define _DEFAULT_SOURCE
#include "imagesize.h"

#include <inttypes.h>
#include <pthread.h>
#include <stdatomic.h>
#include <stdio.h>
#include <string.h>
#include <sys/mman.h>
#include <unistd.h>

enum { THREADS = 8, INPUTS = 12500, LONGEST = 96, SPANS = 64, PAGES = 4 };

static atomic_int failures;

static void expect(int holds, const char *what)
{
    if (!holds) {
        fprintf(stderr, "not so: %s\n", what);
        failures++;
    }
}

/* The end of a memory that is followed by a page that cannot be read or written. */
static uint8_t *guarded_end(void)
{
    size_t page = (size_t)sysconf(_SC_PAGESIZE), room = PAGES * page;
    uint8_t *pages = mmap(NULL, room + page, PROT_READ | PROT_WRITE, MAP_PRIVATE | MAP_ANONYMOUS, -1, 0);
    if (pages == MAP_FAILED || mprotect(pages + room, page, PROT_NONE) != 0) {
        return NULL;
    }
    return pages + room;
}

/* A thread's memory: where its input, its buffers of bytes and its buffer of spans end, and the last random number. */
struct worker {
    uint8_t *input_end, *bytes_end;
    imagesize_span *spans_end;
    uint64_t random;
};

static uint64_t random_number(struct worker *worker)
{
    worker->random ^= worker->random << 13;
    worker->random ^= worker->random >> 7;
    worker->random ^= worker->random << 17;
    return worker->random;
}

/* The first bytes of short inputs, so that most have a known type. */
static const struct front {
    const char *bytes;
    size_t length;
} fronts[] = {
    {"\xFF\xD8\xFF\xC0\x00\x11\x08", 7}, {"GIF89a", 6}, {"II*\0\x08\0\0\0\x02\0", 10}, {"MM\0*\0\0\0\x08\0\x01", 10},
    {"MM\0+\0\x08\0\0\0\0\0\0\0\0\0\x10", 16}, {"RIFF\0\0\0\0WEBPVP8 ", 16}, {"RIFF\0\0\0\0WEBPVP8L", 16},
    {"\0\0\0\x18" "ftypavif", 12}, {"\0\0\0\x0C" "JXL \r\n\x87\n\0\0\0\x09jxlc", 20}, {"\xFF\x0A", 2}, {"BM", 2},
    {"8BPS", 4}, {"\0\0\x01\0\x02\0", 6}, {"\x13\xAB\xA1\x5C", 4}, {"PKM 20", 6}, {"PVR\x03", 4}, {"\x76\x2F\x31\x01\x02", 5},
    {"#?RADIANCE\n\n", 12}, {"DDS |\0\0\0", 8}, {"farbfeld", 8}, {"FORM\0\0\0\0ILBM", 12}, {"P5 1", 4}, {"qoif", 4},
    {"\0\0\x02\0\0\0\0\0\0\0\0\0\x03\0\x04\0\x18\0", 18}, {"VTF\0", 4}, {"\xABKTX 20\xBB\r\n\x1A\n", 12},
};

/* Writes a short input at the end of a worker's buffer, and returns its length. */
static size_t short_input(struct worker *worker)
{
    size_t length = random_number(worker) % (LONGEST + 1);
    uint8_t *bytes = worker->input_end - length;
    for (size_t i = 0; i < length; i++) {
        uint64_t number = random_number(worker);
        bytes[i] = (uint8_t)(number % 3 == 0 ? number >> 8 : number % 3 - 1);
    }
    const struct front *front = &fronts[random_number(worker) % (sizeof fronts / sizeof fronts[0])];
    memcpy(bytes, front->bytes, length < front->length ? length : front->length);
    return length;
}

/* The status and the results of a call. The initial numbers are not possible results. */
struct answer {
    uint32_t status, type, compression;
    uint64_t width, height;
};

static const struct answer nothing_told = {0, 0, 0, 7, 9};

static int is_same(const struct answer *a, const struct answer *b)
{
    return a->status == b->status && a->type == b->type && a->compression == b->compression && a->width == b->width
           && a->height == b->height;
}

static struct answer probe(const uint8_t *bytes, size_t length)
{
    struct answer a = nothing_told;
    a.status = imagesize_probe(bytes, length, &a.type, &a.compression, &a.width, &a.height);
    return a;
}

/* The status is success or an error of the bytes: there is no reader, and no memory is allocated. */
static int is_of_bytes(uint32_t status)
{
    return status < IMAGESIZE_BUFFER_TOO_SMALL && status != IMAGESIZE_FAULT && status != IMAGESIZE_BUDGET_SPENT
           && status != IMAGESIZE_OUT_OF_MEMORY;
}

/* The calls for type and size alone return the same as the call for both. */
static void calls_agree(const uint8_t *bytes, size_t length, const struct answer *both)
{
    expect(is_of_bytes(both->status), "a probe returns success or an error of the bytes");
    expect(both->status == IMAGESIZE_ANSWERED || (both->width == 7 && both->height == 9), "no size with an error");
    struct answer size = nothing_told, type = nothing_told;
    size.status = imagesize_size(bytes, length, &size.width, &size.height);
    expect(size.status == both->status, "the size alone has the same status");
    expect(size.width == both->width && size.height == both->height, "and the same size");
    type.status = imagesize_type(bytes, length, &type.type, &type.compression);
    expect((type.status == IMAGESIZE_ANSWERED) == (type.type != 0), "imagesize_type finds a type if imagesize_probe does");
    expect(type.type == both->type && type.compression == both->compression, "and the same type");
}

static void spans_lie_within(struct worker *worker, size_t length)
{
    imagesize_span *spans = worker->spans_end - SPANS;
    size_t count = SPANS + 1;
    uint32_t status = imagesize_spans(worker->input_end - length, length, spans, SPANS, &count);
    expect(status == (count <= SPANS ? IMAGESIZE_ANSWERED : IMAGESIZE_BUFFER_TOO_SMALL), "spans where they fit");
    for (size_t i = 0; status == IMAGESIZE_ANSWERED && i < count; i++) {
        expect(spans[i].len > 0 && spans[i].start < length && spans[i].len <= length - spans[i].start, "spans of the input");
    }
}

/* The calls over parts: for both, for the type alone, or for the size as a known type. */
enum asked { BOTH, TYPE, SIZE };

/* A call over the first `count` parts of a worker. */
static uint32_t ask(const struct worker *worker, enum asked asked, const uint8_t *bytes, size_t length, size_t count,
                    uint64_t total, struct answer *a, imagesize_span *wanted)
{
    const imagesize_span *parts = worker->spans_end - count;
    switch (asked) {
    case TYPE:
        return imagesize_parts_type(bytes, length, parts, count, total, &a->type, &a->compression, wanted);
    case SIZE:
        return imagesize_parts_size(a->type, a->compression, bytes, length, parts, count, total, &a->width, &a->height, wanted);
    default:
        return imagesize_parts_probe(bytes, length, parts, count, total, &a->type, &a->compression, &a->width, &a->height, wanted);
    }
}

/* One call over these spans of an input. Their bytes, and the spans, end at a page that cannot be read. */
static struct answer ask_parts(struct worker *worker, enum asked asked, struct answer a, size_t length, const imagesize_span *parts,
                               size_t count, imagesize_span *wanted)
{
    uint8_t known[SPANS * LONGEST];
    size_t bytes = 0;
    for (size_t i = 0; i < count; i++) {
        memcpy(known + bytes, worker->input_end - length + parts[i].start, (size_t)parts[i].len);
        bytes += (size_t)parts[i].len;
    }
    memcpy(worker->bytes_end - bytes, known, bytes);
    memcpy(worker->spans_end - count, parts, count * sizeof *parts);
    a.status = ask(worker, asked, worker->bytes_end - bytes, bytes, count, length, &a, wanted);
    return a;
}

/* Starting without parts, and adding each requested part, gives the right result. */
static void parts_lead_to(struct worker *worker, enum asked asked, struct answer before, size_t length, const struct answer *right)
{
    imagesize_span parts[SPANS], wanted = {0, 0};
    for (size_t count = 0; count < SPANS; count++) {
        struct answer a = ask_parts(worker, asked, before, length, parts, count, &wanted);
        if (a.status != IMAGESIZE_BYTES_WANTED) {
            expect(is_same(&a, right), "the parts give the result of the whole input");
            return;
        }
        before.status = a.status;
        expect(is_same(&a, &before), "a call that requests a part writes nothing else");
        expect(wanted.len > 0 && wanted.start < length && wanted.len <= length - wanted.start, "the requested part lies within the input");
        parts[count] = wanted;
    }
    expect(0, "a call over parts ends");
}

/* The type alone, and the size by it, are the same as in the call for both. */
static void parts_lead_to_each(struct worker *worker, size_t length, const struct answer *whole)
{
    parts_lead_to(worker, BOTH, nothing_told, length, whole);
    struct answer type = *whole, size = nothing_told;
    type.width = nothing_told.width;
    type.height = nothing_told.height;
    type.status = imagesize_type(worker->input_end - length, length, &size.type, &size.compression);
    parts_lead_to(worker, TYPE, nothing_told, length, &type);
    if (type.status == IMAGESIZE_ANSWERED) {
        parts_lead_to(worker, SIZE, size, length, whole);
    }
}

/* Parts that contradict each other: each call returns, and a part that it requests lies within the input. */
static void parts_of_any_kind(struct worker *worker, enum asked asked, size_t length)
{
    imagesize_span parts[4], wanted = {0, 0};
    size_t count = random_number(worker) % 5;
    for (size_t i = 0; i < count; i++) {
        parts[i].start = random_number(worker) >> (random_number(worker) % 64);
        parts[i].len = random_number(worker) >> (random_number(worker) % 64);
    }
    memcpy(worker->spans_end - count, parts, count * sizeof *parts);
    uint64_t total = random_number(worker) >> (random_number(worker) % 64);
    struct answer a = nothing_told;
    a.type = asked == SIZE ? IMAGESIZE_TIFF : 0;
    a.status = ask(worker, asked, worker->input_end - length, length, count, total, &a, &wanted);
    expect(a.status == IMAGESIZE_BYTES_WANTED || is_of_bytes(a.status), "a call over parts returns a result, an error or a request");
    if (a.status == IMAGESIZE_BYTES_WANTED) {
        expect(wanted.len > 0 && wanted.start < total && wanted.len <= total - wanted.start, "the requested part lies within the input");
    }
}

/* A probe over spans, with numbers beside it that no call may change. */
struct rounds {
    uint64_t before;
    imagesize_rounds parts;
    uint64_t after;
};

/* Passes some bytes of an input. They end at a page that cannot be read. */
static void supply(struct worker *worker, struct rounds *rounds, size_t input, size_t offset, size_t length)
{
    memcpy(worker->bytes_end - length, worker->input_end - input + offset, length);
    imagesize_rounds_supply(&rounds->parts, offset, worker->bytes_end - length, length);
}

/* Rounds that bring the first byte of each requested span, and others around it, lead to the right result. Each span begins after the
 * last one. Bytes after a gap change nothing. */
static void rounds_lead_to(struct worker *worker, size_t length, const struct answer *right)
{
    struct rounds rounds = {0xA5, {{0}}, 0xA5};
    uint64_t next = 0;
    memset(&rounds.parts, 0xA5, sizeof rounds.parts);
    imagesize_rounds_new(&rounds.parts, length);
    for (;;) {
        struct answer a = nothing_told, none = nothing_told;
        imagesize_span wanted = {7, 8};
        a.status = imagesize_rounds_answer(&rounds.parts, &a.type, &a.compression, &a.width, &a.height, &wanted);
        if (a.status != IMAGESIZE_BYTES_WANTED) {
            expect(is_same(&a, right) && wanted.start == 7 && wanted.len == 8, "rounds lead to the right result");
            break;
        }
        none.status = IMAGESIZE_BYTES_WANTED;
        expect(is_same(&a, &none), "a call that requests a span writes nothing else");
        expect(wanted.start >= next && wanted.len > 0 && wanted.start < length && wanted.len <= length - wanted.start,
               "a requested span lies within the input, and begins after the last one");
        size_t start = (size_t)wanted.start, from = random_number(worker) % (start + 1);
        next = wanted.start + 1;
        supply(worker, &rounds, length, start + 1, length - start - 1);
        supply(worker, &rounds, length, from, start + 1 - from + random_number(worker) % (length - start));
    }
    expect(rounds.before == 0xA5 && rounds.after == 0xA5, "and nothing beside the memory is written");
}

/* A push parser of an input of this length, or of unknown length, with numbers beside it that no call may change. */
struct stream {
    uint64_t before;
    imagesize_stream state;
    uint64_t after;
};

/* The next bytes of an input. They end at a page that cannot be read. */
static struct answer push(struct worker *worker, struct stream *stream, const uint8_t *bytes, size_t length)
{
    struct answer a = nothing_told;
    memcpy(worker->bytes_end - length, bytes, length);
    a.status = imagesize_stream_push(&stream->state, worker->bytes_end - length, length, &a.type, &a.compression, &a.width, &a.height);
    return a;
}

/* An input in pieces of random lengths has the right result, by its last byte if the length is known, and at its end. */
static void pieces_lead_to(struct worker *worker, size_t length, const struct answer *right)
{
    const uint8_t *bytes = worker->input_end - length;
    struct stream stream = {0xA5, {{0}}, 0xA5};
    struct answer a = nothing_told, last = nothing_told;
    uint64_t total = random_number(worker) % 2 == 0 ? length : IMAGESIZE_LENGTH_UNKNOWN;
    memset(&stream.state, 0xA5, sizeof stream.state);
    imagesize_stream_new(&stream.state, total);
    for (size_t at = 0, piece; at <= length; at += piece) {
        piece = 1 + random_number(worker) % 16;
        a = push(worker, &stream, bytes + at, length - at < piece ? length - at : piece);
        last = nothing_told;
        last.status = IMAGESIZE_BYTES_WANTED;
        expect(is_same(&a, right) || is_same(&a, &last), "a piece leads to the right result, or to nothing");
    }
    expect(total != length || is_same(&a, right), "the last byte of a known length leads to the result");
    last = nothing_told;
    last.status = imagesize_stream_finish(&stream.state, &last.type, &last.compression, &last.width, &last.height);
    expect(is_same(&last, right), "the end leads to the result");
    expect(stream.before == 0xA5 && stream.after == 0xA5, "and nothing beside the memory is written");
}

static void text_of(struct worker *worker, uint32_t status)
{
    size_t written = 0;
    char *end = (char *)worker->bytes_end;
    expect(imagesize_status_text(status, end, 0, &written) == IMAGESIZE_BUFFER_TOO_SMALL, "every text has a byte");
    expect(imagesize_status_text(status, end - written, written, &written) == IMAGESIZE_ANSWERED, "a buffer of exactly the text's length");
}

/* A thread's inputs. */
static void *work(void *its)
{
    struct worker *worker = its;
    for (int i = 0; i < INPUTS; i++) {
        size_t length = short_input(worker);
        struct answer whole = probe(worker->input_end - length, length);
        calls_agree(worker->input_end - length, length, &whole);
        spans_lie_within(worker, length);
        parts_lead_to_each(worker, length, &whole);
        parts_of_any_kind(worker, (enum asked)(i % 3), length);
        rounds_lead_to(worker, length, &whole);
        pieces_lead_to(worker, length, &whole);
        text_of(worker, whole.status);
    }
    return NULL;
}

static void spans_in_just_enough_room(imagesize_span *end)
{
    const uint8_t gif[] = "GIF89a\x64\0\x64\0\0";
    imagesize_span *spans = end - 3;
    memset(spans, 0xFF, 3 * sizeof *spans);
    size_t count = 0;
    expect(imagesize_spans(gif, 12, spans, 2, &count) == IMAGESIZE_BUFFER_TOO_SMALL && count == 3, "two are too few for three");
    expect(spans[0].start == UINT64_MAX && spans[1].len == UINT64_MAX, "a buffer that is too small stays as it was");
    expect(imagesize_spans(gif, 12, spans, 3, &count) == IMAGESIZE_ANSWERED && count == 3, "three are enough");
    expect(spans[0].start == 0 && spans[0].len == 12 && spans[2].start == 8 && spans[2].len == 2, "its spans");
}

static void wrong_calls(void)
{
    uint8_t nothing = 0;
    char text[4] = {'a', 'b', 'c', 'd'};
    uint32_t type = 5, compression = 6, answer = 8;
    uint64_t width = 7, height = 9;
    size_t written = 11;
    expect(imagesize_probe(&nothing, 0, &type, &compression, &width, &height) == IMAGESIZE_END_OF_INPUT, "an empty input has no type");
    expect(type == 5 && compression == 6 && width == 7 && height == 9, "and nothing is told");
    expect(imagesize_status_text(31, text, sizeof text, &written) == IMAGESIZE_UNKNOWN_STATUS, "31 is no status");
    expect(imagesize_status_text(UINT32_MAX, text, sizeof text, &written) == IMAGESIZE_UNKNOWN_STATUS, "nor is the greatest number");
    expect(imagesize_type_name(0, 0, text, sizeof text, &written) == IMAGESIZE_UNKNOWN_TYPE, "0 is no type");
    expect(imagesize_type_name(UINT32_MAX, 0, text, sizeof text, &written) == IMAGESIZE_UNKNOWN_TYPE, "nor is the greatest number");
    expect(imagesize_type_name(IMAGESIZE_GIF, IMAGESIZE_DDS_BC7, text, sizeof text, &written) == IMAGESIZE_UNKNOWN_TYPE,
           "a GIF has no compression");
    expect(imagesize_container_format(IMAGESIZE_DDS, IMAGESIZE_PKM_ETC1, text, sizeof text, &written) == IMAGESIZE_UNKNOWN_TYPE,
           "a DDS has no compression of a PKM");
    expect(imagesize_compression_family(UINT32_MAX, 0, &answer) == IMAGESIZE_UNKNOWN_TYPE && answer == 8, "no family of no type");
    imagesize_span all = {0, 1};
    expect(imagesize_parts_size(UINT32_MAX, 0, &nothing, 1, &all, 1, 1, &width, &height, &all) == IMAGESIZE_UNKNOWN_TYPE && width == 7
               && height == 9 && all.len == 1, "no size of no type");
    expect(written == 11 && memcmp(text, "abcd", 4) == 0, "and nothing is told");
    expect(imagesize_type_name(IMAGESIZE_FARBFELD, 0, text, sizeof text, &written) == IMAGESIZE_BUFFER_TOO_SMALL && written == 8,
           "a name that is too long sets `written` to its length");
    expect(memcmp(text, "abcd", 4) == 0, "and a buffer that is too small stays as it was");
    expect(imagesize_type_name(IMAGESIZE_GIF, 0, text, sizeof text, &written) == IMAGESIZE_ANSWERED && written == 3, "a short name");
    expect(memcmp(text, "Gifd", 4) == 0, "and nothing after it has changed");
    expect(imagesize_container_format(IMAGESIZE_GIF, 0, text, 0, &written) == IMAGESIZE_ANSWERED && written == 0, "a GIF has no container");
}

static void queries(void)
{
    uint32_t answer = 8;
    expect(imagesize_compression_family(IMAGESIZE_DDS, IMAGESIZE_DDS_BC7, &answer) == IMAGESIZE_ANSWERED
               && answer == IMAGESIZE_FAMILY_BLOCK_COMPRESSION, "the family of BC7");
    expect(imagesize_compression_family(IMAGESIZE_GIF, 0, &answer) == IMAGESIZE_ANSWERED && answer == IMAGESIZE_NO_FAMILY,
           "a GIF has no family");
    expect(imagesize_is_block_compressed(IMAGESIZE_DDS, IMAGESIZE_DDS_BC7, &answer) == IMAGESIZE_ANSWERED && answer == 1, "BC7 is one");
    expect(imagesize_is_block_compressed(IMAGESIZE_ASTC, 0, &answer) == IMAGESIZE_ANSWERED && answer == 0, "ASTC is none");
    expect(imagesize_is_multi_compression_container(IMAGESIZE_KTX2, 0, &answer) == IMAGESIZE_ANSWERED && answer == 1, "a KTX2 is one");
    expect(imagesize_is_multi_compression_container(IMAGESIZE_GIF, 0, &answer) == IMAGESIZE_ANSWERED && answer == 0, "a GIF is none");
}

/* A PNG of 640x480 and its prefixes, each before a page that cannot be read. Then other bytes with a part of its signature. */
static void png(uint8_t *end)
{
    static const char whole[] = "\x89PNG\r\n\x1a\n\0\0\0\x0dIHDR\0\0\x02\x80\0\0\x01\xe0";
    static const char *const others[] = {"\x89PNG\r\n\x1a\r 24 bytes of others", "\x89PNG another file", "\x8aMNG\r\n\x1a\n"};
    imagesize_span all, wanted = {1, 2};
    uint32_t answer;
    for (size_t length = 0; length <= 24; length++) {
        uint64_t width = 7, height = 9;
        uint32_t status = length < 24 ? IMAGESIZE_END_OF_INPUT : IMAGESIZE_ANSWERED;
        memcpy(end - length, whole, length);
        expect(imagesize_png_matches(end - length, length, &answer) == IMAGESIZE_ANSWERED && answer == (length >= 8), "eight bytes show a PNG");
        expect(imagesize_png_size(end - length, length, &width, &height) == status
                   && width == (length < 24 ? 7 : 640) && height == (length < 24 ? 9 : 480), "a PNG's size, or its end");
        all = (imagesize_span){0, length};
        expect(imagesize_png_parts_size(end - length, length, &all, 1, length, &width, &height, &wanted) == status
                   && width == (length < 24 ? 7 : 640) && height == (length < 24 ? 9 : 480) && wanted.start == 1 && wanted.len == 2,
               "the whole input as one part has the same result");
        status = length < 24 ? IMAGESIZE_BYTES_WANTED : IMAGESIZE_ANSWERED;
        all = (imagesize_span){1, 2};
        expect(imagesize_png_parts_size(end - length, length, &(imagesize_span){0, length}, 1, 1000, &width, &height, &all) == status
                   && (length == 24 || (all.start >= length && all.start + all.len <= 24)), "bytes of a longer input are requested");
    }
    for (size_t i = 0; i < sizeof others / sizeof *others; i++) {
        size_t length = strlen(others[i]);
        uint64_t width = 7, height = 9;
        memcpy(end - length, others[i], length);
        expect(imagesize_png_matches(end - length, length, &answer) == IMAGESIZE_ANSWERED && answer == 0, "no PNG");
        expect(imagesize_png_size(end - length, length, &width, &height) == IMAGESIZE_NOT_SUPPORTED && width == 7 && height == 9,
               "an input that is no PNG has no size");
    }
}

int main(void)
{
    struct worker workers[THREADS];
    pthread_t threads[THREADS];
    for (int i = 0; i < THREADS; i++) {
        uint8_t *input_end = guarded_end(), *bytes_end = guarded_end(), *spans_end = guarded_end();
        if (input_end == NULL || bytes_end == NULL || spans_end == NULL) {
            fprintf(stderr, "no page can be guarded\n");
            return 2;
        }
        workers[i] = (struct worker){input_end, bytes_end, (imagesize_span *)(void *)spans_end, 0x9E3779B97F4A7C15U + (uint64_t)i};
    }
    for (int i = 0; i < THREADS; i++) {
        if (pthread_create(&threads[i], NULL, work, &workers[i]) != 0) {
            fprintf(stderr, "no thread can be started\n");
            return 2;
        }
    }
    for (int i = 0; i < THREADS; i++) {
        pthread_join(threads[i], NULL);
    }
    spans_in_just_enough_room(workers[0].spans_end);
    wrong_calls();
    queries();
    png(workers[0].bytes_end);
    printf("%d short inputs in %d threads: %s\n", THREADS * INPUTS, THREADS, failures == 0 ? "as they should be" : "NOT as they should be");
    return failures != 0;
}
