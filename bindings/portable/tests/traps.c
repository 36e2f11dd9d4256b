/*
 * The portable library with too little room for the module's stack: each call that runs out of it returns a status of its own, and writes
 * no result. A push parser, or a probe over spans, stays trapped.
 *
 *     traps
 *
 * It is linked with imagesize_portable.c compiled with -DROOM=80. The status is 0 if each expectation holds.
 */
#include "imagesize_portable.h"

#include <stdio.h>

static int failures;

static void expect(int holds, const char *what)
{
    if (!holds && failures++ < 10) {
        fprintf(stderr, "not so: %s\n", what);
    }
}

int main(void)
{
    static const uint8_t gif[] = "GIF89a\x64\0\x64\0\0";
    imagesize_span spans[8] = {{7, 7}}, wanted = {7, 7}, all = {0, sizeof gif};
    imagesize_stream stream;
    imagesize_rounds parts;
    uint32_t type = 7, compression = 7;
    uint64_t width = 7, height = 7;
    size_t count = 7;
    expect(imagesize_is_portable() == 1, "the library says that it is the portable one");
    for (int times = 0; times < 1000; times++) {
        expect(imagesize_probe(gif, sizeof gif, &type, &compression, &width, &height) == IMAGESIZE_TRAPPED, "a probe is trapped");
        expect(imagesize_size(gif, sizeof gif, &width, &height) == IMAGESIZE_TRAPPED, "a size is trapped");
        expect(imagesize_spans(gif, sizeof gif, spans, 8, &count) == IMAGESIZE_TRAPPED, "spans are trapped");
        expect(imagesize_parts_probe(gif, sizeof gif, &all, 1, sizeof gif, &type, &compression, &width, &height, &wanted)
                   == IMAGESIZE_TRAPPED, "a call over parts is trapped");
        imagesize_stream_new(&stream, IMAGESIZE_LENGTH_UNKNOWN);
        expect(imagesize_stream_push(&stream, gif, sizeof gif, &type, &compression, &width, &height) == IMAGESIZE_TRAPPED, "a push is trapped");
        expect(imagesize_stream_push(&stream, gif, 0, &type, &compression, &width, &height) == IMAGESIZE_TRAPPED, "a later push too");
        expect(imagesize_stream_finish(&stream, &type, &compression, &width, &height) == IMAGESIZE_TRAPPED, "and the end");
        imagesize_rounds_new(&parts, sizeof gif);
        imagesize_rounds_supply(&parts, 0, gif, sizeof gif);
        expect(imagesize_rounds_answer(&parts, &type, &compression, &width, &height, &wanted) == IMAGESIZE_TRAPPED, "rounds are trapped");
    }
    expect(type == 7 && compression == 7 && width == 7 && height == 7 && count == 7 && wanted.start == 7 && spans[0].start == 7,
           "no result is written");
    printf("traps: %s\n", failures == 0 ? "as they should be" : "NOT as they should be");
    return failures != 0;
}
