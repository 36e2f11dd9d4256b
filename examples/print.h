/*
 * What the examples print of an image: "Gif 100x100", "Jpeg: failed to fill whole buffer" or "Could not decode image".
 */
#ifndef PRINT_H
#define PRINT_H

#include "imagesize_file.h"

#include <inttypes.h>
#include <stdio.h>

/* The longest text of the library has fewer bytes. */
enum { TEXT_ROOM = 128 };

static void print_status(uint32_t status)
{
    char text[TEXT_ROOM] = {0};
    size_t length = 0;
    if (imagesize_status_text(status, text, sizeof text, &length) == IMAGESIZE_ANSWERED) {
        printf("%.*s", (int)length, text);
    } else {
        printf("status %" PRIu32, status);
    }
}

static void print_type(uint32_t type, uint32_t compression)
{
    char text[TEXT_ROOM] = {0};
    size_t length = 0;
    if (imagesize_image_name(&(imagesize_image){type, compression, 0, 0}, text, sizeof text, &length) == IMAGESIZE_ANSWERED) {
        printf("%.*s", (int)length, text);
    }
    if (imagesize_compression_name(type, compression, text, sizeof text, &length) == IMAGESIZE_ANSWERED && length > 0) {
        printf("(%.*s)", (int)length, text);
    }
}

/* The status and the results of a probe. The type is 0 if none was found. */
struct answer {
    uint32_t status, type, compression;
    uint64_t width, height;
};

static void print_answer(const struct answer *answer)
{
    if (answer->type != 0) {
        print_type(answer->type, answer->compression);
    }
    if (answer->status == IMAGESIZE_ANSWERED) {
        printf(" %" PRIu64 "x%" PRIu64 "\n", answer->width, answer->height);
        return;
    }
    printf(answer->type != 0 ? ": " : "");
    print_status(answer->status);
    printf("\n");
}

#endif
