/*
 * Prints the line of each test vector, as the table has it, and its spans.
 *
 *     vectors TABLE
 *
 * TABLE is the file that examples/expand.py writes. A row whose spans are `?` is printed with `?`.
 */
#include "imagesize.h"

#include <ctype.h>
#include <inttypes.h>
#include <stdio.h>
#include <stdlib.h>
#include <string.h>

enum { LONGEST = 5000, SPANS = 1 << 16, TEXT = 128 };

/* Prints the text of a status. */
static void print_status(uint32_t status)
{
    char text[TEXT];
    size_t length = 0;
    if (imagesize_status_text(status, text, sizeof text, &length) == IMAGESIZE_ANSWERED) {
        printf("%.*s", (int)length, text);
    } else {
        printf("status %" PRIu32, status);
    }
}

static void print_type(uint32_t type, uint32_t compression)
{
    char text[TEXT];
    size_t length = 0;
    if (imagesize_type_name(type, compression, text, sizeof text, &length) == IMAGESIZE_ANSWERED) {
        printf("%.*s", (int)length, text);
    }
    if (imagesize_compression_name(type, compression, text, sizeof text, &length) == IMAGESIZE_ANSWERED && length > 0) {
        printf("(%.*s)", (int)length, text);
    }
}

static void print_vector(const uint8_t *bytes, size_t length, int with_spans)
{
    static imagesize_span spans[SPANS];
    uint32_t type = 0, compression = 0;
    uint64_t width = 0, height = 0;
    size_t count = 0;
    uint32_t status = imagesize_probe(bytes, length, &type, &compression, &width, &height);
    if (type != 0) {
        print_type(type, compression);
    }
    if (status == IMAGESIZE_ANSWERED) {
        printf(" %" PRIu64 "x%" PRIu64, width, height);
    } else {
        printf(type != 0 ? ": " : "");
        print_status(status);
    }
    printf("\t");
    if (!with_spans) {
        printf("?");
    } else if (imagesize_spans(bytes, length, spans, SPANS, &count) != IMAGESIZE_ANSWERED || count == 0) {
        printf("-");
    } else {
        for (size_t at = 0; at < count; at++) {
            printf("%s%" PRIu64 "+%" PRIu64, at > 0 ? " " : "", spans[at].start, spans[at].len);
        }
    }
    printf("\n");
}

/* The bytes of a line's first cell, in hex, or `-` for none. Their number is returned. */
static size_t bytes_of(const char *line, uint8_t *bytes)
{
    size_t length = 0;
    for (unsigned byte; length < LONGEST && isxdigit((unsigned char)line[2 * length]) && sscanf(line + 2 * length, "%2x", &byte) == 1; length++) {
        bytes[length] = (uint8_t)byte;
    }
    return length;
}

int main(int count, char **words)
{
    static char line[1 << 17];
    static uint8_t bytes[LONGEST];
    FILE *table = count == 2 ? fopen(words[1], "r") : NULL;
    if (table == NULL) {
        fprintf(stderr, "usage: vectors TABLE\n");
        return 2;
    }
    while (fgets(line, sizeof line, table) != NULL) {
        const char *spans = strrchr(line, '\t');
        size_t length = bytes_of(line, bytes);
        /* The bytes end where a sanitizer ends the memory. */
        uint8_t *copy = malloc(length + (length == 0));
        if (copy == NULL || spans == NULL) {
            return 2;
        }
        memcpy(copy, bytes, length);
        print_vector(copy, length, spans[1] != '?');
        free(copy);
    }
    fclose(table);
    return 0;
}
