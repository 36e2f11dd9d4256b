/*
 * Prints the type and the size of each image file that is named, or why it has none.
 *
 *     image [--spans] FILE..
 *
 * It prints a line for each file, such as "Gif 100x100", "Jpeg: failed to fill whole buffer" or "Could not decode image". With
 * --spans the spans that the result depends on follow, such as "  0+12" for twelve bytes from offset 0. The status is 0 if
 * every file could be read.
 */
#include "print.h"

#include <stdlib.h>
#include <string.h>

static void print_image(const uint8_t *bytes, size_t length)
{
    struct answer answer = {0};
    answer.status = imagesize_probe(bytes, length, &answer.type, &answer.compression, &answer.width, &answer.height);
    print_answer(&answer);
}

/* Asks for the count first, and then passes a buffer of that length. */
static int print_spans(const uint8_t *bytes, size_t length)
{
    imagesize_span none = {0, 0};
    size_t count = 0;
    imagesize_spans(bytes, length, &none, 0, &count);
    imagesize_span *spans = calloc(count + 1, sizeof *spans);
    if (spans == NULL) {
        return 1;
    }
    if (imagesize_spans(bytes, length, spans, count, &count) == IMAGESIZE_ANSWERED) {
        for (size_t i = 0; i < count; i++) {
            printf("  %" PRIu64 "+%" PRIu64 "\n", spans[i].start, spans[i].len);
        }
    }
    free(spans);
    return 0;
}

/* All bytes of a file, in memory that the caller frees; NULL if they cannot be read. */
static uint8_t *read_file(const char *name, size_t *length)
{
    FILE *file = fopen(name, "rb");
    if (file == NULL) {
        return NULL;
    }
    uint8_t *bytes = NULL;
    long size = fseek(file, 0, SEEK_END) == 0 ? ftell(file) : -1;
    if (size >= 0 && fseek(file, 0, SEEK_SET) == 0) {
        bytes = malloc((size_t)size + 1);
    }
    if (bytes != NULL && fread(bytes, 1, (size_t)size, file) != (size_t)size) {
        free(bytes);
        bytes = NULL;
    }
    fclose(file);
    *length = bytes != NULL ? (size_t)size : 0;
    return bytes;
}

int main(int count, char **names)
{
    int with_spans = count > 1 && strcmp(names[1], "--spans") == 0;
    int failed = 0;
    for (int i = 1 + with_spans; i < count; i++) {
        size_t length = 0;
        uint8_t *bytes = read_file(names[i], &length);
        if (bytes == NULL) {
            fprintf(stderr, "%s: cannot be read\n", names[i]);
            failed = 1;
            continue;
        }
        print_image(bytes, length);
        if (with_spans) {
            failed |= print_spans(bytes, length);
        }
        free(bytes);
    }
    return failed;
}
