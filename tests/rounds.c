/*
 * Finds type and size of the image in a file, and prints what was found, in how many rounds, and how many bytes they brought.
 *
 *     rounds CALL FILE
 *
 * CALL is `spans`, for a probe over spans that gets exactly what it requests; `blocks`, for one that gets 4096 bytes in each round, or
 * the requested span if that is longer; `parts`, for imagesize_parts_probe with all requested spans so far; `probe`, for
 * imagesize_probe over all bytes; or `none`, which reads the file and calls nothing.
 */
#include "imagesize.h"

#include <inttypes.h>
#include <stdio.h>
#include <stdlib.h>
#include <string.h>

/* The bytes of the file. */
struct input {
    uint8_t *bytes;
    size_t length;
};

/* What a call found, and what it took. */
struct found {
    uint32_t status, type, compression;
    uint64_t width, height;
    size_t rounds, brought;
};

/* Rounds that bring at least so many bytes each, as far as the input has them. */
static void by_rounds(const struct input *input, size_t least, struct found *found)
{
    imagesize_rounds parts;
    imagesize_span wanted;
    imagesize_rounds_new(&parts, input->length);
    while ((found->status = imagesize_rounds_answer(&parts, &found->type, &found->compression, &found->width, &found->height, &wanted))
           == IMAGESIZE_BYTES_WANTED) {
        size_t start = (size_t)wanted.start, length = wanted.len > least ? (size_t)wanted.len : least;
        length = length < input->length - start ? length : input->length - start;
        imagesize_rounds_supply(&parts, start, input->bytes + start, length);
        found->rounds++;
        found->brought += length;
    }
}

static void by_parts(const struct input *input, struct found *found)
{
    uint8_t *bytes = malloc(input->length);
    imagesize_span *spans = malloc(input->length * sizeof *spans), wanted;
    if (bytes == NULL || spans == NULL) {
        exit(2);
    }
    while ((found->status = imagesize_parts_probe(bytes, found->brought, spans, found->rounds, input->length, &found->type,
                                                  &found->compression, &found->width, &found->height, &wanted))
           == IMAGESIZE_BYTES_WANTED) {
        memcpy(bytes + found->brought, input->bytes + wanted.start, (size_t)wanted.len);
        spans[found->rounds++] = wanted;
        found->brought += (size_t)wanted.len;
    }
    free(bytes);
    free(spans);
}

static void by_slice(const struct input *input, struct found *found)
{
    found->status = imagesize_probe(input->bytes, input->length, &found->type, &found->compression, &found->width, &found->height);
}

/* The bytes of a file. They are NULL if it cannot be read. */
static struct input read_file(const char *name)
{
    struct input input = {NULL, 0};
    FILE *file = fopen(name, "rb");
    if (file != NULL && fseek(file, 0, SEEK_END) == 0) {
        long length = ftell(file);
        rewind(file);
        input.bytes = malloc((size_t)length);
        input.length = input.bytes != NULL ? fread(input.bytes, 1, (size_t)length, file) : 0;
        fclose(file);
    }
    return input;
}

int main(int count, char **words)
{
    struct found found = {0, 0, 0, 0, 0, 0, 0};
    struct input input = {NULL, 0};
    if (count == 3) {
        input = read_file(words[2]);
    }
    if (input.bytes == NULL) {
        fprintf(stderr, "usage: rounds CALL FILE\n");
        return 2;
    }
    if (strcmp(words[1], "spans") == 0) {
        by_rounds(&input, 0, &found);
    } else if (strcmp(words[1], "blocks") == 0) {
        by_rounds(&input, 4096, &found);
    } else if (strcmp(words[1], "parts") == 0) {
        by_parts(&input, &found);
    } else if (strcmp(words[1], "probe") == 0) {
        by_slice(&input, &found);
    }
    printf("%" PRIu32 " %" PRIu32 " %" PRIu64 "x%" PRIu64 " %zu %zu\n", found.status, found.type, found.width, found.height,
           found.rounds, found.brought);
    free(input.bytes);
    return 0;
}
