/*
 * Prints the type and the size of each image file that is named, as image does, and PNG too. It reads only the blocks of a file that the
 * result depends on. A pipe is read forward until the result is known.
 *
 *     blocks [--stdio] FILE..
 *
 * A line for each file, such as "Gif 100x100", "Jpeg: failed to fill whole buffer" or "Could not decode image". With --stdio the
 * files are read as a FILE. The status is 0 if each file was read.
 */
#define _POSIX_C_SOURCE 200809L
#include "imagesize_file.h"
#include "print.h"

#include <string.h>

/* Type and size of the image in a file, which is read as a FILE. */
static uint32_t probe_stream(const char *name, imagesize_image *image)
{
    FILE *file = fopen(name, "rb");
    if (file == NULL) {
        return IMAGESIZE_FAULT;
    }
    uint32_t status = imagesize_stdio_probe(file, image);
    fclose(file);
    return status;
}

/* Whether a status is an error of reading, and not of the image. */
static int is_failure(uint32_t status)
{
    return status == IMAGESIZE_FAULT || status == IMAGESIZE_BUDGET_SPENT || status == IMAGESIZE_OUT_OF_MEMORY;
}

int main(int count, char **names)
{
    int by_stdio = count > 1 && strcmp(names[1], "--stdio") == 0;
    int first = 1 + by_stdio;
    int failed = 0;
    for (int i = first; i < count; i++) {
        imagesize_image image = {0, 0, 0, 0};
#ifdef _WIN32 /* imagesize_file.h has no paths there */
        uint32_t status = probe_stream(names[i], &image);
#else
        uint32_t status = by_stdio ? probe_stream(names[i], &image) : imagesize_path_probe(names[i], &image);
#endif
        if (is_failure(status)) {
            fprintf(stderr, "%s: %s\n", names[i], status == IMAGESIZE_FAULT && errno != 0 ? strerror(errno) : "cannot be read");
            failed = 1;
            continue;
        }
        print_answer(&(struct answer){status, image.type, image.compression, image.width, image.height});
    }
    return failed;
}
