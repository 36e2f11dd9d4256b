/*
 * Calls imagesize_file.h over files and readers that behave, fail, lie and never end.
 *
 *     files
 *
 * The status is 0 if each call does what it should.
 */
#define _POSIX_C_SOURCE 200809L
#include <stdlib.h>

/* The number of allocations before the one that fails. None fails if it is negative. */
static long allocations = -1;

static int may_allocate(void)
{
    return allocations < 0 || allocations-- > 0;
}

static void *limited_malloc(size_t size)
{
    return may_allocate() ? malloc(size) : NULL;
}

#define malloc limited_malloc
#include "imagesize_file.h"
#undef malloc

#include <inttypes.h>
#include <string.h>

enum { LONGEST = 1 << 22 };

static int failures;

static void expect(int holds, const char *what)
{
    if (!holds) {
        fprintf(stderr, "not so: %s\n", what);
        failures++;
    }
}

static const uint8_t frame[] = "\xff\xc0\0\x11\x08\0\x05\0\x07\x03\x01\x22\0\x02\x11\x01\x03\x11\x01";
static const uint8_t gif[] = "GIF89a\x80\x02\xe0\x01\0\0";
static const uint8_t png[] = "\x89PNG\r\n\x1a\n\0\0\0\rIHDR\0\0\x02\x80\0\0\x01\xe0\x08\0\0\0\0";

/* A JPEG of 7x5 with segments of this length before its frame. Its length is returned. */
static size_t jpeg(uint8_t *bytes, size_t segments, size_t length)
{
    size_t end = 2;
    memcpy(bytes, "\xff\xd8", 2);
    for (size_t i = 0; i < segments; i++, end += 2 + length) {
        memset(bytes + end, 0, 2 + length);
        bytes[end] = 0xff;
        bytes[end + 1] = 0xe0;
        bytes[end + 2] = (uint8_t)(length >> 8);
        bytes[end + 3] = (uint8_t)length;
    }
    memcpy(bytes + end, frame, sizeof frame - 1);
    return end + sizeof frame - 1;
}

/* A TIFF of 5x7 with its directory at this offset. Its length is returned. */
static size_t tiff(uint8_t *bytes, uint32_t offset)
{
    static const uint8_t directory[] = "\x02\0\0\x01\x03\0\x01\0\0\0\x05\0\0\0\x01\x01\x03\0\x01\0\0\0\x07\0\0\0";
    memset(bytes, 0, offset);
    memcpy(bytes, "II*\0", 4);
    for (int i = 0; i < 4; i++) {
        bytes[4 + i] = (uint8_t)(offset >> 8 * i);
    }
    memcpy(bytes + offset, directory, sizeof directory - 1);
    return offset + sizeof directory - 1;
}

/* An input in memory. It counts the bytes that are read, and the first reads that have a block each. It may fail at one of its reads. */
struct input {
    const uint8_t *bytes;
    size_t length, readings, given, failing, small;
};

static uint32_t read_input(void *reader, uint8_t *bytes, size_t length, uint64_t offset)
{
    struct input *input = reader;
    input->readings++;
    input->given += length;
    expect(length > 0 && offset < input->length && length <= input->length - offset, "only bytes of the input are read");
    expect(offset % 4096 == 0 && ((offset + length) % 4096 == 0 || offset + length == input->length), "blocks of 4096 bytes are read");
    input->small = input->given == 4096 * input->readings ? input->readings : input->small;
    if (input->readings == input->failing) {
        return IMAGESIZE_FAULT;
    }
    memcpy(bytes, input->bytes + offset, length);
    return IMAGESIZE_ANSWERED;
}

/* A JPEG of segments without end, each of this many bytes. It counts the bytes that are read. */
struct segments {
    uint64_t segment, given;
};

static uint32_t read_segments(void *reader, uint8_t *bytes, size_t length, uint64_t offset)
{
    struct segments *of = reader;
    const uint8_t head[4] = {0xff, 0xe0, (uint8_t)((of->segment - 2) >> 8), (uint8_t)(of->segment - 2)};
    of->given += length;
    for (size_t i = 0; i < length; i++) {
        uint64_t place = offset + i, within = (place + of->segment - 2) % of->segment;
        bytes[i] = place == 1 ? 0xd8 : within < 4 ? head[within] : 0;
    }
    bytes[0] = offset == 0 ? 0xff : bytes[0];
    return IMAGESIZE_ANSWERED;
}

/* An input that is read forward, in pieces of at most this length. It may fail at one of its reads, or be a JPEG of segments without
 * end. */
struct forward {
    const uint8_t *bytes;
    size_t length, piece, place, readings, failing;
    int endless;
};

static long read_forward(void *reader, uint8_t *bytes, size_t length)
{
    struct forward *input = reader;
    size_t got = length < input->piece ? length : input->piece;
    if (++input->readings == input->failing) {
        return -1;
    }
    if (input->endless) {
        struct segments of = {4, 0};
        read_segments(&of, bytes, got, input->place);
        input->place += got;
        return (long)got;
    }
    got = got < input->length - input->place ? got : input->length - input->place;
    memcpy(bytes, input->bytes + input->place, got);
    input->place += got;
    return (long)got;
}

static int is_size(uint32_t status, const imagesize_image *image, uint64_t width, uint64_t height)
{
    return status == IMAGESIZE_ANSWERED && image->width == width && image->height == height;
}

static int is_none(const imagesize_image *image)
{
    return image->type == 0 && image->compression == 0 && image->width == 0 && image->height == 0;
}

/* The same bytes by a reader, a stream, a descriptor and a path: each gives this size, and few bytes are read. */
static void sized(const uint8_t *bytes, size_t length, uint64_t width, uint64_t height, size_t most_readings, size_t most_given)
{
    struct input input = {bytes, length, 0, 0, 0, 0};
    imagesize_image image;
    expect(is_size(imagesize_reader_probe(&input, read_input, length, &image), &image, width, height), "the size by a reader");
    expect(input.readings <= most_readings && input.given <= most_given, "and few bytes are read");
    char name[] = "/tmp/imagesize-XXXXXX";
    int descriptor = mkstemp(name);
    FILE *file = descriptor < 0 ? NULL : fdopen(descriptor, "w+b");
    if (file == NULL || fwrite(bytes, 1, length, file) != length || fseek(file, 5, SEEK_SET) != 0) {
        expect(0, "a file can be written");
        return;
    }
    expect(is_size(imagesize_stdio_probe(file, &image), &image, width, height) && ftell(file) == 5, "the size by a stream");
    off_t before = lseek(descriptor, 0, SEEK_CUR);
    expect(is_size(imagesize_fd_probe(descriptor, &image), &image, width, height), "the size by a descriptor");
    expect(lseek(descriptor, 0, SEEK_CUR) == before, "whose position stays");
    expect(is_size(imagesize_path_probe(name, &image), &image, width, height), "the size by a path");
    fclose(file);
    remove(name);
}

static void images(uint8_t *bytes)
{
    sized(gif, 12, 640, 480, 1, 12);
    sized(png, 24, 640, 480, 1, 24);
    memset(bytes, 0, 9000);
    memcpy(bytes, png, sizeof png - 1);
    sized(bytes, 9000, 640, 480, 1, 4096);
    sized(bytes, jpeg(bytes, 0, 0), 7, 5, 1, 4096);
    sized(bytes, jpeg(bytes, 3, 65533), 7, 5, 4, 5 * 4096);
    sized(bytes, jpeg(bytes, 100000, 2), 7, 5, 12, LONGEST);
    sized(bytes, tiff(bytes, 8), 5, 7, 1, 4096);
    sized(bytes, tiff(bytes, 4090), 5, 7, 2, 8192);
    sized(bytes, tiff(bytes, 3000001), 5, 7, 2, 2 * 4096);
}

/* If a read fails, the call returns its status, whatever it is, and the image has no number from before. */
static void failing_readings(uint8_t *bytes)
{
    struct input input = {bytes, jpeg(bytes, 3, 65533), 0, 0, 1, 0};
    for (; input.failing <= 4; input.failing++) {
        imagesize_image image = {1, 2, 3, 4};
        input.readings = 0;
        expect(imagesize_reader_probe(&input, read_input, input.length, &image) == IMAGESIZE_FAULT && is_none(&image), "a failed read");
    }
}

/* Blocks of 4096 bytes need no allocation. Longer ones do: each allocation fails in turn, and all memory is freed. */
static void failing_allocations(uint8_t *bytes)
{
    struct input input = {bytes, 2 * 4096, 0, 0, 0, 0};
    imagesize_image image = {1, 2, 3, 4};
    jpeg(bytes, 0, 0);
    allocations = 0;
    expect(is_size(imagesize_reader_probe(&input, read_input, input.length, &image), &image, 7, 5), "no memory is needed for a block");
    input.length = jpeg(bytes, 100000, 2);
    for (long enough = 0; enough < 100; enough++) {
        image = (imagesize_image){1, 2, 3, 4};
        allocations = enough;
        uint32_t status = imagesize_reader_probe(&input, read_input, input.length, &image);
        int is_enough = allocations >= 0;
        allocations = -1;
        if (status == IMAGESIZE_ANSWERED) {
            expect(is_enough && enough >= 4, "memory is allocated as it is needed");
            return;
        }
        expect(status == IMAGESIZE_OUT_OF_MEMORY && is_none(&image), "a failed allocation");
    }
    expect(0, "a hundred allocations are enough");
}

static void refused_images(void)
{
    struct input input = {gif, 9, 0, 0, 0, 0};
    imagesize_image image = {1, 2, 3, 4};
    expect(imagesize_reader_probe(&input, read_input, 9, &image) == IMAGESIZE_END_OF_INPUT && is_none(&image), "a short input");
    input.length = 0;
    expect(imagesize_reader_probe(&input, read_input, 0, &image) == IMAGESIZE_END_OF_INPUT && is_none(&image), "an empty input");
    input = (struct input){(const uint8_t *)"\xff\xd8\xff\xe0\0\x10JFIF\0\x01", 12, 0, 0, 0, 0};
    expect(imagesize_reader_probe(&input, read_input, 12, &image) == IMAGESIZE_END_OF_INPUT && image.type == IMAGESIZE_JPEG
               && image.width == 0, "a JPEG that is cut has a type");
    for (uint64_t segment = 8; segment <= 3 * 4096; segment += 3 * 4096 - 8) {
        struct segments of = {segment, 0};
        expect(imagesize_reader_probe(&of, read_segments, UINT64_C(1) << 40, &image) == IMAGESIZE_BUDGET_SPENT, "segments without end");
        expect(of.given == 64 << 20, "and 64 MiB of them are read");
    }
}

/* A PNG that is cut, at each of its first bytes, and one whose signature is wrong: by blocks, and forward by pieces. */
static void cut_pngs(uint8_t *bytes)
{
    for (size_t length = 0; length < 24; length++) {
        imagesize_image image = {1, 2, 3, 4}, by_pieces = image;
        struct input input = {png, length, 0, 0, 0, 0};
        struct forward pieces = {png, length, 1, 0, 0, 0, 0};
        uint32_t status = imagesize_reader_probe(&input, read_input, length, &image);
        expect(status == IMAGESIZE_END_OF_INPUT && image.type == (length < 8 ? 0 : IMAGESIZE_PNG) && image.width == 0, "a PNG that is cut");
        status = imagesize_forward_probe(&pieces, read_forward, &by_pieces);
        expect(status == IMAGESIZE_END_OF_INPUT && memcmp(&image, &by_pieces, sizeof image) == 0, "and the same by pieces");
    }
    for (size_t wrong = 0; wrong < 8; wrong++) {
        imagesize_image image = {1, 2, 3, 4}, by_pieces = image;
        memcpy(bytes, png, sizeof png - 1);
        memset(bytes + sizeof png - 1, 0, 100);
        bytes[wrong] ^= 1;
        struct input input = {bytes, 100, 0, 0, 0, 0};
        struct forward pieces = {bytes, 100, 1, 0, 0, 0, 0};
        expect(imagesize_reader_probe(&input, read_input, 100, &image) == IMAGESIZE_NOT_SUPPORTED && is_none(&image), "no PNG");
        expect(imagesize_forward_probe(&pieces, read_forward, &by_pieces) == IMAGESIZE_NOT_SUPPORTED && is_none(&by_pieces), "none by pieces");
    }
}

/* The names of types, and the room that they need. */
static void names(void)
{
    const imagesize_image images[] = {{IMAGESIZE_PNG, 0, 7, 5}, {IMAGESIZE_GIF, 0, 7, 5}};
    char text[8] = "........";
    size_t length = 0;
    for (size_t i = 0; i < 2; i++) {
        expect(imagesize_image_name(&images[i], text, 2, &length) == IMAGESIZE_BUFFER_TOO_SMALL && length == 3 && text[0] == '.', "no room");
        expect(imagesize_image_name(&images[i], text, sizeof text, &length) == IMAGESIZE_ANSWERED && length == 3, "a name");
        expect(memcmp(text, i ? "Gif....." : "Png.....", 8) == 0, "and nothing after it");
        memset(text, '.', sizeof text);
    }
    expect(imagesize_image_name(&(imagesize_image){99, 0, 0, 0}, text, sizeof text, &length) == IMAGESIZE_UNKNOWN_TYPE, "no type");
}

/* A JPEG whose segments are far apart: after 64 blocks larger ones are read. */
static void many_blocks(uint8_t *bytes)
{
    struct input input = {bytes, jpeg(bytes, 300, 9000), 0, 0, 0, 0};
    imagesize_image image;
    expect(is_size(imagesize_reader_probe(&input, read_input, input.length, &image), &image, 7, 5), "the size after many segments");
    expect(input.small == 65 && input.readings < 80, "blocks grow after 64 of them");
}

/* Inputs that are no file: errno says why. */
static void no_files(void)
{
    const imagesize_image before = {1, 2, 3, 4};
    imagesize_image image;
    const struct { const char *path; int why; } wrong[] = {{"/tmp", EISDIR}, {"/none/of/this", ENOENT}};
    for (size_t i = 0; i < 2; i++) {
        errno = 0;
        image = before;
        expect(imagesize_path_probe(wrong[i].path, &image) == IMAGESIZE_FAULT && errno == wrong[i].why && is_none(&image), wrong[i].path);
    }
    image = before;
    expect(imagesize_fd_probe(-1, &image) == IMAGESIZE_FAULT && errno == EBADF && is_none(&image), "no descriptor");
}

/* A pipe with these bytes, which no one writes to any more. Its end to read from is returned, or -1. */
static int pipe_of(const uint8_t *bytes, size_t length)
{
    int ends[2];
    if (pipe(ends) != 0) {
        return -1;
    }
    expect(write(ends[1], bytes, length) == (ssize_t)length, "a pipe can be written");
    close(ends[1]);
    return ends[0];
}

/* A pipe, by a descriptor and by a stream. What is after the image's first bytes stays there. */
static void pipes(uint8_t *bytes)
{
    imagesize_image image;
    size_t length = jpeg(bytes, 3, 9000);
    int end = pipe_of(bytes, length), empty = pipe_of(bytes, 0);
    expect(is_size(imagesize_fd_probe(end, &image), &image, 7, 5), "the size by a pipe");
    expect(imagesize_fd_probe(empty, &image) == IMAGESIZE_END_OF_INPUT && is_none(&image), "an empty pipe");
    close(end);
    close(empty);
    end = pipe_of(bytes, length);
    FILE *stream = fdopen(end, "rb");
    expect(stream != NULL && is_size(imagesize_stdio_probe(stream, &image), &image, 7, 5), "the size by a stream of a pipe");
    if (stream != NULL) {
        fclose(stream);
    }
    memset(bytes, 0, 60000);
    memcpy(bytes, gif, 12);
    end = pipe_of(bytes, 60000);
    expect(is_size(imagesize_fd_probe(end, &image), &image, 640, 480) && read(end, bytes, 60000) == 60000 - 4096, "one block is read");
    close(end);
}

/* A pipe that has a name: without a writer it has no bytes. */
static void named_pipes(void)
{
    imagesize_image image;
    char folder[] = "/tmp/imagesize-XXXXXX", name[64];
    if (mkdtemp(folder) == NULL || snprintf(name, sizeof name, "%s/pipe", folder) < 0 || mkfifo(name, 0600) != 0) {
        expect(0, "a pipe can be made");
        return;
    }
    expect(imagesize_path_probe(name, &image) == IMAGESIZE_END_OF_INPUT && is_none(&image), "no writer is waited for");
    int writer = open(name, O_RDWR);
    expect(writer >= 0 && write(writer, gif, 12) == 12, "a pipe can be written");
    expect(is_size(imagesize_path_probe(name, &image), &image, 640, 480), "the size by the path of a pipe");
    close(writer);
    remove(name);
    remove(folder);
}

/* Inputs that are read forward: whole, cut, failing at each read in turn, and without end. */
static void forward(uint8_t *bytes)
{
    imagesize_image image;
    size_t length = jpeg(bytes, 3, 9000);
    struct forward input = {bytes, length, 1000, 0, 0, 0, 0};
    expect(is_size(imagesize_forward_probe(&input, read_forward, &image), &image, 7, 5), "the size by pieces of an input");
    expect(image.type == IMAGESIZE_JPEG && image.compression == IMAGESIZE_NO_COMPRESSION, "the type by pieces of an input");
    for (size_t piece = 1; piece <= 30; piece++) {
        input = (struct forward){png, sizeof png - 1, piece, 0, 0, 0, 0};
        expect(is_size(imagesize_forward_probe(&input, read_forward, &image), &image, 640, 480), "the size of a PNG by pieces");
        expect(input.place <= 24 + piece - 1, "of which no more is read");
        input = (struct forward){gif, 12, piece, 0, 0, 0, 0};
        expect(is_size(imagesize_forward_probe(&input, read_forward, &image), &image, 640, 480), "the size of a GIF by pieces");
        expect(input.readings == (12 + piece - 1) / piece, "with no read after its size");
    }
    input = (struct forward){bytes, 100, 7, 0, 0, 0, 0};
    expect(imagesize_forward_probe(&input, read_forward, &image) == IMAGESIZE_END_OF_INPUT && image.type == IMAGESIZE_JPEG
               && image.width == 0, "a JPEG that is cut has a type");
    for (size_t failing = 1; failing <= 28; failing++) {
        image = (imagesize_image){1, 2, 3, 4};
        input = (struct forward){bytes, length, 1000, 0, 0, failing, 0};
        expect(imagesize_forward_probe(&input, read_forward, &image) == IMAGESIZE_FAULT && is_none(&image), "a failed read");
    }
    input = (struct forward){NULL, 0, 4096, 0, 0, 0, 1};
    expect(imagesize_forward_probe(&input, read_forward, &image) == IMAGESIZE_BUDGET_SPENT, "segments without end");
    expect(input.place == IMAGESIZE_FILE_MOST, "and 64 MiB of them are read, in one pass");
}

/* A stream that stands at its first byte, and one of an empty file. */
static void streams(void)
{
    imagesize_image image;
    FILE *file = tmpfile();
    expect(file != NULL && imagesize_stdio_probe(file, &image) == IMAGESIZE_END_OF_INPUT && is_none(&image), "a stream of an empty file");
    expect(file != NULL && fwrite(gif, 1, 12, file) == 12 && fseek(file, 0, SEEK_SET) == 0, "a file can be written");
    expect(file != NULL && is_size(imagesize_stdio_probe(file, &image), &image, 640, 480) && ftell(file) == 0, "a stream at its start");
    if (file != NULL) {
        fclose(file);
    }
}

/* A program without a standard input: the file that the call opens gets descriptor 0. */
static void lowest_descriptor(void)
{
    imagesize_image image;
    char name[] = "/tmp/imagesize-XXXXXX";
    int descriptor = mkstemp(name);
    expect(descriptor >= 0 && write(descriptor, gif, 12) == 12, "a file can be written");
    close(0);
    expect(is_size(imagesize_path_probe(name, &image), &image, 640, 480), "the size by descriptor 0");
    if (descriptor > 0) {
        close(descriptor);
    }
    remove(name);
}

/* A file that became shorter after its length was read. */
static void shrunk_files(void)
{
    FILE *file = tmpfile();
    uint8_t bytes[100];
    errno = EIO;
    expect(file != NULL && fwrite(gif, 1, 12, file) == 12 && fflush(file) == 0, "a file can be written");
    int descriptor = file != NULL ? fileno(file) : -1;
    expect(imagesize_fd_read(&descriptor, bytes, 100, 0) == IMAGESIZE_FAULT && errno == 0, "a file that is shorter, by a descriptor");
    errno = EIO;
    expect(file != NULL && imagesize_stdio_read(file, bytes, 100, 0) == IMAGESIZE_FAULT && errno == 0, "and by a stream");
    if (file != NULL) {
        fclose(file);
    }
}

int main(void)
{
    uint8_t *bytes = malloc(LONGEST);
    if (bytes == NULL) {
        return 2;
    }
    images(bytes);
    failing_readings(bytes);
    failing_allocations(bytes);
    refused_images();
    cut_pngs(bytes);
    names();
    many_blocks(bytes);
    no_files();
    pipes(bytes);
    named_pipes();
    forward(bytes);
    streams();
    shrunk_files();
    lowest_descriptor();
    free(bytes);
    printf("files and readers: %s\n", failures == 0 ? "as they should be" : "NOT as they should be");
    return failures != 0;
}
