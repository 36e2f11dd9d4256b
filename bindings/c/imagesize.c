/*
 * imagesize: prints type and size in pixels of image files.
 *
 *     imagesize [OPTION].. PATH..
 *
 * Options may come before, between and after the paths, up to the word --.
 *
 * A line for each file has its type, its size and its path, and after the path the error where there is no size. With --json each file
 * is an object of an array. `python -m imagesize_proved` has the same options and prints the same.
 *
 * The status is 0 if each file has a size, 1 if one has none or if the output cannot be written, and 2 if no file is named.
 */
#define _DEFAULT_SOURCE
#define _FILE_OFFSET_BITS 64
#include "imagesize_file.h"

#include <dirent.h>
#include <getopt.h>
#include <inttypes.h>
#include <math.h>
#include <poll.h>
#include <signal.h>
#include <stdarg.h>
#include <stdbool.h>
#include <sys/mman.h>
#include <sys/wait.h>
#include <time.h>

#ifndef IMAGESIZE_VERSION
#define IMAGESIZE_VERSION "unknown"
#endif

/* The longest text of the library has fewer bytes, and a list of spans has at most so many. */
enum { TEXT_ROOM = 128, MOST_SPANS = 65536 };

/* The names of the statuses that a row can have. */
static const char *const STATUS_NAMES[] = {
    // by bindings/lists.py: statuses
    [IMAGESIZE_NOT_SUPPORTED] = "NOT_SUPPORTED",
    [IMAGESIZE_CORRUPTED_IMAGE] = "CORRUPTED_IMAGE",
    [IMAGESIZE_FAULT] = "FAULT",
    [IMAGESIZE_END_OF_INPUT] = "END_OF_INPUT",
    [IMAGESIZE_NOT_ENOUGH_DATA] = "NOT_ENOUGH_DATA",
    [IMAGESIZE_BUDGET_SPENT] = "BUDGET_SPENT",
    [IMAGESIZE_OUT_OF_MEMORY] = "OUT_OF_MEMORY",
    [IMAGESIZE_NO_DELIMITER] = "NO_DELIMITER",
    [IMAGESIZE_NOT_UTF8] = "NOT_UTF8",
    [IMAGESIZE_INVALID_HEIF_BOX_SIZE] = "INVALID_HEIF_BOX_SIZE",
    [IMAGESIZE_INVALID_JXL_BOX_SIZE] = "INVALID_JXL_BOX_SIZE",
    [IMAGESIZE_INVALID_JXL_SIGNATURE] = "INVALID_JXL_SIGNATURE",
    [IMAGESIZE_INVALID_TIFF_HEADER] = "INVALID_TIFF_HEADER",
    [IMAGESIZE_BIG_TIFF_OFFSET_SIZE] = "BIG_TIFF_OFFSET_SIZE",
    [IMAGESIZE_INVALID_BIG_TIFF_HEADER] = "INVALID_BIG_TIFF_HEADER",
    [IMAGESIZE_INVALID_IFD_OFFSET] = "INVALID_IFD_OFFSET",
    [IMAGESIZE_IFD_TYPE_FOR_STANDARD_TIFF] = "IFD_TYPE_FOR_STANDARD_TIFF",
    [IMAGESIZE_INVALID_IFD_TYPE] = "INVALID_IFD_TYPE",
    [IMAGESIZE_INVALID_IFD_VALUE_LENGTH] = "INVALID_IFD_VALUE_LENGTH",
    [IMAGESIZE_NO_DIMENSIONS_IN_IFD] = "NO_DIMENSIONS_IN_IFD",
    [IMAGESIZE_INVALID_VP8_TAG] = "INVALID_VP8_TAG",
    [IMAGESIZE_DATA_WINDOW_NOT_FOUND] = "DATA_WINDOW_NOT_FOUND",
    [IMAGESIZE_INVALID_HDR_IDENTIFIER] = "INVALID_HDR_IDENTIFIER",
    [IMAGESIZE_INVALID_HDR_DIMENSIONS_LINE] = "INVALID_HDR_DIMENSIONS_LINE",
    [IMAGESIZE_HDR_DIMENSIONS_NOT_FOUND] = "HDR_DIMENSIONS_NOT_FOUND",
    [IMAGESIZE_PNM_DIMENSIONS_NOT_FOUND] = "PNM_DIMENSIONS_NOT_FOUND",
    [IMAGESIZE_BUFFER_TOO_SMALL] = "BUFFER_TOO_SMALL",
    // end of the list
};

/* What each of them says. */
static const char *const MESSAGES[] = {
    // by bindings/lists.py: messages
    [IMAGESIZE_NOT_SUPPORTED] = "the bytes are of no known image type",
    [IMAGESIZE_CORRUPTED_IMAGE] = "the records are malformed, or end before the size",
    [IMAGESIZE_FAULT] = "the bytes cannot be read",
    [IMAGESIZE_END_OF_INPUT] = "the file ends before its size",
    [IMAGESIZE_NOT_ENOUGH_DATA] = "a HEIF property list holds no image size",
    [IMAGESIZE_BUDGET_SPENT] = "the size needs more bytes than the budget",
    [IMAGESIZE_OUT_OF_MEMORY] = "there is not enough memory",
    [IMAGESIZE_NO_DELIMITER] = "a word, a line or a name is too long",
    [IMAGESIZE_NOT_UTF8] = "a text is not UTF-8",
    [IMAGESIZE_INVALID_HEIF_BOX_SIZE] = "a HEIF box is smaller than its own header",
    [IMAGESIZE_INVALID_JXL_BOX_SIZE] = "a JPEG XL box is smaller than its own header",
    [IMAGESIZE_INVALID_JXL_SIGNATURE] = "a JPEG XL codestream does not begin with its signature",
    [IMAGESIZE_INVALID_TIFF_HEADER] = "a TIFF has no known byte order or version",
    [IMAGESIZE_BIG_TIFF_OFFSET_SIZE] = "a BigTIFF has offsets of another size than 8 bytes",
    [IMAGESIZE_INVALID_BIG_TIFF_HEADER] = "the two bytes of a BigTIFF that are always zero are not",
    [IMAGESIZE_INVALID_IFD_OFFSET] = "a TIFF's directory is at offset 0",
    [IMAGESIZE_IFD_TYPE_FOR_STANDARD_TIFF] = "a TIFF entry has a field type that only BigTIFF has",
    [IMAGESIZE_INVALID_IFD_TYPE] = "a TIFF entry has an unknown field type",
    [IMAGESIZE_INVALID_IFD_VALUE_LENGTH] = "the bytes end within a TIFF entry's value",
    [IMAGESIZE_NO_DIMENSIONS_IN_IFD] = "a TIFF directory gives no width or no height",
    [IMAGESIZE_INVALID_VP8_TAG] = "a WebP's first chunk is unknown",
    [IMAGESIZE_DATA_WINDOW_NOT_FOUND] = "an EXR header ends before a data window",
    [IMAGESIZE_INVALID_HDR_IDENTIFIER] = "an HDR does not begin with its identifier",
    [IMAGESIZE_INVALID_HDR_DIMENSIONS_LINE] = "an HDR's line of sizes does not have four words",
    [IMAGESIZE_HDR_DIMENSIONS_NOT_FOUND] = "one of the sizes in an HDR's line is not a number",
    [IMAGESIZE_PNM_DIMENSIONS_NOT_FOUND] = "the width or the height of a PNM is not a number",
    [IMAGESIZE_BUFFER_TOO_SMALL] = "there are more spans than the limit",
    // end of the list
};

/* The status of a call of the portable library that was trapped, as in imagesize_portable.h, and what it says. */
#define IMAGESIZE_TRAPPED 255
static const char *const TRAPPED_NAME = "TRAPPED", *const TRAPPED_MESSAGE = "the portable library was trapped: this is a mistake in it";

/* The MIME types, of those types that have one. */
static const char *const MEDIA[] = {
    // by bindings/lists.py: media
    [IMAGESIZE_ASTC] = "image/astc",
    [IMAGESIZE_BMP] = "image/bmp",
    [IMAGESIZE_DDS] = "image/x-dds",
    [IMAGESIZE_EXR] = "image/x-exr",
    [IMAGESIZE_GIF] = "image/gif",
    [IMAGESIZE_HDR] = "image/vnd.radiance",
    [IMAGESIZE_HEIF] = "image/heif",
    [IMAGESIZE_ICO] = "image/vnd.microsoft.icon",
    [IMAGESIZE_ILBM] = "image/x-ilbm",
    [IMAGESIZE_JPEG] = "image/jpeg",
    [IMAGESIZE_JXL] = "image/jxl",
    [IMAGESIZE_KTX2] = "image/ktx2",
    [IMAGESIZE_PNM] = "image/x-portable-anymap",
    [IMAGESIZE_PSD] = "image/vnd.adobe.photoshop",
    [IMAGESIZE_QOI] = "image/qoi",
    [IMAGESIZE_TGA] = "image/x-tga",
    [IMAGESIZE_TIFF] = "image/tiff",
    [IMAGESIZE_VTF] = "image/vnd.valve.source.texture",
    [IMAGESIZE_WEBP] = "image/webp",
    // end of the list
    [IMAGESIZE_PNG] = "image/png",
};

/* The options of the command. */
struct options {
    bool json, null, recursive, spans;
    size_t jobs;
};

/* A process that reads files: its number, the pipes to it and from it, and how many paths it has. */
struct worker {
    pid_t process;
    int to, from;
    size_t paths;
};

/* The line on a terminal that says how far a run is: when it began and when the line is written next, in seconds. */
struct progress {
    double begun, next;
    bool shown;
};

/* A run of the command: how many paths are named, what was printed so far, and the processes that read files. `batch` has the paths that none of them has. */
struct run {
    struct options options;
    size_t names, rows, errors;
    struct progress progress;
    struct worker *workers;
    size_t next, paths, length;
    char *batch;
};

/* What a process says of a file: whether it has no size, and how long the text is that follows. */
struct reply {
    uint32_t refused, length;
};

/* Where rows are printed: the standard output, or the memory of a process that reads files. */
static FILE *output;

/* A process gets so many paths at once. Standard input is read in blocks of so many bytes of names. */
enum { BATCH = 64, MOST_JOBS = 1024, NAMES = 65536 };

/* What is found of a file. `why` is a number of errno, or 0. Without `has_spans` its spans are not known. */
struct row {
    const char *path;
    uint32_t status;
    int why;
    imagesize_image image;
    imagesize_span *spans;
    size_t count;
    bool has_spans;
};

/* The end of the program where there is no memory. */
static void *checked(void *memory)
{
    if (memory == NULL) {
        fputs("imagesize: there is not enough memory\n", stderr);
        exit(1);
    }
    return memory;
}

/* The end of the program where the output cannot be written. The rest of the output is not tried again. */
static void check_output(bool written)
{
    if (!written) {
        fprintf(stderr, "imagesize: standard output: %s\n", strerror(errno));
        _exit(1);
    }
}

__attribute__((format(printf, 1, 2))) static void print(const char *format, ...)
{
    va_list list;
    va_start(list, format);
    check_output(vfprintf(output, format, list) >= 0);
    va_end(list);
}

/* A file whose blocks are stored as they are read, in memory as long as the file. */
struct stored {
    int file;
    uint8_t *memory;
};

static uint32_t read_and_store(void *reader, uint8_t *bytes, size_t length, uint64_t offset)
{
    struct stored *stored = reader;
    uint32_t status = imagesize_fd_read(&stored->file, bytes, length, offset);
    if (status == IMAGESIZE_ANSWERED) {
        memcpy(stored->memory + offset, bytes, length);
    }
    return status;
}

/* Adds a span to a row. */
static void add_span(struct row *row, imagesize_span span)
{
    row->spans = checked(realloc(row->spans, (row->count + 1) * sizeof *row->spans));
    row->spans[row->count++] = span;
}

/* The spans of a PNG: each requested span in turn. Its size depends on its first bytes alone. */
static void find_spans_of_png(struct row *row, const uint8_t *memory, uint64_t total)
{
    uint8_t known[IMAGESIZE_PNG_FRONT];
    uint64_t width, height;
    imagesize_span none = {0, 0}, wanted = {0, 0};
    size_t length = 0;
    uint32_t status;
    while ((status = imagesize_png_parts_size(known, length, row->count ? row->spans : &none, row->count, total, &width, &height, &wanted))
           == IMAGESIZE_BYTES_WANTED) {
        memcpy(known + length, memory + wanted.start, (size_t)wanted.len);
        length += (size_t)wanted.len;
        add_span(row, wanted);
    }
    row->has_spans = status != IMAGESIZE_TRAPPED;
}

/* The spans of an input, whose bytes are in memory as far as its result depends on them. */
static void find_spans(struct row *row, const uint8_t *memory, size_t total)
{
    imagesize_span none = {0, 0};
    size_t count = 0;
    if (row->image.type == IMAGESIZE_PNG) {
        find_spans_of_png(row, memory, total);
        return;
    }
    imagesize_spans(memory, total, &none, 0, &count);
    if (count > MOST_SPANS) {
        return;
    }
    row->spans = checked(calloc(count + 1, sizeof *row->spans));
    row->has_spans = imagesize_spans(memory, total, row->spans, count, &row->count) == IMAGESIZE_ANSWERED;
}

/* Probes a file whose spans are asked for. Memory is taken for the blocks alone that are read. */
static void probe_with_spans(struct row *row, int file, uint64_t total)
{
    struct stored stored = {file, NULL};
    void *memory = MAP_FAILED;
    if (total > 0 && total <= SIZE_MAX) {
        memory = mmap(NULL, (size_t)total, PROT_READ | PROT_WRITE, MAP_PRIVATE | MAP_ANONYMOUS | MAP_NORESERVE, -1, 0);
    }
    if (memory == MAP_FAILED) {
        row->status = imagesize_reader_probe(&file, imagesize_fd_read, total, &row->image);
        row->has_spans = total == 0;
        return;
    }
    stored.memory = memory;
    row->status = imagesize_reader_probe(&stored, read_and_store, total, &row->image);
    if (row->status != IMAGESIZE_FAULT && row->status != IMAGESIZE_BUDGET_SPENT && row->status != IMAGESIZE_OUT_OF_MEMORY) {
        find_spans(row, stored.memory, (size_t)total);
    }
    munmap(memory, (size_t)total);
}

/* Whether a path is standard input. With --null it has the paths, and "-" is a file of that name. */
static bool is_input(const char *path, const struct options *options)
{
    return strcmp(path, "-") == 0 && !options->null;
}

/* Opens a path. A pipe without a writer is not waited for. */
static int open_path(const char *path)
{
    int file = open(path, O_RDONLY | O_NONBLOCK | O_CLOEXEC);
    if (file >= 0) {
        (void)fcntl(file, F_SETFL, 0); /* the reads wait, as the call to open did not */
    }
    return file;
}

/* Reads the next bytes of standard input. Waits for them too where another program made it non-blocking. */
static long input_next(void *reader, uint8_t *bytes, size_t length)
{
    long got;
    while ((got = imagesize_fd_next(reader, bytes, length)) < 0 && (errno == EAGAIN || errno == EWOULDBLOCK)) {
        struct pollfd input = {.fd = *(int *)reader, .events = POLLIN};
        (void)poll(&input, 1, -1);
    }
    return got;
}

/* What is found of the file at a path. */
static struct row row_of(const char *path, const struct options *options)
{
    struct row row = {.path = path, .status = IMAGESIZE_FAULT};
    struct stat about;
    int file = is_input(path, options) ? STDIN_FILENO : open_path(path);
    errno = file < 0 ? errno : 0;
    if (file >= 0 && fstat(file, &about) == 0) {
        if (options->spans && S_ISREG(about.st_mode)) {
            probe_with_spans(&row, file, (uint64_t)about.st_size);
        } else if (is_input(path, options) && !S_ISREG(about.st_mode)) {
            row.status = imagesize_forward_probe(&file, input_next, &row.image);
        } else {
            row.status = imagesize_fd_probe(file, &row.image);
        }
    }
    row.why = row.status == IMAGESIZE_FAULT ? errno : 0;
    if (file >= 0 && !is_input(path, options)) {
        close(file);
    }
    return row;
}

/* Why a row has no size, or NULL. */
static const char *error_of(const struct row *row)
{
    if (row->status == IMAGESIZE_ANSWERED) {
        return NULL;
    }
    if (row->status == IMAGESIZE_FAULT) {
        return row->why ? strerror(row->why) : "the file became shorter while it was read";
    }
    return row->status == IMAGESIZE_TRAPPED ? TRAPPED_MESSAGE : MESSAGES[row->status];
}

/* The name of a row's type, and of its compression; an empty text if it has none. */
static void name_of(const struct row *row, char *name, char *compression)
{
    size_t length = 0;
    name[0] = compression[0] = '\0';
    if (row->image.type != 0 && imagesize_image_name(&row->image, name, TEXT_ROOM - 1, &length) == IMAGESIZE_ANSWERED) {
        name[length] = '\0';
    }
    if (imagesize_compression_name(row->image.type, row->image.compression, compression, TEXT_ROOM - 1, &length) == IMAGESIZE_ANSWERED) {
        compression[length] = '\0';
    }
}

/* The MIME type of a row's image, or NULL. */
static const char *mime_of(const struct row *row)
{
    if (row->image.compression == IMAGESIZE_HEIF_AV1) {
        return "image/avif";
    }
    if (row->image.compression == IMAGESIZE_HEIF_HEVC) {
        return "image/heic";
    }
    return MEDIA[row->image.type];
}

/*
 * Reads a character of UTF-8, and moves past it. A byte that begins none is returned as 0xdc00 and the byte, which no character has:
 * so Python reads it too.
 */
static uint32_t next_character(const uint8_t **text)
{
    static const uint32_t least[] = {0, 0, 0x80, 0x800, 0x10000};
    const uint8_t *byte = *text;
    size_t length = byte[0] < 0x80 ? 1 : byte[0] >= 0xf0 && byte[0] < 0xf8 ? 4 : byte[0] >= 0xe0 ? 3 : byte[0] >= 0xc0 ? 2 : 0;
    uint32_t character = length == 1 ? byte[0] : length > 1 ? byte[0] & (0x7fu >> length) : 0;
    for (size_t i = 1; i < length; i++) {
        if ((byte[i] & 0xc0) != 0x80) {
            length = 0;
            break;
        }
        character = character << 6 | (byte[i] & 0x3fu);
    }
    if (byte[0] >= 0xf8 || length == 0 || character < least[length] || character > 0x10ffff || character >> 11 == 0x1b) {
        *text += 1;
        return 0xdc00u + byte[0];
    }
    *text += length;
    return character;
}

/* Whether a character would fake another line or another path, or is none: a control, an end of a line, a mark that turns the direction,
 * a backslash, or a byte that is no UTF-8. */
static bool is_unsafe(uint32_t c)
{
    return c < 0x20 || (c >= 0x7f && c <= 0x9f) || c == '\\' || c == 0x200e || c == 0x200f || (c >= 0x2028 && c <= 0x202e)
        || (c >= 0x2066 && c <= 0x2069) || (c >= 0xd800 && c <= 0xdfff);
}

/* A path of one line: as it is, or with escapes of its bytes if it has an unsafe character. */
static void print_path(const char *path)
{
    bool escaped = false;
    for (const uint8_t *at = (const uint8_t *)path; *at != 0;) {
        escaped |= is_unsafe(next_character(&at));
    }
    for (const uint8_t *at = (const uint8_t *)path; escaped && *at != 0; at++) {
        switch (*at) {
        case '\\': print("\\\\"); break;
        case '\n': print("\\n"); break;
        case '\r': print("\\r"); break;
        case '\t': print("\\t"); break;
        default: print(*at >= 0x20 && *at < 0x7f ? "%c" : "\\x%02x", *at);
        }
    }
    if (!escaped) {
        print("%s", path);
    }
}

/* Prints a line for a file, and a line for each of its spans. */
static void print_row(const struct row *row)
{
    char name[TEXT_ROOM], compression[TEXT_ROOM], type[2 * TEXT_ROOM + 2] = "-", size[64] = "-";
    const char *error = error_of(row);
    name_of(row, name, compression);
    if (name[0] != '\0') {
        snprintf(type, sizeof type, compression[0] ? "%s(%s)" : "%s", name, compression);
    }
    if (error == NULL) {
        snprintf(size, sizeof size, "%" PRIu64 "x%" PRIu64, row->image.width, row->image.height);
    }
    print("%-14s %12s  ", type, size);
    print_path(row->path);
    print(error ? ": %s\n" : "\n", error);
    for (size_t i = 0; i < row->count; i++) {
        print("  %" PRIu64 "+%" PRIu64 "\n", row->spans[i].start, row->spans[i].len);
    }
}

/* Prints a text as JSON has it, in ASCII; NULL is null. */
static void print_json_text(const char *text)
{
    if (text == NULL) {
        print("null");
        return;
    }
    print("\"");
    for (const uint8_t *at = (const uint8_t *)text; *at != 0;) {
        uint32_t c = next_character(&at);
        const char *names = "\"\"\\\\\bb\ff\nn\rr\tt", *known = c < 0x80 ? strchr(names, (int)c) : NULL;
        if (c > 0xffff) {
            print("\\u%04" PRIx32 "\\u%04" PRIx32, 0xd800 + ((c - 0x10000) >> 10), 0xdc00 + (c & 0x3ff));
        } else if (c == '"' || c == '\\' || (c < 0x20 && known != NULL)) {
            print("\\%c", known[1]);
        } else {
            print(c < 0x20 || c > 0x7e ? "\\u%04" PRIx32 : "%c", c);
        }
    }
    print("\"");
}

static void print_json_key(const char *key, const char *text)
{
    print(", \"%s\": ", key);
    print_json_text(text);
}

static void print_json_spans(const struct row *row)
{
    print(", \"spans\": ");
    if (!row->has_spans) {
        print("null");
        return;
    }
    print("[");
    for (size_t i = 0; i < row->count; i++) {
        print("%s[%" PRIu64 ", %" PRIu64 "]", i ? ", " : "", row->spans[i].start, row->spans[i].len);
    }
    print("]");
}

/* Prints an object for a file. */
static void print_json_row(const struct row *row, const struct options *options)
{
    char name[TEXT_ROOM], compression[TEXT_ROOM];
    const char *error = error_of(row);
    name_of(row, name, compression);
    print("{\"path\": ");
    print_json_text(row->path);
    print_json_key("type", name[0] ? name : NULL);
    print_json_key("compression", compression[0] ? compression : NULL);
    print_json_key("mime_type", mime_of(row));
    if (error == NULL) {
        print(", \"width\": %" PRIu64 ", \"height\": %" PRIu64, row->image.width, row->image.height);
    } else {
        print(", \"width\": null, \"height\": null");
    }
    const char *status = row->status == IMAGESIZE_TRAPPED ? TRAPPED_NAME : STATUS_NAMES[row->status];
    print_json_key("status", error ? status : NULL);
    print_json_key("error", error);
    if (options->spans) {
        print_json_spans(row);
    }
    print("}");
}

/* Prints what is found of the file at a path, without what is between two rows. Returns whether it has no size. */
static bool print_found(const char *path, const struct options *options)
{
    struct row row = row_of(path, options);
    if (options->json) {
        print_json_row(&row, options);
    } else {
        print_row(&row);
    }
    free(row.spans);
    return row.status != IMAGESIZE_ANSWERED;
}

static double now(void)
{
    struct timespec time;
    clock_gettime(CLOCK_MONOTONIC, &time);
    return (double)time.tv_sec + (double)time.tv_nsec / 1e9;
}

/* Begins the line, which is written from the first second on, and on a terminal alone. */
static struct progress begin_progress(void)
{
    double begun = now();
    return (struct progress){begun, isatty(STDERR_FILENO) ? begun + 1 : HUGE_VAL, false};
}

static void clear_progress(struct progress *progress)
{
    if (progress->shown) {
        fputs("\r\x1b[K", stderr);
        progress->shown = false;
    }
}

/* Counts a row that was printed, and writes the line, at most ten times a second. */
static void end_row(struct run *run, bool refused)
{
    struct progress *progress = &run->progress;
    run->errors += refused;
    if (progress->next == HUGE_VAL || now() < progress->next) {
        return;
    }
    check_output(fflush(stdout) == 0);
    double second = (double)run->rows / (now() - progress->begun);
    fprintf(stderr, "\r%zu files, %.0f a second, %zu errors\x1b[K", run->rows, second, run->errors);
    progress->next = now() + 0.1;
    progress->shown = true;
}

/* Counts a row, and prints what is before it. */
static void begin_row(struct run *run)
{
    if (run->progress.shown && isatty(STDOUT_FILENO)) {
        clear_progress(&run->progress);
    }
    if (run->options.json) {
        print(run->rows ? ",\n" : "[\n");
    }
    run->rows++;
}

/* Writes all of some bytes, or reads as many. Returns whether that was possible. */
static bool write_all(int file, const void *bytes, size_t length)
{
    for (const char *at = bytes; length > 0;) {
        ssize_t done = write(file, at, length);
        if (done < 0 && errno != EINTR) {
            return false;
        }
        at += done > 0 ? done : 0;
        length -= done > 0 ? (size_t)done : 0;
    }
    return true;
}

static bool read_all(int file, void *bytes, size_t length)
{
    for (char *at = bytes; length > 0;) {
        ssize_t done = read(file, at, length);
        if (done == 0 || (done < 0 && errno != EINTR)) {
            return false;
        }
        at += done > 0 ? done : 0;
        length -= done > 0 ? (size_t)done : 0;
    }
    return true;
}

/* The work of a process: it reads a whole batch of paths, and then replies for each of them. */
static void work(int from, int to, const struct options *options)
{
    size_t length;
    while (read_all(from, &length, sizeof length)) {
        char *batch = checked(malloc(length));
        if (!read_all(from, batch, length)) {
            _exit(1);
        }
        for (const char *path = batch; path < batch + length; path += strlen(path) + 1) {
            char *text = NULL;
            size_t size = 0;
            output = checked(open_memstream(&text, &size));
            struct reply reply = {.refused = print_found(path, options)};
            check_output(fclose(output) == 0);
            reply.length = (uint32_t)size;
            if (!write_all(to, &reply, sizeof reply) || !write_all(to, text, size)) {
                _exit(1);
            }
            free(text);
        }
        free(batch);
    }
    _exit(0);
}

/* The end of the program where no process can be started, or where one ends too early. */
static void check_process(bool goes_on, const char *what)
{
    if (!goes_on) {
        fflush(stdout);
        fprintf(stderr, "imagesize: %s\n", what);
        _exit(1);
    }
}

static void start_workers(struct run *run)
{
    check_output(fflush(stdout) == 0); /* so that no process has a copy of what is in the buffer */
    run->workers = checked(calloc(run->options.jobs, sizeof *run->workers));
    for (size_t i = 0; i < run->options.jobs; i++) {
        int to[2], from[2];
        check_process(pipe(to) == 0 && pipe(from) == 0, "no pipe to a process can be made");
        pid_t process = fork();
        check_process(process >= 0, "no process can be started");
        if (process == 0) {
            for (size_t other = 0; other < i; other++) {
                close(run->workers[other].to);
                close(run->workers[other].from);
            }
            close(to[1]);
            close(from[0]);
            work(to[0], from[1], &run->options);
        }
        close(to[0]);
        close(from[1]);
        run->workers[i] = (struct worker){process, to[1], from[0], 0};
    }
}

/* Prints the replies of a process for the paths that it has. */
static void collect(struct run *run, struct worker *worker)
{
    for (; worker->paths > 0; worker->paths--) {
        struct reply reply;
        check_process(read_all(worker->from, &reply, sizeof reply), "a process that reads files has ended");
        char *text = checked(malloc((size_t)reply.length + 1));
        check_process(read_all(worker->from, text, reply.length), "a process that reads files has ended");
        begin_row(run);
        check_output(fwrite(text, 1, reply.length, output) == reply.length);
        end_row(run, reply.refused);
        free(text);
    }
}

/* Gives the batch to the next process. What that one found before is printed first, so that it is idle, and reads all of the batch. */
static void dispatch(struct run *run)
{
    struct worker *worker = &run->workers[run->next];
    collect(run, worker);
    check_process(write_all(worker->to, &run->length, sizeof run->length) && write_all(worker->to, run->batch, run->length),
                  "a process that reads files has ended");
    worker->paths = run->paths;
    run->next = (run->next + 1) % run->options.jobs;
    run->paths = run->length = 0;
}

/* Prints all that the processes find, in the order of the paths. */
static void collect_all(struct run *run)
{
    if (run->workers == NULL) {
        return;
    }
    if (run->paths > 0) {
        dispatch(run);
    }
    for (size_t i = 0; i < run->options.jobs; i++) {
        collect(run, &run->workers[(run->next + i) % run->options.jobs]);
    }
}

/* Ends the processes, which wait for a batch. */
static void stop_workers(struct run *run)
{
    for (size_t i = 0; run->workers != NULL && i < run->options.jobs; i++) {
        close(run->workers[i].to);
        close(run->workers[i].from);
        waitpid(run->workers[i].process, NULL, 0);
    }
    free(run->workers);
    free(run->batch);
}

static void add_to_batch(struct run *run, const char *path)
{
    size_t length = strlen(path) + 1;
    if (run->workers == NULL) {
        start_workers(run);
    }
    run->batch = checked(realloc(run->batch, run->length + length));
    memcpy(run->batch + run->length, path, length);
    run->length += length;
    if (++run->paths == BATCH) {
        dispatch(run);
    }
}

/* Probes the file at a path, and prints what is found: at once, or by a process. Standard input is read by this one. */
static void describe(struct run *run, const char *path)
{
    if (run->options.jobs > 1 && !is_input(path, &run->options)) {
        add_to_batch(run, path);
        return;
    }
    collect_all(run);
    begin_row(run);
    end_row(run, print_found(path, &run->options));
}

/* What a path is: a folder, a link to one, a regular file or nothing, or something else, which is passed over. */
enum kind { FOLDER, LINK_TO_FOLDER, REGULAR, SPECIAL };

static enum kind kind_of(const char *path)
{
    struct stat about;
    if (lstat(path, &about) == 0 && S_ISDIR(about.st_mode)) {
        return FOLDER;
    }
    if (stat(path, &about) != 0 || S_ISREG(about.st_mode)) {
        return REGULAR;
    }
    return S_ISDIR(about.st_mode) ? LINK_TO_FOLDER : SPECIAL;
}

/* A folder and a name in it. The caller frees it. */
static char *joined(const char *folder, const char *name)
{
    size_t length = strlen(folder);
    char *path = checked(malloc(length + strlen(name) + 2));
    const char *between = length > 0 && folder[length - 1] == '/' ? "" : "/";
    sprintf(path, "%s%s%s", folder, between, name);
    return path;
}

static int is_name(const struct dirent *entry)
{
    return strcmp(entry->d_name, ".") != 0 && strcmp(entry->d_name, "..") != 0;
}

static int by_bytes(const struct dirent **left, const struct dirent **right)
{
    return strcmp((*left)->d_name, (*right)->d_name);
}

/* All regular files below a folder: first its own, then those of each folder in it. Links to folders are not followed. */
static void describe_below(struct run *run, const char *folder)
{
    struct dirent **entries;
    int count = scandir(folder, &entries, is_name, by_bytes);
    if (count < 0) {
        describe(run, folder); /* so that its error is seen */
        return;
    }
    char **folders = checked(calloc((size_t)count + 1, sizeof *folders));
    size_t found = 0;
    for (int i = 0; i < count; i++) {
        char *path = joined(folder, entries[i]->d_name);
        enum kind kind = kind_of(path);
        free(entries[i]);
        if (kind == FOLDER) {
            folders[found++] = path;
            continue;
        }
        if (kind == REGULAR) {
            describe(run, path);
        }
        free(path);
    }
    free(entries);
    for (size_t i = 0; i < found; i++) {
        describe_below(run, folders[i]);
        free(folders[i]);
    }
    free(folders);
}

/* A path of the command. */
static void describe_path(struct run *run, const char *path)
{
    run->names++;
    enum kind kind = run->options.recursive && !is_input(path, &run->options) ? kind_of(path) : REGULAR;
    if (kind == FOLDER || kind == LINK_TO_FOLDER) {
        describe_below(run, path);
    } else {
        describe(run, path);
    }
}

/* The paths that standard input has, each ended by a zero byte. The last one may end without it. */
static void describe_names(struct run *run)
{
    char *names = NULL; /* those that are not described yet, of which the last may go on */
    size_t length = 0, room = 0;
    int input = STDIN_FILENO;
    for (long got = 1; got > 0;) {
        if (room - length < NAMES) {
            room = 2 * room + NAMES;
            names = checked(realloc(names, room));
        }
        got = input_next(&input, (uint8_t *)names + length, NAMES);
        if (got < 0) {
            int why = errno;
            fflush(stdout);
            fprintf(stderr, "imagesize: standard input: %s\n", strerror(why));
            _exit(1);
        }
        char *name = names, *from = names + length, *zero; /* before `from` no name ends */
        length += (size_t)got;
        if (got == 0 && length > 0) {
            names[length++] = '\0';
        }
        for (; (zero = memchr(from, '\0', (size_t)(names + length - from))) != NULL; name = from = zero + 1) {
            describe_path(run, name);
        }
        length -= (size_t)(name - names);
        memmove(names, name, length);
    }
    free(names);
}

static const char USAGE[] = "usage: imagesize [-h] [-0] [-r] [--json] [--spans] [--jobs N] [--version] PATH..\n";
static const char HELP[] =
    "\n"
    "Prints type and size in pixels of image files. Options and paths may come in any order.\n"
    "\n"
    "  PATH             a file, - for standard input, or a folder with --recursive\n"
    "  -0, --null       read more paths from standard input, each ended by a zero byte; - is then a file\n"
    "  -r, --recursive  read all regular files below folders\n"
    "  --json           print a JSON array with an object for each file\n"
    "  --spans          print the bytes that each result depends on\n"
    "  --jobs N         read files in N processes; the order of the lines stays\n"
    "  --version        print the version\n"
    "  -h, --help       print this\n"
    "  --               only paths follow\n"
    "\n"
    "The status is 0 if each file has a size, 1 if one has none, and 2 if no file is named.\n";

/* A number of processes, of digits alone. Ends the program with status 2 if it is none. */
static size_t jobs_of(const char *text)
{
    errno = 0;
    long jobs = strtol(text, NULL, 10);
    if (text[strspn(text, "0123456789")] != '\0' || errno != 0 || jobs < 1) {
        fprintf(stderr, "%simagesize: no number of processes: %s\n", USAGE, text);
        exit(2);
    }
    return jobs < MOST_JOBS ? (size_t)jobs : MOST_JOBS;
}

/* Prints the version or the help, and ends the program. */
static void show(int option)
{
    if (option == 'v') {
        print("%s\n", IMAGESIZE_VERSION);
    } else {
        print("%s%s", USAGE, HELP);
    }
    check_output(fflush(stdout) == 0);
    exit(0);
}

/* Reads the options, which getopt_long moves before the paths. Ends the program for --help and --version, and with status 2 for an option
 * that there is none of. */
static struct options options_of(int count, char **words)
{
    static const struct option known[] = {
        {"help", no_argument, NULL, 'h'},      {"json", no_argument, NULL, 'j'},  {"null", no_argument, NULL, '0'},
        {"recursive", no_argument, NULL, 'r'}, {"spans", no_argument, NULL, 's'}, {"version", no_argument, NULL, 'v'},
        {"jobs", required_argument, NULL, 'n'}, {NULL, 0, NULL, 0},
    };
    struct options options = {.jobs = 1};
    int shown = 0;
    for (int option; (option = getopt_long(count, words, "0hr", known, NULL)) != -1;) {
        switch (option) {
        case '0': options.null = true; break;
        case 'j': options.json = true; break;
        case 'r': options.recursive = true; break;
        case 's': options.spans = true; break;
        case 'n': options.jobs = jobs_of(optarg); break;
        case 'v':
        case 'h': shown = shown ? shown : option; break;
        default: fputs(USAGE, stderr); exit(2);
        }
    }
    if (shown) {
        show(shown);
    }
    return options;
}

int main(int count, char **words)
{
    struct run run = {.rows = 0};
    output = stdout;
    signal(SIGPIPE, SIG_IGN); /* a pipe that is closed is an error of a write */
    check_output(fcntl(STDOUT_FILENO, F_GETFD) >= 0);
    run.options = options_of(count, words);
    run.progress = begin_progress();
    for (int i = optind; i < count; i++) {
        describe_path(&run, words[i]);
    }
    if (run.options.null) {
        describe_names(&run);
    }
    collect_all(&run);
    stop_workers(&run);
    clear_progress(&run.progress);
    if (run.options.json && run.names > 0) {
        print(run.rows ? "\n]\n" : "[]\n");
    }
    check_output(fflush(stdout) == 0);
    if (run.names == 0) {
        fprintf(stderr, "%simagesize: no file is named\n", USAGE);
        return 2;
    }
    return run.errors > 0;
}
