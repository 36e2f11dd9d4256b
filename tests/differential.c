/*
 * Makes inputs by the grammars of the formats and by mutations of samples, and checks laws of the C library over each.
 *
 *     differential made SAMPLES SEED SECONDS EVERY PART PARTS
 *     differential files FILE..
 *     differential check
 *
 * SAMPLES is a file with one input a line, in hex. `made` first checks each sample, each of its prefixes, and each change of one
 * byte of a small sample. Then it generates inputs for SECONDS seconds. Every EVERY-th input is written to standard output with
 * the library's result, which the model is compared with. This process is number PART of PARTS, which share the work. `files`
 * checks the laws over whole files, with each prefix and each missing byte. `check` reads inputs in hex, and prints for each the
 * law that it breaks, or `-`.
 *
 * A broken law is a line `LAW name hex`, and ends the run with status 1. The last line is `DONE` with the counts. The laws:
 *
 *     calls     imagesize_type and imagesize_size return the same as imagesize_probe
 *     spans     each span has a byte and lies within the input; together they have at most 64 bytes more than the input
 *     local     with every byte outside the spans changed, type, size, error and spans are the same
 *     appended  appended bytes change no size, except that of a HEIF, an icon or a TGA
 *     front     a prefix has the result of the whole input, unless the header says that more bytes may change it
 *     parts     if each requested span is fetched, with bytes around it or in pieces, the result is that of the whole input, and
 *               the call writes nothing else
 *     missing   if one byte of the spans is missing, that byte is requested; if any other byte is missing, the result is the same
 *     rounds    if each requested span is passed to a probe over spans, with bytes around it or in pieces, the result is that of the
 *               whole input; each span begins after the last one, and bytes after a gap change nothing
 *     stream    pushed in pieces, with the length known or not, an input has the result of the whole: if the length is known, as soon
 *               as the spans have come. From then on each call returns it. Until then a call writes nothing
 *     ended     a stream that ends after some bytes, or whose length is that of these, has the result of these bytes
 *     typed     the size as the input's own type is its size; as another type, the whole input and its parts give the same size
 *     read      imagesize_file.h over a file, in blocks of 16 bytes, finds the result of the whole input, or that of
 *               imagesize_png_size if it is a PNG, and reads within it
 *     cut       with each read cut short, and some interrupted, it finds the same
 *     failing   if a read fails, or the file ends there, it returns an error, with errno and without a size, and reads no further
 */
#define _POSIX_C_SOURCE 200809L
#include <unistd.h>

/* imagesize_file.h reads memory in this program. */
static ssize_t read_memory(int file, void *bytes, size_t length, off_t offset);
#define pread read_memory
#include <imagesize_file.h>
#undef pread

#include <stdbool.h>
#include <string.h>
#include <time.h>

enum { MOST = 4096, ROOM = 1 << 20, SPANS = 1 << 16, PARTS = 4096, SAMPLES = 4096, SMALL = 64, SMALLEST = 16 };
enum { TYPES = 26, STATUSES = 31 };

struct input {
    size_t length;
    uint8_t bytes[ROOM];
};

struct sample {
    size_t length;
    uint8_t *bytes;
};

struct answer {
    uint32_t status, type, compression;
    uint64_t width, height;
};

/* The counts. */
enum counter {
    INPUTS, PROBES, VECTORS, FRONTS_OF_SAMPLES, CHANGES_OF_ONE, CHANGES_OF_TWO, CALLS, LOCAL, APPENDED, FRONT, BY_PARTS, MISSING, ROUNDS, STREAM,
    ENDED, TYPED, READ, CUT, FAILING, COUNTERS
};
static const char *const counter_names[COUNTERS] = {
    "inputs", "probes", "samples", "fronts of samples", "changes of one byte", "changes of two bytes", "calls", "local",
    "appended", "front", "parts", "missing", "rounds", "stream", "ended", "typed", "read", "cut", "failing",
};
static unsigned long long counted[COUNTERS], results[TYPES][STATUSES];

static struct sample samples[SAMPLES];
static size_t sample_count;
static uint64_t state;

/* The next random number, by splitmix64. */
static uint64_t next(void)
{
    uint64_t z = state += 0x9E3779B97F4A7C15;
    z = (z ^ z >> 30) * 0xBF58476D1CE4E5B9;
    z = (z ^ z >> 27) * 0x94D049BB133111EB;
    return z ^ z >> 31;
}

/* A random number below a bound. */
static uint64_t below(uint64_t bound)
{
    return next() % bound;
}

/* True once in this many calls, on average. */
static bool once_in(uint64_t times)
{
    return below(times) == 0;
}

/* A number at the limit of some width in bits, or any small number. */
static uint64_t edge(void)
{
    static const uint8_t bits[] = {0, 1, 3, 4, 7, 8, 9, 14, 15, 16, 24, 31, 32, 33, 62, 63};
    if (once_in(2)) {
        return below(48);
    }
    uint64_t power = UINT64_C(1) << bits[below(sizeof bits)];
    return once_in(8) ? UINT64_MAX - below(24) : power + below(3) - 1;
}

static void set(struct input *to, const struct sample *from)
{
    to->length = from->length;
    memcpy(to->bytes, from->bytes, from->length);
}

static void put_byte(struct input *to, uint64_t byte)
{
    if (to->length < MOST) {
        to->bytes[to->length++] = (uint8_t)byte;
    }
}

static void put(struct input *to, const char *bytes, size_t length)
{
    for (size_t at = 0; at < length; at++) {
        put_byte(to, (uint8_t)bytes[at]);
    }
}

#define PUT(to, text) put(to, text, sizeof(text) - 1)

static void put_little(struct input *to, uint64_t number, size_t length)
{
    for (size_t at = 0; at < length; at++) {
        put_byte(to, at < 8 ? number >> 8 * at : 0);
    }
}

static void put_big(struct input *to, uint64_t number, size_t length)
{
    for (size_t at = length; at-- > 0;) {
        put_byte(to, at < 8 ? number >> 8 * at : 0);
    }
}

static void put_number(struct input *to, bool big, uint64_t number, size_t length)
{
    (big ? put_big : put_little)(to, number, length);
}

static void put_random(struct input *to, size_t length)
{
    while (length-- > 0) {
        put_byte(to, once_in(3) ? 0 : next());
    }
}

static void put_times(struct input *to, char byte, uint64_t times)
{
    while (times-- > 0) {
        put_byte(to, (uint8_t)byte);
    }
}

/* One of some texts. */
static const char *one_of(const char *const *texts, size_t count)
{
    return texts[below(count)];
}

static void put_fixed(struct input *to)
{
    static const struct {
        uint8_t head[12], length;
    } heads[] = {
        {"GIF89a", 6}, {"BM", 2}, {"8BPS\0\1", 6}, {"\0\0\0\0\xe0\xa5", 6}, {"\x13\xab\xa1\x5c", 4}, {"\x13\xab\xa0\x5c", 4},
        {"qoif", 4}, {"farbfeld", 8}, {"VTF", 4}, {"DDS ", 4}, {"PVR\3", 4}, {"\x34\0\0", 4},
        {"\xabKTX 20\xbb\r\n\x1a\n", 12}, {"PKM 10", 6}, {"PKM 20", 6}, {"\0\0\2", 3},
    };
    size_t row = below(sizeof heads / sizeof *heads);
    put(to, (const char *)heads[row].head, heads[row].length);
    put_random(to, 8 + below(130));
}

static void put_pkm(struct input *to)
{
    static const uint16_t types[] = {0, 1, 2, 3, 4, 5, 6, 0x1607, 0x1608, 0x1609, 0x160A, 0x160B, 0x160C, 0x8C92, 0x8C93, 0x87EE};
    PUT(to, "PKM ");
    put_byte(to, '0' + below(4));
    put_byte(to, '0');
    put_big(to, types[below(sizeof types / sizeof *types)], 2);
    put_random(to, below(12));
}

static void put_pvr(struct input *to)
{
    PUT(to, "PVR\3");
    put_random(to, 4);
    put_little(to, once_in(8) ? edge() : below(30), 8);
    put_random(to, below(24));
}

static void put_dds(struct input *to)
{
    static const char *const codes[] = {"DXT1", "DXT3", "DXT5", "ATI1", "BC4U", "BC4S", "ATI2", "BC5U", "BC5S", "BC6H", "BC7U", "BC7L", "DX10", "DXT2"};
    PUT(to, "DDS ");
    put_random(to, 80);
    if (once_in(3)) {
        put_little(to, 0, 4);
        put_little(to, once_in(2) ? 32 : once_in(2) ? 24 : edge(), 4);
    } else {
        put(to, one_of(codes, 14), 4);
    }
    put_random(to, 128 - to->length);
    put_little(to, 93 + below(8), 4);
}

static void put_webp(struct input *to)
{
    static const char *const tags[] = {"VP8 ", "VP8L", "VP8X", "ALPH"};
    PUT(to, "RIFF");
    put_random(to, 4);
    PUT(to, "WEBP");
    put(to, one_of(tags, 4), 4);
    put_random(to, below(20));
}

static void put_tga(struct input *to)
{
    static const uint8_t types[] = {1, 2, 3, 9, 10, 11, 0, 4}, bits[] = {0, 8, 15, 16, 24, 32}, descriptors[] = {0, 1, 2, 8, 16, 32, 40};
    put_byte(to, below(3));
    put_byte(to, below(3));
    put_byte(to, types[below(8)]);
    put_big(to, once_in(4) ? edge() : 0, 4);
    put_byte(to, bits[below(6)]);
    put_random(to, 8);
    put_byte(to, bits[below(6)]);
    put_byte(to, descriptors[below(7)]);
    put_random(to, once_in(2) ? 0 : below(20));
    if (once_in(2)) {
        PUT(to, "TRUEVISION-XFILE.\0");
    }
}

static void put_jpeg(struct input *to)
{
    static const uint8_t markers[] = {0xC0, 0xC1, 0xC2, 0xC4, 0xC8, 0xCC, 0xCF, 0xD8, 0xD9, 0xDA, 0xE0, 0xE1, 0xFE, 0x01, 0xFF, 0xD0};
    PUT(to, "\xff\xd8");
    for (uint64_t left = below(12); left-- > 0;) {
        put_byte(to, once_in(40) ? next() : 0xFF);
        put_byte(to, markers[below(16)]);
        uint64_t length = once_in(20) ? edge() : 2 + below(12);
        put_big(to, length, 2);
        put_random(to, length < 200 && length >= 2 ? length - 2 : below(8));
    }
}

static void put_ilbm(struct input *to)
{
    static const char *const names[] = {"BMHD", "BODY", "CMAP", "ANNO"};
    PUT(to, "FORM");
    put_random(to, 4);
    put(to, once_in(2) ? "ILBM" : "PBM ", 4);
    for (uint64_t left = below(8); left-- > 0;) {
        put(to, one_of(names, 4), 4);
        uint64_t length = once_in(12) ? edge() : below(12);
        put_big(to, length, 4);
        put_random(to, length < 64 ? length + length % 2 : below(8));
    }
}

static void put_ico(struct input *to)
{
    PUT(to, "\0\0\1\0");
    uint64_t entries = below(9);
    put_little(to, once_in(8) ? edge() : entries, 2);
    while (entries-- > 0) {
        put_random(to, 16);
    }
}

static void put_tiff(struct input *to)
{
    bool big_endian = once_in(2), wide = once_in(2);
    put(to, big_endian ? "MM" : "II", 2);
    put_number(to, big_endian, wide ? 43 : 42, 2);
    if (wide) {
        put_number(to, big_endian, once_in(12) ? edge() : 8, 2);
        put_number(to, big_endian, once_in(12) ? edge() : 0, 2);
    }
    uint64_t gap = once_in(4) ? below(10) : 0, offset = once_in(10) ? edge() : (wide ? 16 : 8) + gap;
    put_number(to, big_endian, offset, wide ? 8 : 4);
    put_random(to, gap);
    uint64_t entries = below(7);
    put_number(to, big_endian, once_in(10) ? edge() : entries, wide ? 8 : 2);
    while (entries-- > 0) {
        put_number(to, big_endian, once_in(3) ? 0x100 : once_in(2) ? 0x101 : below(0x110), 2);
        put_number(to, big_endian, once_in(5) ? below(20) : once_in(2) ? 3 : 4, 2);
        put_random(to, wide ? 8 : 4);
        put_number(to, big_endian, edge(), wide ? 8 : 4);
    }
}

/* The header of a box, and the size of its content. */
static void put_box(struct input *to, const char *name, uint64_t content)
{
    put_big(to, once_in(24) ? edge() : content + 8, 4);
    put(to, name, 4);
}

static void put_heif(struct input *to)
{
    static const char *const brands[] = {"heic", "heix", "heis", "heim", "hevc", "hevx", "hevm", "hevs", "avif", "avis", "avio",
                                         "MA1A", "MA1B", "jpeg", "jpgs", "mif1", "mif2", "msf1", "miaf", "mif1", "miaf", "abcd"};
    static const char *const names[] = {"ispe", "irot", "pixi", "mdat", "free"};
    put_box(to, "ftyp", 16);
    for (int at = 0; at < 4; at++) {
        put(to, one_of(brands, 22), 4);
    }
    if (once_in(4)) {
        put_box(to, "free", 4);
        put_random(to, 4);
    }
    put_box(to, "meta", 60);
    put_random(to, 4);
    if (once_in(3)) {
        put_box(to, "hdlr", 6);
        put_random(to, 6);
    }
    put_box(to, "iprp", 50);
    uint64_t room = below(90);
    put_box(to, "ipco", room);
    for (uint64_t left = below(7); left-- > 0;) {
        const char *name = one_of(names, 5);
        uint64_t content = !memcmp(name, "ispe", 4) ? 12 : !memcmp(name, "irot", 4) ? 1 : below(10);
        put_box(to, name, content);
        if (content == 12) {
            put_random(to, 4);
            put_big(to, edge(), 4);
            put_big(to, edge(), 4);
        } else {
            put_random(to, content);
        }
    }
}

/* The codestream's signature and some bits. */
static void put_stream(struct input *to, size_t length)
{
    put(to, "\xff\x0a", length < 2 ? length : 2);
    put_random(to, length < 2 ? 0 : length < 22 ? length - 2 : 20);
}

static void put_jxl(struct input *to)
{
    if (once_in(3)) {
        put_stream(to, 2 + below(20));
        return;
    }
    PUT(to, "\0\0\0\x0cJXL \r\n\x87\n");
    size_t streamed = 0;
    for (uint64_t left = 1 + below(6); left-- > 0;) {
        uint64_t kind = below(4), content = below(20);
        const char *name = kind == 0 ? "jxlc" : kind <= 2 ? "jxlp" : "free";
        if (once_in(4)) {
            put_big(to, once_in(8) ? below(20) : 1, 4);
            put(to, name, 4);
            put_big(to, once_in(8) ? once_in(2) ? below(3) : edge() : content + 16, 8);
        } else {
            put_big(to, once_in(8) ? below(9) : content + 8, 4);
            put(to, name, 4);
        }
        if (kind == 1 || kind == 2) {
            put_byte(to, once_in(3) ? 0x80 : 0);
            put_random(to, 3);
            content = content > 4 ? content - 4 : 0;
        }
        if (streamed == 0 && kind <= 2) {
            put_stream(to, content);
            streamed += content;
        } else {
            put_random(to, content);
        }
    }
}

static void put_word(struct input *to)
{
    static const char *const words[] = {"1", "12", "+7", "007", "-3", "18446744073709551615", "18446744073709551616", "#", "#a", "x",
                                        "\x0b", "\xc2\xa0", "\xe2\x80\x83", "\xff", "\xc0\x80", "\xed\xa0\x80", "+", "65535", "9\x0b", "#\xff"};
    static const char ends[] = " \t\n\f\r\n ";
    if (once_in(80)) {
        PUT(to, "#");
        put_times(to, 'c', 1000 + below(60));
        PUT(to, "\n");
    }
    if (once_in(80)) {
        put_times(to, '1', 1000 + below(60));
    }
    if (once_in(6)) {
        put_byte(to, (uint8_t)ends[below(7)]);
    }
    const char *word = one_of(words, 20);
    put(to, word, strlen(word));
    put_byte(to, (uint8_t)ends[below(7)]);
}

static void put_pnm(struct input *to)
{
    put_byte(to, 'P');
    put_byte(to, '1' + below(6));
    put_byte(to, once_in(8) ? next() : '\n');
    for (uint64_t left = 2 + below(10); left-- > 0;) {
        put_word(to);
    }
    put_random(to, once_in(3) ? 0 : 12);
}

static void put_hdr(struct input *to)
{
    static const char *const lines[] = {"FORMAT=32-bit_rle_rgbe", "", "# a", "EXPOSURE=1", "\xff", "-Y", "- Y 1 +X 2"};
    put(to, once_in(2) ? "#?RADIANCE\n" : "#?RGBE\n", 11);
    to->length = to->bytes[6] == '\n' ? 7 : 11;
    for (uint64_t left = below(6); left-- > 0;) {
        const char *line = one_of(lines, 7);
        put(to, line, strlen(line));
        put_times(to, 'a', once_in(60) ? 230 + below(40) : 0);
        put_byte(to, '\n');
    }
    static const char *const axes[] = {"-Y ", "+Y ", "-X ", "+X ", " -Y "};
    put(to, one_of(axes, 5), 3);
    put_word(to);
    to->length--;
    put(to, once_in(8) ? "\xc2\xa0" : " +X ", once_in(12) ? 2 : 4);
    put_word(to);
}

static void put_exr(struct input *to)
{
    static const char *const names[] = {"dataWindow", "channels", "displayWindow", "lineOrder", "\xff"}, *const types[] = {"box2i", "chlist", "int", ""};
    PUT(to, "\x76\x2f\x31\x01");
    put_little(to, once_in(2) ? 2 : 0x402, 4);
    for (uint64_t left = below(6); left-- > 0;) {
        const char *name = one_of(names, 5), *type = one_of(types, 4);
        put(to, name, strlen(name));
        put_times(to, 'n', once_in(30) ? 20 + below(240) : 0);
        put_byte(to, 0);
        put(to, type, strlen(type));
        put_byte(to, 0);
        uint64_t length = once_in(2) ? 16 : below(20);
        put_little(to, once_in(12) ? edge() : length, 4);
        if (length == 16) {
            for (int side = 0; side < 4; side++) {
                put_little(to, once_in(2) ? 7 : edge() + (side > 1 ? 40 : 0), 4);
            }
        } else {
            put_random(to, length);
        }
    }
    put_byte(to, 0);
}

static void put_anything(struct input *to)
{
    put_random(to, below(64));
}

static void (*const grammars[])(struct input *) = {
    put_fixed, put_pkm, put_pvr, put_dds, put_webp, put_tga, put_jpeg, put_jpeg, put_ilbm,    put_ico, put_tiff, put_tiff,
    put_heif,  put_heif, put_jxl, put_jxl,  put_pnm, put_pnm,  put_hdr,  put_exr, put_anything,
};

/* Changes an input at one offset. */
static void mutate(struct input *to)
{
    size_t at = to->length ? below(to->length) : 0;
    switch (below(7)) {
    case 0:
        to->length = at;
        break;
    case 1:
        put_random(to, below(24));
        break;
    case 2:
        if (to->length > at) {
            memmove(to->bytes + at, to->bytes + at + 1, to->length - at - 1);
            to->length--;
        }
        break;
    case 3:
        for (size_t width = UINT64_C(1) << below(4), number = edge(); width-- > 0 && at < to->length; number >>= 8) {
            to->bytes[at++] = (uint8_t)number;
        }
        break;
    case 4:
        if (sample_count) {
            const struct sample *other = &samples[below(sample_count)];
            to->length = at;
            put(to, (const char *)other->bytes, other->length);
        }
        break;
    default:
        if (to->length > at) {
            to->bytes[at] = (uint8_t)(once_in(2) ? to->bytes[at] ^ UINT64_C(1) << below(8) : edge());
        }
    }
}

static struct answer probe(const uint8_t *bytes, size_t length)
{
    struct answer found = {0};
    counted[PROBES]++;
    found.status = imagesize_probe(bytes, length, &found.type, &found.compression, &found.width, &found.height);
    return found;
}

static bool same(struct answer a, struct answer b)
{
    return a.status == b.status && a.type == b.type && a.compression == b.compression && a.width == b.width && a.height == b.height;
}

static bool calls_agree(const struct input *of, struct answer whole)
{
    struct answer found = {0};
    counted[CALLS]++;
    counted[PROBES] += 2;
    found.status = imagesize_size(of->bytes, of->length, &found.width, &found.height);
    uint32_t status = imagesize_type(of->bytes, of->length, &found.type, &found.compression);
    return same(whole, found) && (status == IMAGESIZE_ANSWERED) == (whole.type != 0);
}

static size_t spans_of(const struct input *of, imagesize_span *spans)
{
    size_t count = 0;
    counted[PROBES]++;
    imagesize_spans(of->bytes, of->length, spans, SPANS, &count);
    return count < SPANS ? count : SPANS;
}

/* Whether a span has a byte and lies within an input of this length. */
static bool within(imagesize_span span, uint64_t total)
{
    return span.len > 0 && span.start < total && span.len <= total - span.start;
}

static bool spans_fit(const struct input *of, const imagesize_span *spans, size_t count)
{
    uint64_t total = 0;
    for (size_t at = 0; at < count; at++) {
        if (!within(spans[at], of->length)) {
            return false;
        }
        total += spans[at].len;
    }
    return total <= of->length + 64;
}

static bool is_local(const struct input *of, struct answer whole, const imagesize_span *spans, size_t count)
{
    static imagesize_span others[SPANS];
    static struct input other;
    counted[LOCAL]++;
    other.length = of->length;
    for (size_t at = 0; at < of->length; at++) {
        uint8_t change = (uint8_t)(next() >> 32);
        other.bytes[at] = (uint8_t)(of->bytes[at] ^ (change ? change : 1));
    }
    for (size_t at = 0; at < count; at++) {
        memcpy(other.bytes + spans[at].start, of->bytes + spans[at].start, spans[at].len);
    }
    return same(whole, probe(other.bytes, other.length)) && spans_of(&other, others) == count
        && memcmp(spans, others, count * sizeof *spans) == 0;
}

/* The types whose size appended bytes may change. */
static bool may_change(uint32_t type)
{
    return type == IMAGESIZE_HEIF || type == IMAGESIZE_ICO || type == IMAGESIZE_TGA;
}

/* Whether a prefix may have this result, if the whole input has that one. */
static bool lasts(struct answer front, struct answer whole)
{
    switch (front.status) {
    case IMAGESIZE_ANSWERED:
        return may_change(front.type)
            || (whole.status == front.status && whole.type == front.type && whole.width == front.width && whole.height == front.height);
    case IMAGESIZE_END_OF_INPUT:
    case IMAGESIZE_NOT_SUPPORTED:
        return true;
    case IMAGESIZE_INVALID_IFD_VALUE_LENGTH:
    case IMAGESIZE_NOT_ENOUGH_DATA:
        return whole.type == front.type;
    case IMAGESIZE_CORRUPTED_IMAGE:
        return whole.type == front.type && (front.type == IMAGESIZE_JXL || whole.status == front.status);
    default:
        return whole.type == front.type && whole.status == front.status;
    }
}

static bool lasts_with_more(const struct input *of, struct answer whole)
{
    static struct input longer;
    counted[APPENDED]++;
    longer.length = of->length;
    memcpy(longer.bytes, of->bytes, of->length);
    for (uint64_t more = 1 + below(40); more-- > 0 && longer.length < ROOM;) {
        longer.bytes[longer.length++] = (uint8_t)(next() >> 32);
    }
    return lasts(whole, probe(longer.bytes, longer.length));
}

static bool front_lasts(const struct input *of, struct answer whole, size_t length)
{
    counted[FRONT]++;
    return lasts(probe(of->bytes, length), whole);
}

/* The known parts of an input. */
static struct parts {
    uint8_t bytes[2 * ROOM];
    imagesize_span spans[PARTS];
    size_t length, count;
} known;

/* Adds a part, or lengthens the last one. */
static bool add_part(const struct input *of, imagesize_span part)
{
    if (known.count == PARTS || part.len > sizeof known.bytes - known.length) {
        return false;
    }
    memcpy(known.bytes + known.length, of->bytes + part.start, part.len);
    known.length += part.len;
    imagesize_span *last = known.count ? &known.spans[known.count - 1] : NULL;
    if (last && last->start + last->len == part.start) {
        last->len += part.len;
    } else {
        known.spans[known.count++] = part;
    }
    return true;
}

/* Each number before a call that may write it. */
#define UNWRITTEN UINT32_C(0xFEFEFEFE)
static const struct answer unwritten = {0, UNWRITTEN, UNWRITTEN, UNWRITTEN, UNWRITTEN};

/* The result of a call. Numbers that it did not write are 0. If it wrote too much, the status is STATUSES. */
static struct answer as_written(struct answer found)
{
    bool is_wanted = found.status == IMAGESIZE_BYTES_WANTED, is_typed = found.type != UNWRITTEN, is_sized = found.status == IMAGESIZE_ANSWERED;
    if ((is_wanted && is_typed) || (found.compression != UNWRITTEN) != is_typed || (found.width != UNWRITTEN) != is_sized
        || (found.height != UNWRITTEN) != is_sized) {
        return (struct answer){.status = STATUSES};
    }
    return (struct answer){found.status, is_typed ? found.type : 0, is_typed ? found.compression : 0, is_sized ? found.width : 0,
                           is_sized ? found.height : 0};
}

/* The result over the known parts. If the call wrote a span that is not needed, the status is STATUSES. */
static struct answer probe_known(uint64_t total, imagesize_span *wanted)
{
    struct answer found = unwritten;
    const imagesize_span before = *wanted;
    counted[PROBES]++;
    found.status = imagesize_parts_probe(known.bytes, known.length, known.spans, known.count, total, &found.type, &found.compression,
                                         &found.width, &found.height, wanted);
    bool is_kept = wanted->start == before.start && wanted->len == before.len;
    return found.status == IMAGESIZE_BYTES_WANTED || is_kept ? as_written(found) : (struct answer){.status = STATUSES};
}

/* Fetching each requested span gives the result of the whole input: with up to `around` bytes on each side, or at most `most` bytes
 * at a time. One of both limits is always off: with both, `most` could cut off the requested bytes. */
static bool by_parts(const struct input *of, struct answer whole, uint64_t around, uint64_t most)
{
    counted[BY_PARTS]++;
    known.length = known.count = 0;
    for (uint64_t more = once_in(2) ? 0 : below(4); more-- > 0 && of->length;) {
        uint64_t start = below(of->length);
        add_part(of, (imagesize_span){start, 1 + below(of->length - start)});
    }
    for (;;) {
        imagesize_span wanted = {0, 0};
        struct answer found = probe_known(of->length, &wanted);
        if (found.status != IMAGESIZE_BYTES_WANTED) {
            return same(whole, found);
        }
        if (!within(wanted, of->length)) {
            return false;
        }
        uint64_t before = wanted.start < around ? wanted.start : around, behind = of->length - wanted.start - wanted.len;
        wanted.start -= before;
        wanted.len += before + (behind < around ? behind : around);
        wanted.len = wanted.len < most ? wanted.len : most;
        if (!add_part(of, wanted)) {
            return true;
        }
    }
}

/* All bytes are known but one. If the result depends on that byte, the call requests it; otherwise the call returns the result. */
static bool without(const struct input *of, struct answer whole, uint64_t place, bool rests_on)
{
    imagesize_span wanted = {0, 0};
    counted[MISSING]++;
    known.length = known.count = 0;
    if (place > 0) {
        add_part(of, (imagesize_span){0, place});
    }
    if (place + 1 < of->length) {
        add_part(of, (imagesize_span){place + 1, of->length - place - 1});
    }
    struct answer found = probe_known(of->length, &wanted);
    return rests_on ? found.status == IMAGESIZE_BYTES_WANTED && wanted.start == place && within(wanted, of->length) : same(whole, found);
}

static bool rests_on(const imagesize_span *spans, size_t count, uint64_t place)
{
    for (size_t at = 0; at < count; at++) {
        if (place >= spans[at].start && place - spans[at].start < spans[at].len) {
            return true;
        }
    }
    return false;
}

static bool without_any(const struct input *of, struct answer whole, const imagesize_span *spans, size_t count)
{
    if (of->length == 0) {
        return true;
    }
    uint64_t place = below(of->length);
    if (count && once_in(2)) {
        const imagesize_span *span = &spans[below(count)];
        place = span->start + below(span->len);
    }
    return without(of, whole, place, rests_on(spans, count, place));
}

/* The result of a probe over spans. If the call wrote a span that is not needed, the status is STATUSES. */
static struct answer asked(const imagesize_rounds *parts, imagesize_span *wanted)
{
    struct answer found = unwritten;
    const imagesize_span before = *wanted;
    counted[PROBES]++;
    found.status = imagesize_rounds_answer(parts, &found.type, &found.compression, &found.width, &found.height, wanted);
    bool is_kept = wanted->start == before.start && wanted->len == before.len;
    return found.status == IMAGESIZE_BYTES_WANTED || is_kept ? as_written(found) : (struct answer){.status = STATUSES};
}

/* Passing each requested span gives the result of the whole input: with up to `around` bytes on each side, or at most `most` bytes at a
 * time, as for the parts. Bytes after a gap change nothing. Each span begins after the last one, and no later than the bytes that the
 * result depends on end. */
static bool by_rounds(const struct input *of, struct answer whole, uint64_t around, uint64_t most, uint64_t last)
{
    imagesize_rounds parts;
    imagesize_span wanted = {0, 0};
    uint64_t next = 0;
    counted[ROUNDS]++;
    imagesize_rounds_new(&parts, of->length);
    for (;;) {
        struct answer found = asked(&parts, &wanted);
        if (found.status != IMAGESIZE_BYTES_WANTED) {
            imagesize_rounds_supply(&parts, 0, of->bytes, of->length);
            return same(whole, found) && same(whole, asked(&parts, &wanted));
        }
        if (!within(wanted, of->length) || wanted.start < next || wanted.start >= last) {
            return false;
        }
        next = wanted.start + 1;
        if (once_in(4)) {
            imagesize_rounds_supply(&parts, next, of->bytes + next, of->length - next);
        }
        uint64_t before = wanted.start < around ? wanted.start : around, behind = of->length - wanted.start - wanted.len;
        wanted.start -= before;
        wanted.len += before + (behind < around ? behind : around);
        wanted.len = wanted.len < most ? wanted.len : most;
        imagesize_rounds_supply(&parts, wanted.start, of->bytes + wanted.start, wanted.len);
    }
}

/* The end of the last byte that a result depends on. */
static uint64_t end_of(const imagesize_span *spans, size_t count)
{
    uint64_t last = 0;
    for (size_t at = 0; at < count; at++) {
        uint64_t end = spans[at].start + spans[at].len;
        last = end > last ? end : last;
    }
    return last;
}

static struct answer pushed(imagesize_stream *stream, const uint8_t *bytes, size_t length)
{
    struct answer found = unwritten;
    counted[PROBES]++;
    found.status = imagesize_stream_push(stream, bytes, length, &found.type, &found.compression, &found.width, &found.height);
    return as_written(found);
}

static struct answer finished(imagesize_stream *stream)
{
    struct answer found = unwritten;
    counted[PROBES]++;
    found.status = imagesize_stream_finish(stream, &found.type, &found.compression, &found.width, &found.height);
    return as_written(found);
}

/* Pushes the first bytes of an input in pieces of at most `most` bytes; some are empty. Each result is `result`, and one comes as soon as
 * `last` bytes were pushed. */
static bool streamed(const struct input *of, size_t length, uint64_t total, size_t most, struct answer result, uint64_t last)
{
    imagesize_stream stream;
    size_t at = 0;
    bool is_known = false;
    imagesize_stream_new(&stream, total);
    do {
        size_t left = length - at < most ? length - at : most, piece = left == 0 || once_in(16) ? 0 : 1 + below(left);
        struct answer found = pushed(&stream, of->bytes + at, piece);
        at += piece;
        if (found.status == IMAGESIZE_BYTES_WANTED ? is_known || at >= last : !same(result, found)) {
            return false;
        }
        is_known = found.status != IMAGESIZE_BYTES_WANTED;
    } while (at < length);
    return same(result, finished(&stream));
}

/* The most bytes of a piece: all, one, or any number. */
static size_t some_piece(size_t length)
{
    return length == 0 || once_in(32) ? 1 : once_in(4) ? 1 + below(length) : length;
}

/* A whole input in pieces, with its length known or not. */
static bool by_stream(const struct input *of, struct answer whole, const imagesize_span *spans, size_t count)
{
    size_t most = some_piece(of->length);
    counted[STREAM]++;
    if (once_in(2)) {
        uint64_t unknown = once_in(2) ? IMAGESIZE_LENGTH_UNKNOWN : (UINT64_C(1) << 63) + of->length;
        return streamed(of, of->length, unknown, most, whole, UINT64_MAX);
    }
    return streamed(of, of->length, of->length, most, whole, end_of(spans, count));
}

/* A stream that ends after some bytes, or whose length is so many. */
static bool stream_ends(const struct input *of, size_t length)
{
    size_t most = some_piece(length);
    struct answer front = probe(of->bytes, length);
    counted[ENDED]++;
    if (once_in(3)) {
        return streamed(of, of->length, length, most, front, length);
    }
    return streamed(of, length, once_in(2) ? of->length : IMAGESIZE_LENGTH_UNKNOWN, most, front, UINT64_MAX);
}

/* A stream that ends after each of the first bytes, up to the one that has the result. Each time a copy of the state ends, and the
 * stream goes on. */
static bool stream_ends_anywhere(const struct input *of, uint64_t total)
{
    imagesize_stream stream;
    struct answer found = {.status = IMAGESIZE_BYTES_WANTED};
    size_t most = of->length < MOST ? of->length : MOST;
    imagesize_stream_new(&stream, total);
    for (size_t length = 0; length < most && found.status == IMAGESIZE_BYTES_WANTED; length++) {
        imagesize_stream copy = stream;
        counted[ENDED]++;
        if (!same(probe(of->bytes, length), finished(&copy))) {
            return false;
        }
        found = pushed(&stream, of->bytes + length, 1);
    }
    return true;
}

/* The size as this type over the known parts. The compression does not matter. */
static struct answer size_known(uint32_t type, uint64_t total, imagesize_span *wanted)
{
    struct answer found = {0};
    for (uint32_t compression = 0; compression < 2; compression++) {
        counted[PROBES]++;
        found.status = imagesize_parts_size(type, compression, known.bytes, known.length, known.spans, known.count, total, &found.width,
                                            &found.height, wanted);
        if (found.status != IMAGESIZE_UNKNOWN_TYPE) {
            break;
        }
    }
    return found;
}

/* The size of a whole input, read as this type. */
static struct answer size_as(const struct input *of, uint32_t type)
{
    imagesize_span wanted = {0, 0};
    known.length = known.count = 0;
    if (of->length) {
        add_part(of, (imagesize_span){0, of->length});
    }
    return size_known(type, of->length, &wanted);
}

/* The size read as a type: parts give that of the whole input, and as its own type it is the size of the input. */
static bool is_typed(const struct input *of, struct answer whole, uint32_t type)
{
    struct answer sized = size_as(of, type);
    counted[TYPED]++;
    if (type == whole.type && !(sized.status == whole.status && sized.width == whole.width && sized.height == whole.height)) {
        return false;
    }
    known.length = known.count = 0;
    for (;;) {
        imagesize_span wanted = {0, 0};
        struct answer found = size_known(type, of->length, &wanted);
        if (found.status != IMAGESIZE_BYTES_WANTED) {
            return same(sized, found);
        }
        if (!within(wanted, of->length)) {
            return false;
        }
        if (!add_part(of, wanted)) {
            return true;
        }
    }
}

/* A file in memory: the number of reads, the read that fails, its errno, and whether each read is cut short. */
static struct memory {
    const struct input *of;
    size_t reads, failing;
    int failure;
    bool cut, beyond;
} memory;

/* Reads like pread. A read that fails without an errno is the end of the file. */
static ssize_t read_memory(int file, void *bytes, size_t length, off_t offset)
{
    uint64_t at = (uint64_t)offset, total = memory.of->length;
    memory.beyond |= file != 7 || length == 0 || at >= total || length > total - at || memory.reads > 2 * total;
    if (memory.beyond || ++memory.reads == memory.failing) {
        errno = memory.failure ? memory.failure : ERANGE;
        return memory.failure ? -1 : 0;
    }
    if (memory.cut && once_in(4)) {
        memory.reads--;
        errno = EINTR;
        return -1;
    }
    length = memory.cut ? 1 + below(length) : length;
    memcpy(bytes, memory.of->bytes + at, length);
    return (ssize_t)length;
}

/* The result of imagesize_file.h over a file. If a read lies past the end, or there are too many, the status is STATUSES. */
static struct answer probe_file(const struct input *of, size_t failing, int failure, bool cut)
{
    int file = 7;
    imagesize_image image = {1, 2, 3, 4};
    memory = (struct memory){of, 0, failing, failure, cut, false};
    uint32_t status = imagesize_reader_probe(&file, imagesize_fd_read, of->length, &image);
    return (struct answer){memory.beyond ? STATUSES : status, image.type, image.compression, image.width, image.height};
}

/* The result that imagesize_file.h should find: PNG is tried first. */
static struct answer with_png(const struct input *of, struct answer whole)
{
    struct answer png = {.type = IMAGESIZE_PNG};
    uint32_t begins = 0;
    imagesize_png_matches(of->bytes, of->length, &begins);
    if (!begins) {
        return whole;
    }
    png.status = imagesize_png_size(of->bytes, of->length, &png.width, &png.height);
    return png;
}

/* The name of a law of files that an input breaks, or NULL. With `all` each read fails in turn, and otherwise one of them. */
static const char *broken_reads(const struct input *of, struct answer whole, bool all)
{
    const struct answer fault = {.status = IMAGESIZE_FAULT};
    whole = with_png(of, whole);
    counted[READ]++;
    counted[CUT]++;
    if (!same(whole, probe_file(of, 0, 0, false))) {
        return "read";
    }
    size_t reads = memory.reads;
    if (!same(whole, probe_file(of, 0, 0, true))) {
        return "cut";
    }
    size_t first = all || reads == 0 ? 1 : 1 + below(reads), last = all ? reads : reads ? first : 0;
    for (size_t failing = first; failing <= last; failing++) {
        int failure = once_in(2) ? EIO : 0;
        counted[FAILING]++;
        if (!same(fault, probe_file(of, failing, failure, false)) || memory.reads != failing || errno != failure) {
            return "failing";
        }
    }
    return NULL;
}

static void print_hex(const struct input *of)
{
    for (size_t at = 0; at < of->length; at++) {
        printf("%02x", of->bytes[at]);
    }
    printf(of->length ? "" : "-");
}

static void print_sample(const struct input *of, struct answer whole, const imagesize_span *spans, size_t count)
{
    print_hex(of);
    printf("\t%u\t%u\t%u\t%llu\t%llu\t", whole.status, whole.type, whole.compression, (unsigned long long)whole.width,
           (unsigned long long)whole.height);
    for (size_t at = 0; at < count; at++) {
        printf("%s%llu+%llu", at ? " " : "", (unsigned long long)spans[at].start, (unsigned long long)spans[at].len);
    }
    printf("\n");
    uint32_t type = 1 + (uint32_t)below(TYPES - 1);
    struct answer sized = size_as(of, type);
    printf("AS\t%u\t%u\t%llu\t%llu\t", type, sized.status, (unsigned long long)sized.width, (unsigned long long)sized.height);
    print_hex(of);
    printf("\n");
}

static void count_result(struct answer whole)
{
    if (whole.type < TYPES && whole.status < STATUSES) {
        results[whole.type][whole.status]++;
    }
}

/* The name of a law that an input breaks, or NULL. */
static const char *broken(const struct input *of, bool sample)
{
    static imagesize_span spans[SPANS];
    struct answer whole = probe(of->bytes, of->length);
    size_t count = spans_of(of, spans);
    count_result(whole);
    if (sample) {
        print_sample(of, whole, spans, count);
    }
    const char *law = broken_reads(of, whole, false);
    return law                                                                                  ? law
        : !is_typed(of, whole, whole.type && once_in(2) ? whole.type : 1 + (uint32_t)below(TYPES - 1)) ? "typed"
        : !calls_agree(of, whole)                                                               ? "calls"
        : !spans_fit(of, spans, count)                                                          ? "spans"
        : !is_local(of, whole, spans, count)                                                    ? "local"
        : !lasts_with_more(of, whole)                                                           ? "appended"
        : !front_lasts(of, whole, of->length ? below(of->length) : 0)                           ? "front"
        : !(once_in(3) ? by_parts(of, whole, 0, 1 + below(9)) : by_parts(of, whole, below(40), ROOM)) ? "parts"
        : !without_any(of, whole, spans, count)                                                 ? "missing"
        : !(once_in(3) ? by_rounds(of, whole, 0, 1 + below(9), end_of(spans, count))
                       : by_rounds(of, whole, below(40), ROOM, end_of(spans, count)))           ? "rounds"
        : !by_stream(of, whole, spans, count)                                                   ? "stream"
        : !stream_ends(of, of->length ? below(of->length) : 0)                                  ? "ended"
                                                                                                : NULL;
}

/* The name of a law that a whole file breaks, or NULL: with each prefix, each read that fails, and each missing byte that the result
 * depends on or that is next to one. */
static const char *broken_file(const struct input *of)
{
    static imagesize_span spans[SPANS];
    struct answer whole = probe(of->bytes, of->length);
    size_t count = spans_of(of, spans);
    const char *law = broken(of, false);
    for (size_t length = 0; !law && length < of->length; length++) {
        law = front_lasts(of, whole, length) ? NULL : "front";
    }
    law = law ? law : by_parts(of, whole, 0, 1) ? NULL : "parts";
    bool ends = law || (stream_ends_anywhere(of, of->length) && stream_ends_anywhere(of, IMAGESIZE_LENGTH_UNKNOWN));
    law = law ? law : ends ? NULL : "ended";
    law = law ? law : broken_reads(of, whole, true);
    for (size_t at = 0; at < count; at++) {
        for (uint64_t place = spans[at].start ? spans[at].start - 1 : 0; !law && place <= spans[at].start + spans[at].len; place++) {
            law = place >= of->length || without(of, whole, place, rests_on(spans, count, place)) ? NULL : "missing";
        }
    }
    return law;
}

/* Reads an input from hex. */
static void read_hex(struct input *to, const char *line)
{
    static const char digits[] = "0123456789abcdef";
    to->length = 0;
    for (const char *high, *low; line[0] && line[1] && to->length < ROOM; line += 2) {
        high = strchr(digits, line[0]);
        low = strchr(digits, line[1]);
        if (!high || !low) {
            return;
        }
        to->bytes[to->length++] = (uint8_t)((high - digits) << 4 | (low - digits));
    }
}

static bool read_samples(const char *name)
{
    static struct input read;
    static char line[2 * MOST + 8];
    FILE *file = fopen(name, "r");
    while (file && sample_count < SAMPLES && fgets(line, sizeof line, file)) {
        read_hex(&read, line);
        struct sample *to = &samples[sample_count++];
        to->length = read.length;
        to->bytes = malloc(read.length + 1);
        if (!to->bytes) {
            return false;
        }
        memcpy(to->bytes, read.bytes, read.length);
    }
    return file && fclose(file) == 0;
}

static unsigned long long every;

/* Checks an input. A broken law ends the program. */
static void check(const struct input *of)
{
    const char *law = broken(of, counted[INPUTS]++ % every == 0);
    if (law) {
        printf("LAW\t%s\t", law);
        print_hex(of);
        printf("\n");
        exit(1);
    }
}

/* Each sample, each of its prefixes, and each change of one byte of a small sample. The processes share them. */
static void check_samples(size_t part, size_t parts)
{
    static struct input made;
    for (size_t index = part; index < sample_count; index += parts) {
        const struct sample *of = &samples[index];
        for (size_t length = 0; length <= of->length; length++) {
            set(&made, of);
            made.length = length;
            counted[length == of->length ? VECTORS : FRONTS_OF_SAMPLES]++;
            check(&made);
        }
        for (size_t at = 0; of->length <= SMALL && at < 256 * of->length; at++) {
            set(&made, of);
            made.bytes[at / 256] = (uint8_t)at;
            counted[CHANGES_OF_ONE]++;
            check(&made);
        }
    }
}

/* The number of changes of two neighbouring bytes of the smallest samples. */
static uint64_t pairs_of(const struct sample *of)
{
    return of->length <= SMALLEST && of->length > 1 ? (of->length - 1) << 16 : 0;
}

static uint64_t all_pairs(void)
{
    uint64_t pairs = 0;
    for (size_t index = 0; index < sample_count; index++) {
        pairs += pairs_of(&samples[index]);
    }
    return pairs;
}

/* A change of two bytes, by its number. The numbers are visited by a large step, each of them once. */
static void set_pair(struct input *to, uint64_t number)
{
    size_t index = 0;
    while (number >= pairs_of(&samples[index])) {
        number -= pairs_of(&samples[index++]);
    }
    set(to, &samples[index]);
    to->bytes[number >> 16] = (uint8_t)(number >> 8);
    to->bytes[(number >> 16) + 1] = (uint8_t)number;
}

static void make(struct input *to)
{
    to->length = 0;
    if (sample_count && once_in(3)) {
        set(to, &samples[below(sample_count)]);
        mutate(to);
    } else {
        grammars[below(sizeof grammars / sizeof *grammars)](to);
    }
    while (once_in(3)) {
        mutate(to);
    }
}

/* Generated inputs, for this many seconds. One of four is a change of two bytes, until all of these were made. */
static void check_made(time_t end, size_t part, size_t parts)
{
    static struct input made;
    const uint64_t step = 2654435761, pairs = all_pairs();
    for (uint64_t at = part, round = 0; round % 1024 || time(NULL) < end; round++) {
        if (round % 4 == 0 && at < pairs) {
            set_pair(&made, at * step % pairs);
            at += parts;
            counted[CHANGES_OF_TWO]++;
        } else {
            make(&made);
        }
        check(&made);
    }
}

static void print_done(void)
{
    printf("DONE");
    for (int at = 0; at < COUNTERS; at++) {
        printf("\t%s=%llu", counter_names[at], counted[at]);
    }
    printf("\tpairs=%llu", (unsigned long long)all_pairs());
    for (int type = 0; type < TYPES; type++) {
        for (int status = 0; status < STATUSES; status++) {
            if (results[type][status]) {
                printf("\t%d:%d=%llu", type, status, results[type][status]);
            }
        }
    }
    printf("\n");
}

static int check_files(int count, char **names)
{
    static struct input read;
    for (int at = 0; at < count; at++) {
        FILE *file = fopen(names[at], "rb");
        read.length = file ? fread(read.bytes, 1, ROOM, file) : 0;
        if (!file || fclose(file)) {
            return 2;
        }
        const char *law = broken_file(&read);
        counted[INPUTS]++;
        if (law) {
            printf("LAW\t%s\t", law);
            print_hex(&read);
            printf("\n");
            return 1;
        }
    }
    print_done();
    return 0;
}

static int check_lines(void)
{
    static struct input read;
    static char line[2 * ROOM + 8];
    while (fgets(line, sizeof line, stdin)) {
        const char *law = NULL;
        read_hex(&read, line);
        state = read.length;
        for (int times = 0; !law && times < 64; times++) {
            law = broken(&read, false);
        }
        puts(law ? law : "-");
        fflush(stdout);
    }
    return 0;
}

int main(int argc, char **argv)
{
    if (argc == 8 && !strcmp(argv[1], "made") && read_samples(argv[2])) {
        state = strtoull(argv[3], NULL, 10);
        time_t end = time(NULL) + atoi(argv[4]);
        every = strtoull(argv[5], NULL, 10);
        check_samples(strtoul(argv[6], NULL, 10), strtoul(argv[7], NULL, 10));
        check_made(end, strtoul(argv[6], NULL, 10), strtoul(argv[7], NULL, 10));
        print_done();
        return 0;
    }
    if (argc > 2 && !strcmp(argv[1], "files")) {
        return check_files(argc - 2, argv + 2);
    }
    if (argc == 2 && !strcmp(argv[1], "check")) {
        return check_lines();
    }
    fprintf(stderr, "usage: differential made SAMPLES SEED SECONDS EVERY PART PARTS, or files FILE.., or check\n");
    return 2;
}
