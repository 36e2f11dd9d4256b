
/*
 * The calls of imagesize.h. Each is the module's call of the same name: it gets the addresses of the caller's buffers, and of a frame
 * for its results, which are copied to the caller's variables where the module wrote them.
 */

/* The frame above the module's stack, for its results. Its size is a multiple of 16. */
#define FRAME (TOP - 64)
#define TYPE FRAME
#define COMPRESSION (FRAME + 4)
#define WIDTH (FRAME + 8)
#define HEIGHT (FRAME + 16)
#define WANTED (FRAME + 24)
#define COUNT (FRAME + 40)

#if IMAGESIZE_STREAM_SIZE != IMAGESIZE_ROUNDS_SIZE
#error "both states have the same size"
#endif

/* The status of a call that returns none is lost, so its state is filled with this byte. A call over such a state is trapped too. */
#define SPOILED 0xEE

/* The address of such a state, and of one that the call does not write. */
#define STATE ITEMS
#define READ_STATE ITEMS

typedef Z_imagesize_instance_t instance;

/* From how many offsets of a buffer on there are 16 bytes. */
static u64 inner_of(u64 size)
{
    return size > 15 ? size - 15 : 0;
}

/* Begins a call over some bytes. */
static void begin(instance *in, const uint8_t *bytes, size_t length)
{
    in->w2c_g0 = FRAME;
    SET_VARIABLES(in)
    in->w2c_memory.bytes = bytes;
    in->w2c_memory.length = length;
    in->w2c_memory.inner = inner_of(length);
    in->w2c_memory.items = NULL;
    in->w2c_memory.size = 0;
    in->w2c_memory.written_items = NULL;
    in->w2c_memory.written_size = in->w2c_memory.written_inner = 0;
    in->w2c_memory.flip = 0;
    i32_store(&in->w2c_memory, TYPE, 0);
}

/* The spans that a call reads. */
static void with_spans(instance *in, const imagesize_span *spans, size_t count)
{
    in->w2c_memory.items = (const u8 *)spans;
    in->w2c_memory.size = (u64)count * sizeof *spans;
    in->w2c_memory.flip = flip_of_host();
}

/* The buffer that a call writes. */
static void with_buffer(instance *in, void *buffer, u64 size, unsigned flip)
{
    in->w2c_memory.items = in->w2c_memory.written_items = buffer;
    in->w2c_memory.size = in->w2c_memory.written_size = size;
    in->w2c_memory.written_inner = inner_of(size);
    in->w2c_memory.flip = flip & flip_of_host();
}

/*
 * The state of a push parser or of a probe over spans, whose bytes have the same order on each machine, and the same if the call writes it.
 * A spoiled one is a trap.
 */
static void with_state(instance *in, const void *state, void *written)
{
    const u8 *of = state;
    in->w2c_memory.items = of;
    in->w2c_memory.size = IMAGESIZE_STREAM_SIZE;
    in->w2c_memory.written_items = written;
    in->w2c_memory.written_size = written != NULL ? IMAGESIZE_STREAM_SIZE : 0;
    in->w2c_memory.written_inner = inner_of(in->w2c_memory.written_size);
    for (size_t at = 0; of[at] == SPOILED; at++) {
        if (at == IMAGESIZE_STREAM_SIZE - 1) {
            trapped(&in->w2c_memory);
        }
    }
}

/* Copies a type that the module wrote. No type has the number 0. */
static void tell_type(instance *in, uint32_t *type, uint32_t *compression)
{
    uint32_t number = i32_load(&in->w2c_memory, TYPE);
    if (number != 0) {
        *type = number;
        *compression = i32_load(&in->w2c_memory, COMPRESSION);
    }
}

static void tell_size(instance *in, uint32_t status, uint64_t *width, uint64_t *height)
{
    if (status == IMAGESIZE_ANSWERED) {
        *width = i64_load(&in->w2c_memory, WIDTH);
        *height = i64_load(&in->w2c_memory, HEIGHT);
    }
}

static void tell_wanted(instance *in, uint32_t status, imagesize_span *wanted)
{
    if (status == IMAGESIZE_BYTES_WANTED) {
        wanted->start = i64_load(&in->w2c_memory, WANTED);
        wanted->len = i64_load(&in->w2c_memory, WANTED + 8);
    }
}

static void tell_count(instance *in, uint32_t status, size_t *count)
{
    if (status == IMAGESIZE_ANSWERED || status == IMAGESIZE_BUFFER_TOO_SMALL) {
        *count = (size_t)i64_load(&in->w2c_memory, COUNT);
    }
}

static void tell_number(instance *in, uint32_t status, uint32_t *number)
{
    if (status == IMAGESIZE_ANSWERED) {
        *number = i32_load(&in->w2c_memory, TYPE);
    }
}

uint32_t imagesize_type(const uint8_t *bytes, size_t length, uint32_t *type, uint32_t *compression)
{
    instance in;
    uint32_t status;
    begin(&in, bytes, length);
    if (MARK(in.w2c_memory)) {
        return IMAGESIZE_TRAPPED;
    }
    status = MODULE(imagesize_type)(&in, BYTES, length, TYPE, COMPRESSION);
    tell_type(&in, type, compression);
    return status;
}

uint32_t imagesize_size(const uint8_t *bytes, size_t length, uint64_t *width, uint64_t *height)
{
    instance in;
    uint32_t status;
    begin(&in, bytes, length);
    if (MARK(in.w2c_memory)) {
        return IMAGESIZE_TRAPPED;
    }
    status = MODULE(imagesize_size)(&in, BYTES, length, WIDTH, HEIGHT);
    tell_size(&in, status, width, height);
    return status;
}

uint32_t imagesize_probe(const uint8_t *bytes, size_t length, uint32_t *type, uint32_t *compression, uint64_t *width, uint64_t *height)
{
    instance in;
    uint32_t status;
    begin(&in, bytes, length);
    if (MARK(in.w2c_memory)) {
        return IMAGESIZE_TRAPPED;
    }
    status = MODULE(imagesize_probe)(&in, BYTES, length, TYPE, COMPRESSION, WIDTH, HEIGHT);
    tell_type(&in, type, compression);
    tell_size(&in, status, width, height);
    return status;
}

uint32_t imagesize_parts_probe(const uint8_t *bytes, size_t length, const imagesize_span *spans, size_t count, uint64_t total,
                               uint32_t *type, uint32_t *compression, uint64_t *width, uint64_t *height, imagesize_span *wanted)
{
    instance in;
    uint32_t status;
    begin(&in, bytes, length);
    with_spans(&in, spans, count);
    if (MARK(in.w2c_memory)) {
        return IMAGESIZE_TRAPPED;
    }
    status = MODULE(imagesize_parts_probe)(&in, BYTES, length, ITEMS, count, total, TYPE, COMPRESSION, WIDTH, HEIGHT, WANTED);
    tell_type(&in, type, compression);
    tell_size(&in, status, width, height);
    tell_wanted(&in, status, wanted);
    return status;
}

uint32_t imagesize_parts_type(const uint8_t *bytes, size_t length, const imagesize_span *spans, size_t count, uint64_t total,
                              uint32_t *type, uint32_t *compression, imagesize_span *wanted)
{
    instance in;
    uint32_t status;
    begin(&in, bytes, length);
    with_spans(&in, spans, count);
    if (MARK(in.w2c_memory)) {
        return IMAGESIZE_TRAPPED;
    }
    status = MODULE(imagesize_parts_type)(&in, BYTES, length, ITEMS, count, total, TYPE, COMPRESSION, WANTED);
    tell_type(&in, type, compression);
    tell_wanted(&in, status, wanted);
    return status;
}

uint32_t imagesize_parts_size(uint32_t type, uint32_t compression, const uint8_t *bytes, size_t length, const imagesize_span *spans,
                              size_t count, uint64_t total, uint64_t *width, uint64_t *height, imagesize_span *wanted)
{
    instance in;
    uint32_t status;
    begin(&in, bytes, length);
    with_spans(&in, spans, count);
    if (MARK(in.w2c_memory)) {
        return IMAGESIZE_TRAPPED;
    }
    status = MODULE(imagesize_parts_size)(&in, type, compression, BYTES, length, ITEMS, count, total, WIDTH, HEIGHT, WANTED);
    tell_size(&in, status, width, height);
    tell_wanted(&in, status, wanted);
    return status;
}

void imagesize_stream_new(imagesize_stream *stream, uint64_t total)
{
    instance in;
    begin(&in, NULL, 0);
    if (MARK(in.w2c_memory)) {
        memset(stream, SPOILED, sizeof *stream);
        return;
    }
    with_buffer(&in, stream, sizeof *stream, 0);
    MODULE(imagesize_stream_new)(&in, STATE, total);
}

uint32_t imagesize_stream_push(imagesize_stream *stream, const uint8_t *bytes, size_t length, uint32_t *type, uint32_t *compression,
                               uint64_t *width, uint64_t *height)
{
    instance in;
    uint32_t status;
    begin(&in, bytes, length);
    if (MARK(in.w2c_memory)) {
        memset(stream, SPOILED, sizeof *stream);
        return IMAGESIZE_TRAPPED;
    }
    with_state(&in, stream, stream);
    status = MODULE(imagesize_stream_push)(&in, STATE, BYTES, length, TYPE, COMPRESSION, WIDTH, HEIGHT);
    tell_type(&in, type, compression);
    tell_size(&in, status, width, height);
    return status;
}

uint32_t imagesize_stream_finish(imagesize_stream *stream, uint32_t *type, uint32_t *compression, uint64_t *width, uint64_t *height)
{
    instance in;
    uint32_t status;
    begin(&in, NULL, 0);
    if (MARK(in.w2c_memory)) {
        memset(stream, SPOILED, sizeof *stream);
        return IMAGESIZE_TRAPPED;
    }
    with_state(&in, stream, stream);
    status = MODULE(imagesize_stream_finish)(&in, STATE, TYPE, COMPRESSION, WIDTH, HEIGHT);
    tell_type(&in, type, compression);
    tell_size(&in, status, width, height);
    return status;
}

void imagesize_rounds_new(imagesize_rounds *parts, uint64_t total)
{
    instance in;
    begin(&in, NULL, 0);
    if (MARK(in.w2c_memory)) {
        memset(parts, SPOILED, sizeof *parts);
        return;
    }
    with_buffer(&in, parts, sizeof *parts, 0);
    MODULE(imagesize_rounds_new)(&in, STATE, total);
}

void imagesize_rounds_supply(imagesize_rounds *parts, uint64_t offset, const uint8_t *bytes, size_t length)
{
    instance in;
    begin(&in, bytes, length);
    if (MARK(in.w2c_memory)) {
        memset(parts, SPOILED, sizeof *parts);
        return;
    }
    with_state(&in, parts, parts);
    MODULE(imagesize_rounds_supply)(&in, STATE, offset, BYTES, length);
}

uint32_t imagesize_rounds_answer(const imagesize_rounds *parts, uint32_t *type, uint32_t *compression, uint64_t *width, uint64_t *height,
                                 imagesize_span *wanted)
{
    instance in;
    uint32_t status;
    begin(&in, NULL, 0);
    if (MARK(in.w2c_memory)) {
        return IMAGESIZE_TRAPPED;
    }
    with_state(&in, parts, NULL);
    status = MODULE(imagesize_rounds_answer)(&in, READ_STATE, TYPE, COMPRESSION, WIDTH, HEIGHT, WANTED);
    tell_type(&in, type, compression);
    tell_size(&in, status, width, height);
    tell_wanted(&in, status, wanted);
    return status;
}

uint32_t imagesize_spans(const uint8_t *bytes, size_t length, imagesize_span *spans, size_t capacity, size_t *count)
{
    instance in;
    uint32_t status;
    begin(&in, bytes, length);
    with_buffer(&in, spans, (u64)capacity * sizeof *spans, 7);
    if (MARK(in.w2c_memory)) {
        return IMAGESIZE_TRAPPED;
    }
    status = MODULE(imagesize_spans)(&in, BYTES, length, ITEMS, capacity, COUNT);
    tell_count(&in, status, count);
    return status;
}

uint32_t imagesize_png_matches(const uint8_t *bytes, size_t length, uint32_t *answer)
{
    instance in;
    uint32_t status;
    begin(&in, bytes, length);
    if (MARK(in.w2c_memory)) {
        return IMAGESIZE_TRAPPED;
    }
    status = MODULE(imagesize_png_matches)(&in, BYTES, length, TYPE);
    tell_number(&in, status, answer);
    return status;
}

uint32_t imagesize_png_size(const uint8_t *bytes, size_t length, uint64_t *width, uint64_t *height)
{
    instance in;
    uint32_t status;
    begin(&in, bytes, length);
    if (MARK(in.w2c_memory)) {
        return IMAGESIZE_TRAPPED;
    }
    status = MODULE(imagesize_png_size)(&in, BYTES, length, WIDTH, HEIGHT);
    tell_size(&in, status, width, height);
    return status;
}

uint32_t imagesize_png_parts_size(const uint8_t *bytes, size_t length, const imagesize_span *spans, size_t count, uint64_t total,
                                  uint64_t *width, uint64_t *height, imagesize_span *wanted)
{
    instance in;
    uint32_t status;
    begin(&in, bytes, length);
    with_spans(&in, spans, count);
    if (MARK(in.w2c_memory)) {
        return IMAGESIZE_TRAPPED;
    }
    status = MODULE(imagesize_png_parts_size)(&in, BYTES, length, ITEMS, count, total, WIDTH, HEIGHT, WANTED);
    tell_size(&in, status, width, height);
    tell_wanted(&in, status, wanted);
    return status;
}

#define DEFINE_TEXT(name) \
    uint32_t name(uint32_t type, uint32_t compression, char *text, size_t capacity, size_t *written) \
    { \
        instance in; \
        uint32_t status; \
        begin(&in, NULL, 0); \
        with_buffer(&in, text, capacity, 0); \
        if (MARK(in.w2c_memory)) { \
            return IMAGESIZE_TRAPPED; \
        } \
        status = MODULE(name)(&in, type, compression, ITEMS, capacity, COUNT); \
        tell_count(&in, status, written); \
        return status; \
    }

DEFINE_TEXT(imagesize_type_name)
DEFINE_TEXT(imagesize_compression_name)
DEFINE_TEXT(imagesize_container_format)

uint32_t imagesize_status_text(uint32_t status, char *text, size_t capacity, size_t *written)
{
    instance in;
    uint32_t found;
    begin(&in, NULL, 0);
    with_buffer(&in, text, capacity, 0);
    if (MARK(in.w2c_memory)) {
        return IMAGESIZE_TRAPPED;
    }
    found = MODULE(imagesize_status_text)(&in, status, ITEMS, capacity, COUNT);
    tell_count(&in, found, written);
    return found;
}

#define DEFINE_QUERY(name) \
    uint32_t name(uint32_t type, uint32_t compression, uint32_t *number) \
    { \
        instance in; \
        uint32_t status; \
        begin(&in, NULL, 0); \
        if (MARK(in.w2c_memory)) { \
            return IMAGESIZE_TRAPPED; \
        } \
        status = MODULE(name)(&in, type, compression, TYPE); \
        tell_number(&in, status, number); \
        return status; \
    }

DEFINE_QUERY(imagesize_compression_family)
DEFINE_QUERY(imagesize_is_block_compressed)
DEFINE_QUERY(imagesize_is_multi_compression_container)

/* As in imagesize_portable.h. */
uint32_t imagesize_is_portable(void);

uint32_t imagesize_is_portable(void)
{
    return 1;
}
