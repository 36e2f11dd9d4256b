/*
 * Writes inputs for results.c: each image that is named, each sample, and inputs that tests/differential.c makes by the grammars of the
 * formats and by mutations, COUNT in all besides the images.
 *
 *     inputs SAMPLES SEED COUNT [IMAGE..] > FILE
 *
 * SAMPLES has one input a line, in hex. An input of FILE is its length in four bytes, the lowest first, and its bytes.
 */
#define main differential_main
#include "../../../tests/differential.c"
#undef main

static void write_input(const struct input *of)
{
    for (int at = 0; at < 4; at++) {
        putchar((int)(of->length >> 8 * at & 0xFF));
    }
    fwrite(of->bytes, 1, of->length, stdout);
}

int main(int argc, char **argv)
{
    static struct input made;
    if (argc < 4 || !read_samples(argv[1])) {
        fprintf(stderr, "usage: inputs SAMPLES SEED COUNT [IMAGE..]\n");
        return 2;
    }
    for (int at = 4; at < argc; at++) {
        FILE *file = fopen(argv[at], "rb");
        made.length = file ? fread(made.bytes, 1, ROOM, file) : 0;
        if (!file || fclose(file)) {
            return 2;
        }
        write_input(&made);
    }
    state = strtoull(argv[2], NULL, 10);
    for (unsigned long long at = 0, count = strtoull(argv[3], NULL, 10); at < count; at++) {
        if (at < sample_count) {
            set(&made, &samples[at]);
        } else {
            make(&made);
        }
        write_input(&made);
    }
    return fflush(stdout) || ferror(stdout) ? 2 : 0;
}
