/*
 * Measures how much stack the calls take: they run in a thread whose stack was filled with a number before.
 *
 *     stack FILE EVERY
 *
 * It makes each call of results.c over the inputs of FILE. The status is 1 if one takes more than 192 KiB.
 */
#define _POSIX_C_SOURCE 200809L
#include <pthread.h>

#define main results_main
#include "results.c"
#undef main

enum { STACK = 1 << 20, MOST = 192 << 10, UNTOUCHED = 0xA5 };

static char **given;

static void *all(void *unused)
{
    (void)unused;
    return results_main(3, given) == 0 ? given : NULL;
}

static void *nothing(void *unused)
{
    printf("nothing\n");
    return unused;
}

/* The bytes of a thread's stack that it touched. */
static size_t touched(void *(*work)(void *), uint8_t *stack)
{
    pthread_attr_t attributes;
    pthread_t thread;
    void *well = NULL;
    size_t at = 0;
    memset(stack, UNTOUCHED, STACK);
    if (pthread_attr_init(&attributes) != 0 || pthread_attr_setstack(&attributes, stack, STACK) != 0
        || pthread_create(&thread, &attributes, work, given) != 0 || pthread_join(thread, &well) != 0 || well == NULL) {
        exit(2);
    }
    while (at < STACK && stack[at] == UNTOUCHED) {
        at++;
    }
    return STACK - at;
}

int main(int count, char **words)
{
    static _Alignas(65536) uint8_t stack[STACK];
    if (count != 3) {
        fprintf(stderr, "usage: stack FILE EVERY\n");
        return 2;
    }
    given = words;
    size_t without = touched(nothing, stack), with = touched(all, stack);
    printf("stack of a call: at most %zu bytes, besides %zu of the thread\n", with - without, without);
    return with - without > MOST;
}
