/* A heap that refuses one request for memory, for programs that are linked with -Wl,--wrap=malloc,--wrap=realloc, and the
 * loop that refuses each request of a script in turn. */
#ifndef REFUSING_H
#define REFUSING_H

#include "batcher.h"
#include <stdio.h>
#include <stdlib.h>

static long granted = -1; /* how many requests are granted before one is refused; -1: all */
static int refused;

void *__real_malloc(size_t size);
void *__real_realloc(void *at, size_t size);
void *__wrap_malloc(size_t size);
void *__wrap_realloc(void *at, size_t size);

static int refuses(void) {
    if (granted > 0) granted--;
    else if (granted == 0) {
        granted = -1;
        refused++;
        return 1;
    }
    return 0;
}

void *__wrap_malloc(size_t size) { return refuses() ? NULL : __real_malloc(size); }
void *__wrap_realloc(void *at, size_t size) { return refuses() ? NULL : __real_realloc(at, size); }

/* The code of a call, which is made once more where memory was refused. */
#define AGAIN(call) ((code = (call)) == BATCHER_OUT_OF_MEMORY ? (call) : code)

/* Plays a script with its first request refused, then with its second, until none is left. It answers 0 where each play
 * succeeded, and 1 where one didn't or nothing was refused. */
static int each_refused_in_turn(const char *what, int (*play)(const void *sort), const void *sort) {
    for (int n = 0; n < 1000; n++) {
        granted = n;
        refused = 0;
        if (!play(sort)) {
            fprintf(stderr, "%s: failed at request %d\n", what, n + 1);
            return 1;
        }
        if (refused) continue;
        /* All were granted. A script that asks for nothing would have shown nothing. */
        if (n < 5) return 1;
        printf("%s: %d requests refused in turn\n", what, n);
        return 0;
    }
    return 1;
}

#endif
