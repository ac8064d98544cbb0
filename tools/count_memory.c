/* Loaded into a program before the C library, this counts the bytes that the program has asked for and not given
   back. After each line that the program writes to standard error it writes them, in a line of their own, with how
   often and for how many bytes it has asked so far. A block that grows or shrinks is asked for anew. */
#include <malloc.h>
#include <stdio.h>
#include <stdlib.h>
#include <string.h>
#include <sys/syscall.h>
#include <unistd.h>

extern void *__libc_malloc(size_t size);
extern void *__libc_calloc(size_t count, size_t size);
extern void *__libc_realloc(void *memory, size_t size);
extern void *__libc_memalign(size_t alignment, size_t size);
extern void __libc_free(void *memory);

/* The sizes that were asked for stand in front of the blocks: the C library knows only what it gave. */
enum { FRONT = 16 };

static long held, requests, bytes;

static void *taken(char *block, size_t size) {
    if (!block)
        return NULL;
    *(size_t *)block = size;
    held += size;
    requests += 1;
    bytes += size;
    return block + FRONT;
}

static size_t given_back(void *memory) {
    size_t size = *(size_t *)((char *)memory - FRONT);
    held -= size;
    return size;
}

void *malloc(size_t size) { return taken(__libc_malloc(size + FRONT), size); }

void *calloc(size_t count, size_t size) { return taken(__libc_calloc(1, count * size + FRONT), count * size); }

void *realloc(void *memory, size_t size) {
    if (!memory)
        return malloc(size);
    char *block = __libc_realloc((char *)memory - FRONT, size + FRONT);
    if (!block)
        return NULL;
    given_back(block + FRONT);
    return taken(block, size);
}

/* No block of the program is aligned to more than a block of malloc is. */
void *aligned_alloc(size_t alignment, size_t size) {
    if (alignment > FRONT)
        abort();
    return malloc(size);
}

void free(void *memory) {
    if (!memory)
        return;
    given_back(memory);
    __libc_free((char *)memory - FRONT);
}

ssize_t write(int file, const void *text, size_t size) {
    ssize_t written = syscall(SYS_write, file, text, size);
    if (file == 2 && size > 0 && ((const char *)text)[size - 1] == '\n') {
        char line[100];
        int length = snprintf(line, sizeof line, "holds %ld, asked %ld times for %ld\n", held, requests, bytes);
        syscall(SYS_write, 2, line, length);
    }
    return written;
}
