/* Loaded into a program before the C library, this refuses its Nth request for memory, where N
   is in the variable REFUSE, and makes the file that the variable REFUSED names. */
#include <fcntl.h>
#include <stdlib.h>
#include <unistd.h>

extern void *__libc_malloc(size_t size);
extern void *__libc_calloc(size_t count, size_t size);
extern void *__libc_realloc(void *memory, size_t size);
extern void *__libc_memalign(size_t alignment, size_t size);

static long requests;

static int is_refused(void) {
    static long nth = -1;
    if (nth < 0) {
        const char *text = getenv("REFUSE");
        nth = text ? atol(text) : 0;
    }
    if (++requests != nth)
        return 0;
    const char *name = getenv("REFUSED");
    if (name) {
        int file = open(name, O_WRONLY | O_CREAT, 0600);
        if (file >= 0)
            close(file);
    }
    return 1;
}

void *malloc(size_t size) { return is_refused() ? NULL : __libc_malloc(size); }

void *calloc(size_t count, size_t size) { return is_refused() ? NULL : __libc_calloc(count, size); }

void *realloc(void *memory, size_t size) { return is_refused() ? NULL : __libc_realloc(memory, size); }

void *aligned_alloc(size_t alignment, size_t size) { return is_refused() ? NULL : __libc_memalign(alignment, size); }
