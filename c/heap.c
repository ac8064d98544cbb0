/* The three functions by which libbatcher_ffi.a asks for memory, over malloc. A program has one of these, or its own. A
 * block is aligned as malloc aligns it, which is by 16: no more is asked for. */
#include "batcher.h"
#include <stdlib.h>

/* Where a request is refused: a place that nobody uses. */
static const max_align_t nowhere;

static struct rattle_block tried(void *at) {
    struct rattle_block answer = {at != NULL, at != NULL ? at : (void *)&nowhere};
    return answer;
}

/* malloc may answer null for no bytes, which isn't a refusal. */
struct rattle_block rattle_alloc(size_t size, size_t align) { return tried(malloc(size != 0 ? size : align)); }

struct rattle_block rattle_realloc(void *at, size_t kept, size_t size, size_t align) {
    (void)kept;
    return tried(realloc(at, size != 0 ? size : align));
}

void rattle_dealloc(void *at) { free(at); }
