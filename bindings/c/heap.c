/* The heap under libraspcream: malloc, realloc and free, as the library calls them. A program that holds two static libraries
 * of Rattle links this file once. */
#include <stdbool.h>
#include <stddef.h>
#include <stdlib.h>

struct tried {
    bool ok;
    void *at;
};

static max_align_t nothing;

struct tried rattle_alloc(size_t size, size_t align) {
    void *at = malloc(size ? size : align);
    return (struct tried){at != NULL, at ? at : &nothing};
}

struct tried rattle_realloc(void *was, size_t kept, size_t size, size_t align) {
    (void)kept;
    void *at = realloc(was, size ? size : align);
    return (struct tried){at != NULL, at ? at : &nothing};
}

void rattle_dealloc(void *at) { free(at); }
