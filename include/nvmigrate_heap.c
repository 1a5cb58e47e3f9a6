/* What nvmigrate_judge calls for memory, over malloc. ./nvmigrate-lib puts it into the library. A program with an allocator of
 * its own may link three functions like these in its place: a block is aligned to 16, or as far as its size asks for. */
#include <stdbool.h>
#include <stddef.h>
#include <stdint.h>
#include <stdlib.h>

_Static_assert(_Alignof(max_align_t) >= 16, "malloc aligns to 16");

/* Whether there is memory, and where; where there is none, a byte that nobody writes. */
struct tried {
    bool ok;
    uint8_t *at;
};

struct tried rattle_alloc(size_t size, size_t align);
struct tried rattle_realloc(uint8_t *at, size_t kept, size_t size, size_t align);
void rattle_dealloc(uint8_t *at);

static uint8_t none;

static struct tried answer(void *at) {
    return (struct tried){at != NULL, at != NULL ? at : &none};
}

struct tried rattle_alloc(size_t size, size_t align) {
    (void)align;
    return answer(malloc(size > 0 ? size : 1));
}

struct tried rattle_realloc(uint8_t *at, size_t kept, size_t size, size_t align) {
    (void)kept, (void)align;
    return answer(realloc(at, size > 0 ? size : 1));
}

void rattle_dealloc(uint8_t *at) {
    free(at);
}
