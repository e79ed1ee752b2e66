/* What a library built from Rattle asks of the program that it is linked with: memory. The kit has the same in
 * c/liblibc_c.a; this file is for those who have no kit. malloc and realloc must align a block to each power of two up to
 * 16 that divides its size, as those of glibc and musl do. */
#include <stdint.h>
#include <stdlib.h>

struct tried {
    uint64_t ok; /* 1 or 0 */
    void *at;    /* never NULL, and not to be used where ok is 0 */
};

struct tried rattle_alloc(size_t count, size_t align);
struct tried rattle_realloc(void *at, size_t kept, size_t count, size_t align);
void rattle_dealloc(void *at);

static char refused[16];

static struct tried answer(void *at)
{
    struct tried t = { at != NULL, at != NULL ? at : refused };
    return t;
}

struct tried rattle_alloc(size_t count, size_t align)
{
    return answer(malloc(count != 0 ? count : align));
}

struct tried rattle_realloc(void *at, size_t kept, size_t count, size_t align)
{
    (void)kept;
    return answer(realloc(at, count != 0 ? count : align));
}

void rattle_dealloc(void *at)
{
    free(at);
}
