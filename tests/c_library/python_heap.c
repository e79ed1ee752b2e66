/* The library's memory for tests/c_library/test_python_memory.py, which sets and reads these numbers. */
#include <stddef.h>
#include <stdint.h>
#include <stdlib.h>
#include <unistd.h>

long heap_requests;     /* how many requests there were */
long heap_refused = -1; /* the number of the first one that is refused, from 0, as all after it; none: -1 */
long heap_blocks;       /* how many blocks aren't freed */
volatile int heap_shut; /* 1: a request waits until this is 0, ten seconds at most */

struct tried { uint64_t ok; void *at; };
struct tried rattle_alloc(size_t count, size_t align);
struct tried rattle_realloc(void *at, size_t kept, size_t count, size_t align);
void rattle_dealloc(void *at);
static char refused[16];

static struct tried request(void *at, size_t count)
{
    struct tried t = { 0, refused };
    long number = heap_requests++;
    for (int i = 0; heap_shut && i < 10000; i++) usleep(1000);
    if (heap_refused < 0 || number < heap_refused) {
        void *block = realloc(at, count);
        if (block) {
            t.ok = 1;
            t.at = block;
        }
    }
    return t;
}

struct tried rattle_alloc(size_t count, size_t align)
{
    struct tried t = request(NULL, count ? count : align);
    heap_blocks += (long)t.ok;
    return t;
}

struct tried rattle_realloc(void *at, size_t kept, size_t count, size_t align)
{
    (void)kept;
    return request(at, count ? count : align);
}

void rattle_dealloc(void *at)
{
    heap_blocks--;
    free(at);
}
