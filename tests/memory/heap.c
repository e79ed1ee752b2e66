/*
 * Counts what a program asks of the C library's heap, and what it gives back: to be loaded before the program. At its end it
 * adds a line to the file that HEAP_COUNT names: the number of requests (malloc, calloc, and realloc that isn't to no bytes),
 * of blocks that weren't given back, and of their bytes. From the request on that HEAP_REFUSE counts, from 1, each is refused.
 */
#include <fcntl.h>
#include <malloc.h>
#include <stdio.h>
#include <stdlib.h>
#include <unistd.h>

extern void *__libc_malloc(size_t size);
extern void *__libc_calloc(size_t count, size_t size);
extern void *__libc_realloc(void *block, size_t size);
extern void __libc_free(void *block);

static unsigned long requests;
static unsigned long refused_from;
static long blocks;
static long bytes;

static void *taken(void *block)
{
    if (block) {
        blocks++;
        bytes += (long)malloc_usable_size(block);
    }
    return block;
}

static void given_back(void *block)
{
    if (block) {
        blocks--;
        bytes -= (long)malloc_usable_size(block);
    }
}

/* Counts a request. Whether it is refused. */
static int is_refused(void)
{
    requests++;
    return refused_from != 0 && requests >= refused_from;
}

__attribute__((constructor)) static void begin(void)
{
    const char *from = getenv("HEAP_REFUSE");

    requests = 0;
    refused_from = from ? strtoul(from, NULL, 10) : 0;
}

void *malloc(size_t size)
{
    return is_refused() ? NULL : taken(__libc_malloc(size));
}

void *calloc(size_t count, size_t size)
{
    return is_refused() ? NULL : taken(__libc_calloc(count, size));
}

void *realloc(void *block, size_t size)
{
    void *other;
    long before = block ? (long)malloc_usable_size(block) : 0;

    if (size > 0 && is_refused())
        return NULL;
    other = __libc_realloc(block, size);
    if (other || size == 0) {
        blocks -= block != NULL;
        bytes -= before;
        taken(other);
    }
    return other;
}

void free(void *block)
{
    given_back(block);
    __libc_free(block);
}

__attribute__((destructor)) static void tell(void)
{
    char line[96];
    unsigned long made = requests;
    long kept = blocks, size = bytes;
    const char *path = getenv("HEAP_COUNT");
    int file = path ? open(path, O_WRONLY | O_CREAT | O_APPEND, 0600) : -1;
    int length = snprintf(line, sizeof line, "%lu %ld %ld\n", made, kept, size);

    if (file >= 0 && length > 0 && write(file, line, (size_t)length) != length)
        _exit(99);
}
