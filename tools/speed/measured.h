/* What the programs of this folder share that measure a C library: time, and a file's text. */
#include <stdbool.h>
#include <stdio.h>
#include <stdlib.h>
#include <string.h>
#include <sys/resource.h>
#include <time.h>

/* The processor's time of this process, in seconds. */
static double now(void)
{
    struct timespec t;
    clock_gettime(CLOCK_PROCESS_CPUTIME_ID, &t);
    return (double)t.tv_sec + (double)t.tv_nsec * 1e-9;
}

/* The peak of memory so far, in kB. */
static long peak(void)
{
    struct rusage used;
    getrusage(RUSAGE_SELF, &used);
    return used.ru_maxrss;
}

static char *text; /* a 0 follows it */
static size_t text_count;

/* Whether the file was read into the text. */
static bool read_text(const char *path)
{
    FILE *file = fopen(path, "rb");
    if (!file) return false;
    fseek(file, 0, SEEK_END);
    text_count = (size_t)ftell(file);
    rewind(file);
    text = malloc(text_count + 1);
    if (text) text_count = fread(text, 1, text_count, file);
    if (text) text[text_count] = 0;
    fclose(file);
    return text != NULL;
}
