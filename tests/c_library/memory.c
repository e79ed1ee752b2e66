/* Each request for memory is refused in turn: each call then answers NO_MEMORY or does all, changes nothing where it is refused,
 * and every block is freed. What a loaded document holds has no room for more pairs. This program brings the library's memory
 * itself; compiled with THROUGH_HEAP, and linked with --wrap of malloc, realloc and free, it brings what c/heap.c takes it from. */
#include <stdio.h>
#include <stdlib.h>
#include "bigrosk_ini.h"

static long left, taken, freed, growths_refused;
static size_t held;
static int failed;
#define CHECK(e) do { if (!(e)) { printf("FAILED %d (%ld): %s\n", __LINE__, n, #e); failed++; } } while (0)

#ifdef THROUGH_HEAP
void *__real_malloc(size_t count);
void *__real_realloc(void *at, size_t count);
void __real_free(void *at);
#define system_malloc __real_malloc
#define system_realloc __real_realloc
#define system_free __real_free
#else
#define system_malloc malloc
#define system_realloc realloc
#define system_free free
#endif

/* what stands before a block: how many bytes it has */
union head { size_t count; char room[16]; };

/* the block after its head, or none */
static void *block(union head *head, size_t count)
{
    if (!head) return NULL;
    head->count = count;
    held += count;
    return head + 1;
}

static void *take(size_t count)
{
    if (left-- <= 0) return NULL;
    taken++;
    return block(system_malloc(sizeof(union head) + count), count);
}

/* refused, the block stays */
static void *grow(void *at, size_t count)
{
    union head *head = (union head *)at - 1;
    size_t before = head->count;
    if (left-- <= 0) {
        growths_refused++;
        return NULL;
    }
    head = system_realloc(head, sizeof(union head) + count);
    if (head) held -= before;
    return block(head, count);
}

static void give_back(void *at)
{
    union head *head = (union head *)at - 1;
    freed++;
    held -= head->count;
    system_free(head);
}

#ifdef THROUGH_HEAP
void *__wrap_malloc(size_t count);
void *__wrap_realloc(void *at, size_t count);
void __wrap_free(void *at);

void *__wrap_malloc(size_t count) { return take(count); }
void *__wrap_realloc(void *at, size_t count) { return grow(at, count); }
void __wrap_free(void *at) { give_back(at); }
#else
struct tried { uint64_t ok; void *at; };
struct tried rattle_alloc(size_t count, size_t align);
struct tried rattle_realloc(void *at, size_t kept, size_t count, size_t align);
void rattle_dealloc(void *at);
static char refused[16];

static struct tried answer(void *at)
{
    struct tried t = { at != NULL, at ? at : refused };
    return t;
}

struct tried rattle_alloc(size_t count, size_t align) { return answer(take(count ? count : align)); }

struct tried rattle_realloc(void *at, size_t kept, size_t count, size_t align)
{
    (void)kept;
    return answer(grow(at, count ? count : align));
}

void rattle_dealloc(void *at) { give_back(at); }
#endif

enum { load, set, add, write, all, pairs, items, edit_set, edit_new, edit_add, edit_delete, edit_rename, edit_out, edit_name, calls };

/* one call with n requests granted */
static uint32_t call(int which, long n, struct bigrosk_ini_document *d)
{
    static const struct bigrosk_ini_write_option option = BIGROSK_INI_WRITE_DEFAULT;
    static const char lines[] = "# of s\n[s]\nc = 3 # no comment\nd = 4\nc = \"5\"\n# of t\n[t]\n";
    struct bigrosk_ini_fault f;
    uint8_t text[512];
    size_t count, counts[32];
    struct bigrosk_ini_sizes sizes;
    uint32_t status;
    left = n;
    switch (which) {
    case load: status = bigrosk_ini_load_str("x=1\n[t]\ny=2\n[u]\nz=3\nlong = a value that is longer\n", d, &f); break;
    case set: status = bigrosk_ini_set_str(d, "a new section", "a new key", "a new value"); break;
    case add: status = bigrosk_ini_add_str(d, "s", "c", "another value of the key"); break;
    case all: status = bigrosk_ini_get_all_str(d, "s", "c", text, sizeof text, counts, 32, &sizes); break;
    case pairs: status = bigrosk_ini_pairs_str(d, "s", text, sizeof text, counts, 32, &sizes); break;
    case items: status = bigrosk_ini_items(d, text, sizeof text, counts, 32, &sizes); break;
    case edit_set: status = bigrosk_ini_edit_set_str(lines, "s", "c", "9", (char *)text, sizeof text, &count, &f); break;
    case edit_delete: status = bigrosk_ini_edit_delete_str(lines, "s", "c", (char *)text, sizeof text, &count, &f); break;
    case edit_new: status = bigrosk_ini_edit_set_str(lines, "u", "e", "9", (char *)text, sizeof text, &count, &f); break;
    case edit_add: status = bigrosk_ini_edit_add_str(lines, "s", "c", "9", (char *)text, sizeof text, &count, &f); break;
    case edit_rename: status = bigrosk_ini_edit_rename_key_str(lines, "s", "c", "e", (char *)text, sizeof text, &count, &f); break;
    case edit_out: status = bigrosk_ini_edit_delete_section_str(lines, "s", (char *)text, sizeof text, &count, &f); break;
    case edit_name: status = bigrosk_ini_edit_rename_section_str(lines, "s", "u", (char *)text, sizeof text, &count, &f); break;
    default: status = bigrosk_ini_write(d, &option, text, sizeof text, &count); break;
    }
    left = 1000000;
    return status;
}

/* In a section of three pairs these take 192 bytes, two slots each and no block beside that of a byte; eight pairs, for which there
 * is room while they are read, would take 512. What else a section takes is some 250. */
static void sections_are_as_large_as_their_pairs(void)
{
    const long n = 1000;
    static char text[32 * 1000];
    struct bigrosk_ini_document d = BIGROSK_INI_EMPTY;
    struct bigrosk_ini_fault f;
    size_t at = 0;
    for (long i = 0; i < n; i++) at += (size_t)sprintf(text + at, "[%ld]\na=1\nb=2\nc=3\n", i);
    left = 1000000;
    CHECK(held == 0 && bigrosk_ini_load_str(text, &d, &f) == BIGROSK_INI_OK);
    printf("%ld bytes held for each of %ld sections\n", (long)held / n, n);
    CHECK(192 * n < (long)held && (long)held < 600 * n);
    bigrosk_ini_free(&d);
    CHECK(held == 0);
}

int main(void)
{
    struct bigrosk_ini_write_option option = BIGROSK_INI_WRITE_DEFAULT;
    long refusals = 0;
    for (int which = 0; which < calls; which++) {
        uint32_t status = BIGROSK_INI_NO_MEMORY;
        for (long n = 0; n < 400 && status == BIGROSK_INI_NO_MEMORY; n++) {
            struct bigrosk_ini_document d = BIGROSK_INI_EMPTY;
            struct bigrosk_ini_fault f;
            uint8_t before[512], after[512];
            size_t count, then;
            left = 1000000;
            CHECK(bigrosk_ini_load_str("a=1\nb=2\n[s]\nc=3\n", &d, &f) == BIGROSK_INI_OK);
            CHECK(bigrosk_ini_write(&d, &option, before, sizeof before, &count) == BIGROSK_INI_OK);
            status = call(which, n, &d);
            CHECK(status == BIGROSK_INI_OK || status == BIGROSK_INI_NO_MEMORY);
            CHECK(bigrosk_ini_write(&d, &option, after, sizeof after, &then) == BIGROSK_INI_OK);
            if (status == BIGROSK_INI_NO_MEMORY) {
                refusals++;
                CHECK(count == then && !memcmp(before, after, count));
            } else if (which >= write) {
                CHECK(count == then && !memcmp(before, after, count));
            } else {
                CHECK(count != then || memcmp(before, after, count));
            }
            left = 0; /* these take no memory */
            struct bigrosk_ini_borrowed lent;
            const char *key = which == load && status == BIGROSK_INI_OK ? "x" : "a";
            CHECK(bigrosk_ini_borrow_str(&d, NULL, key, &lent) == BIGROSK_INI_OK && lent.count == 1 && *lent.bytes == '1');
            CHECK(bigrosk_ini_borrow_str(&d, NULL, "none", &lent) == BIGROSK_INI_ABSENT);
            CHECK(bigrosk_ini_has_str(&d, NULL, "none") == BIGROSK_INI_ABSENT);
            CHECK(bigrosk_ini_delete_str(&d, NULL, "none") == BIGROSK_INI_ABSENT);
            CHECK(bigrosk_ini_delete_section_str(&d, "s") != BIGROSK_INI_NO_MEMORY);
            bigrosk_ini_free(&d);
            CHECK(taken == freed);
        }
        long n = which;
        CHECK(status == BIGROSK_INI_OK);
    }
    sections_are_as_large_as_their_pairs();
    printf("%ld refusals, %ld of them of a growth, %ld blocks taken and %ld freed, %d failed\n", refusals, growths_refused, taken,
           freed, failed);
    return failed != 0 || refusals < calls || growths_refused == 0;
}
