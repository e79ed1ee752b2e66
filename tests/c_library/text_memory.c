/* Each request for memory is refused in turn, while a text that stays open is opened, edited and copied out: each call then answers
 * NO_MEMORY or does all, leaves the text as it was where it is refused, and every block is freed. This program brings the library's
 * memory itself. */
#include <stdio.h>
#include <stdlib.h>
#include "bigrosk_ini.h"

static long left = 1000000000, taken, freed;
static int failed;
#define CHECK(e) do { if (!(e)) { printf("FAILED %d (%ld): %s\n", __LINE__, n, #e); failed++; } } while (0)

struct tried { uint64_t ok; void *at; };
struct tried rattle_alloc(size_t count, size_t align);
struct tried rattle_realloc(void *at, size_t kept, size_t count, size_t align);
void rattle_dealloc(void *at);
static char refused[16];

struct tried rattle_alloc(size_t count, size_t align)
{
    struct tried t = { 0, refused };
    if (left-- <= 0) return t;
    taken++;
    t.ok = 1;
    t.at = malloc(count ? count : align);
    return t;
}

struct tried rattle_realloc(void *at, size_t kept, size_t count, size_t align)
{
    struct tried t = { 0, refused };
    (void)kept;
    if (left-- <= 0) return t;
    t.ok = 1;
    t.at = realloc(at, count ? count : align);
    return t;
}

void rattle_dealloc(void *at)
{
    freed++;
    free(at);
}

static const char lines[] = "# of the text\nport = 80\n\n[s]\n# of c\nc = 3\nd = 4\nc = \"5\"\n\n# of t\n[t]\n  e = 1\n";
static const struct bigrosk_ini_write_option option = BIGROSK_INI_WRITE_DEFAULT;
static const struct bigrosk_ini_lookup rule = {
    sizeof(struct bigrosk_ini_lookup), BIGROSK_INI_SECTIONS_JOINED, BIGROSK_INI_VALUES_LAST, 1
};
static const struct bigrosk_ini_lookup lists = {
    sizeof(struct bigrosk_ini_lookup), BIGROSK_INI_SECTIONS_FIRST, BIGROSK_INI_VALUES_LIST, 0
};
enum { open, set, set_new, set_section, add, delete, delete_all, set_nth, set_all, rename_key, rename_section, delete_section,
    add_section, set_comment, comment_out, items, pairs, all, diff, apply, conflicts, merge3,
    diff_under, apply_under, conflicts_under, merge3_under, diff_list, apply_list, conflicts_list, merge3_list, to_buffer,
    calls };

static bool is_text(struct bigrosk_ini_text *t, const char *want);

/* one call with n requests granted */
static uint32_t call(int which, long n, struct bigrosk_ini_text *t)
{
    uint8_t out[512] = { 0 };
    size_t counts[64] = { 1, 2, 1, 5, 1, 1 };
    struct bigrosk_ini_sizes sizes = BIGROSK_INI_NO_SIZES;
    struct bigrosk_ini_fault f = { 0, 0, 0, "" };
    size_t count = 0;
    const uint8_t *bytes = (const uint8_t *)"word";
    const char base[] = "port = 1\n[s]\nc = 3\nd = 4\n", ours[] = "port = 2\n[s]\nc = 9\nnew = 1\n";
    const size_t two[] = { BIGROSK_INI_UNNAMED, 4, 2, 1, 1, 1, 1, BIGROSK_INI_UNNAMED };
    const size_t three[] = { 1, 1, BIGROSK_INI_UNNAMED, 5 };
    struct bigrosk_ini_text b = BIGROSK_INI_TEXT_EMPTY, o = BIGROSK_INI_TEXT_EMPTY;
    uint32_t status = BIGROSK_INI_OK;
    CHECK(bigrosk_ini_text_open_str(base, &b, &f) == BIGROSK_INI_OK && bigrosk_ini_text_open_str(ours, &o, &f) == BIGROSK_INI_OK);
    left = n;
    switch (which) {
    case open: status = bigrosk_ini_text_open_str("k = v\n[a]\nl = \"w\"\n", t, &f); break;
    case set: status = bigrosk_ini_text_set_str(t, "s", "c", "9"); break;
    case set_new: status = bigrosk_ini_text_set_str(t, "s", "new", "9"); break;
    case set_section: status = bigrosk_ini_text_set_str(t, "new", "k", "9"); break;
    case add: status = bigrosk_ini_text_add_str(t, "s", "c", "a longer value"); break;
    case delete: status = bigrosk_ini_text_delete_str(t, "s", "c"); break;
    case delete_all: status = bigrosk_ini_text_delete_all(t, BIGROSK_INI_AT("s", "c")); break;
    case set_nth: status = bigrosk_ini_text_set_nth(t, &option, BIGROSK_INI_AT("s", "c"), 1, bytes, 4); break;
    case set_all:
        status = bigrosk_ini_text_set_all(t, &option, BIGROSK_INI_AT("s", "c"), (const uint8_t *)"1\0" "22\0" "3", 8, counts, 3);
        break;
    case rename_key: status = bigrosk_ini_text_rename_key(t, &option, BIGROSK_INI_AT("s", "d"), bytes, 4); break;
    case rename_section: status = bigrosk_ini_text_rename_section(t, &option, (const uint8_t *)"s", 1, bytes, 4); break;
    case delete_section: status = bigrosk_ini_text_delete_section(t, (const uint8_t *)"s", 1); break;
    case add_section: status = bigrosk_ini_text_add_section(t, &option, bytes, 4); break;
    case set_comment: status = bigrosk_ini_text_set_comment_str(t, "s", "d", "; more\n; of it"); break;
    case comment_out: status = bigrosk_ini_text_comment_out(t, BIGROSK_INI_AT("s", "d")); break;
    case items: status = bigrosk_ini_text_items(t, out, sizeof out, counts, 64, &sizes); break;
    case pairs: status = bigrosk_ini_text_pairs(t, true, (const uint8_t *)"s", 1, out, sizeof out, counts, 64, &sizes); break;
    case all: status = bigrosk_ini_text_get_all(t, BIGROSK_INI_AT("s", "c"), out, sizeof out, counts, 64, &sizes); break;
    case diff: status = bigrosk_ini_text_diff(&o, t, out, sizeof out, counts, 64, &sizes); break;
    case apply:
        status = bigrosk_ini_text_apply(t, &option, (const uint8_t *)"port\0" "80\0" "9\0" "s\0" "d\0" "4", 16, two, 8, &count);
        break;
    case conflicts: status = bigrosk_ini_text_conflicts(&b, &o, t, out, sizeof out, counts, 64, &sizes); break;
    case merge3: status = bigrosk_ini_text_merge3(&b, &o, t, &option, true, &count); break;
    case diff_under: status = bigrosk_ini_text_diff_under(&o, t, &rule, out, sizeof out, counts, 64, &sizes); break;
    case apply_under:
        status = bigrosk_ini_text_apply_under(t, &rule, &option, (const uint8_t *)"port\0" "80\0" "9\0" "s\0" "d\0" "4", 16,
                                              two, 8, &count);
        break;
    case conflicts_under:
        status = bigrosk_ini_text_conflicts_under(&b, &o, t, &rule, out, sizeof out, counts, 64, &sizes);
        break;
    case merge3_under: status = bigrosk_ini_text_merge3_under(&b, &o, t, &rule, &option, true, &count); break;
    case diff_list: status = bigrosk_ini_text_diff_under(&o, t, &lists, out, sizeof out, counts, 64, &sizes); break;
    case apply_list:
        status = bigrosk_ini_text_apply_under(t, &lists, &option, (const uint8_t *)"s\0" "c\0" "1\n2\n3", 10, three, 4, &count);
        break;
    case conflicts_list:
        status = bigrosk_ini_text_conflicts_under(&b, &o, t, &lists, out, sizeof out, counts, 64, &sizes);
        break;
    case merge3_list: status = bigrosk_ini_text_merge3_under(&b, &o, t, &lists, &option, true, &count); break;
    default: status = bigrosk_ini_text_write(t, out, sizeof out, &count); break;
    }
    left = 1000000000;
    CHECK(is_text(&b, base) && is_text(&o, ours));
    bigrosk_ini_text_close(&b);
    bigrosk_ini_text_close(&o);
    return status;
}

static bool is_text(struct bigrosk_ini_text *t, const char *want)
{
    char out[512] = "";
    size_t count = 0;
    return bigrosk_ini_text_write(t, (uint8_t *)out, sizeof out, &count) == BIGROSK_INI_OK && !strcmp(out, want);
}

int main(void)
{
    long requests = 0;
    for (int which = 0; which < calls; which++) {
        long refusals = 0;
        for (long n = 0;; n++) {
            struct bigrosk_ini_text t = BIGROSK_INI_TEXT_EMPTY;
            struct bigrosk_ini_fault f = { 0, 0, 0, "" };
            CHECK(bigrosk_ini_text_open_str(lines, &t, &f) == BIGROSK_INI_OK && is_text(&t, lines));
            uint32_t status = call(which, n, &t);
            CHECK(status == BIGROSK_INI_OK || status == BIGROSK_INI_NO_MEMORY);
            if (status != BIGROSK_INI_OK) CHECK(is_text(&t, lines));
            bigrosk_ini_text_close(&t);
            CHECK(taken == freed);
            if (status == BIGROSK_INI_OK) break;
            refusals++;
        }
        const long n = which;
        CHECK(refusals > 0);
        requests += refusals;
    }
    printf("%ld requests refused, %ld blocks, %d failed\n", requests, taken, failed);
    return failed != 0;
}
