/* A text of 4.7 MB with 200,000 pairs, and a value of 3 MB: loaded, looked up, listed, written, and edited by each call, the bytes
 * compared with a text that was made so. The last line is 'N checks, M failed'. */
#include "checks.h"

enum { sections = 2000, keys = 100, middle = 250, room = 8 << 20, long_value = 3000000 };
enum edit { none, set, add, del, rename_key, del_section, rename_section, edits };

static char text[room], want[room], out[room];

/* the text with one edit made in the section and at the key in the middle; how many bytes it has */
static size_t make(char *to, enum edit what)
{
    char *end = to;
    for (int s = 0; s < sections; s++) {
        enum edit here = s == middle ? what : none;
        if (here == del_section) continue;
        end += here == rename_section ? sprintf(end, "[another]\n") : sprintf(end, "[section %d]\n", s);
        for (int k = 0; k < keys; k++) {
            enum edit it = k == keys / 2 ? here : none;
            if (it == del) continue;
            end += it == rename_key ? sprintf(end, "another") : sprintf(end, "key%d", k);
            end += it == set ? sprintf(end, " = another\n") : sprintf(end, " = a value of %d\n", s);
        }
        if (here == add) end += sprintf(end, "key50 = another\n");
    }
    return (size_t)(end - to);
}

/* the edit in the middle of this text, into a buffer of so many bytes */
static uint32_t edit(enum edit what, size_t text_count, size_t out_room, size_t *count)
{
    static const char section[] = "section 250", key[] = "key50", another[] = "another";
    const uint8_t *t = (const uint8_t *)text, *s = (const uint8_t *)section, *k = (const uint8_t *)key;
    const uint8_t *a = (const uint8_t *)another;
    uint8_t *o = (uint8_t *)out;
    fault f;
    switch (what) {
    case set: return bigrosk_ini_edit_set(t, text_count, &usual, &plain, true, s, 11, k, 5, a, 7, o, out_room, count, &f);
    case add: return bigrosk_ini_edit_add(t, text_count, &usual, &plain, true, s, 11, k, 5, a, 7, o, out_room, count, &f);
    case del: return bigrosk_ini_edit_delete(t, text_count, &usual, true, s, 11, k, 5, o, out_room, count, &f);
    case rename_key:
        return bigrosk_ini_edit_rename_key(t, text_count, &usual, &plain, true, s, 11, k, 5, a, 7, o, out_room, count, &f);
    case del_section: return bigrosk_ini_edit_delete_section(t, text_count, &usual, s, 11, o, out_room, count, &f);
    default: return bigrosk_ini_edit_rename_section(t, text_count, &usual, &plain, s, 11, a, 7, o, out_room, count, &f);
    }
}

static void a_long_text_is_edited(void)
{
    size_t text_count = make(text, none), count;
    CHECK(text_count > 4500000);
    for (enum edit what = set; what < edits; what++) {
        size_t want_count = make(want, what);
        CHECK(want_count != text_count || memcmp(text, want, text_count));
        count = 0;
        CHECK(edit(what, text_count, 0, &count) == BIGROSK_INI_NO_ROOM && count == want_count);
        count = 0;
        CHECK(edit(what, text_count, want_count + 1, &count) == BIGROSK_INI_OK && count == want_count);
        CHECK(!memcmp(out, want, want_count + 1));
    }
}

static void a_long_text_is_loaded(void)
{
    size_t text_count = make(text, none), count;
    document d = BIGROSK_INI_EMPTY;
    fault f;
    struct bigrosk_ini_sizes sizes = BIGROSK_INI_NO_SIZES;
    struct bigrosk_ini_write_option spaced = { BIGROSK_INI_BASICS, false, 1 };
    char name[32], value[64];
    CHECK(bigrosk_ini_load((const uint8_t *)text, text_count, true, &usual, &d, &f) == BIGROSK_INI_OK);
    bool found = true;
    for (int s = 0; s < sections; s++) {
        sprintf(name, "section %d", s);
        sprintf(value, "a value of %d", s);
        found = found && is_value(&d, name, "key0", value) && is_value(&d, name, "key99", value);
    }
    CHECK(found);
    /* in `items` each section has a name, a number, and two texts for each pair; no pair stands in the general one */
    CHECK(bigrosk_ini_items(&d, (uint8_t *)out, 0, &count, 0, &sizes) == BIGROSK_INI_NO_ROOM);
    CHECK(sizes.counts == sections * (2 + 2 * keys) || sizes.counts == 2 + sections * (2 + 2 * keys));
    /* written it has an empty line between sections, and is else the text */
    CHECK(bigrosk_ini_write(&d, &spaced, (uint8_t *)out, room, &count) == BIGROSK_INI_OK && count == text_count + sections - 1);
    for (size_t from = 0, to = 0; to < count; to++)
        if (out[to] != '\n' || (to && out[to - 1] != '\n')) want[from++] = out[to];
    CHECK(!memcmp(want, text, text_count));
    CHECK(bigrosk_ini_set_str(&d, "section 250", "key50", "another") == BIGROSK_INI_OK);
    CHECK(is_value(&d, "section 250", "key50", "another") && is_value(&d, "section 499", "key50", "a value of 499"));
    CHECK(bigrosk_ini_delete_section_str(&d, "section 250") == BIGROSK_INI_OK);
    CHECK(bigrosk_ini_has_section_str(&d, "section 250") == BIGROSK_INI_ABSENT);
    bigrosk_ini_free(&d);
}

static void a_value_is_long(void)
{
    document d = BIGROSK_INI_EMPTY;
    fault f;
    struct bigrosk_ini_borrowed lent;
    size_t count;
    uint8_t *value = malloc(long_value);
    memset(value, 'v', long_value);
    CHECK(bigrosk_ini_load_str("k=v\n", &d, &f) == BIGROSK_INI_OK);
    CHECK(bigrosk_ini_set(&d, false, value, 0, (const uint8_t *)"k", 1, value, long_value) == BIGROSK_INI_OK);
    CHECK(bigrosk_ini_get_str(&d, NULL, "k", out, long_value, &count) == BIGROSK_INI_NO_ROOM && count == long_value);
    CHECK(bigrosk_ini_get_str(&d, NULL, "k", out, room, &count) == BIGROSK_INI_OK && count == long_value);
    CHECK(!memcmp(out, value, long_value));
    CHECK(bigrosk_ini_borrow_str(&d, NULL, "k", &lent) == BIGROSK_INI_OK && lent.count == long_value);
    CHECK(!memcmp(lent.bytes, value, long_value));
    CHECK(bigrosk_ini_write(&d, &plain, (uint8_t *)text, room, &count) == BIGROSK_INI_OK && count == long_value + 3);
    bigrosk_ini_free(&d);
    CHECK(bigrosk_ini_edit_set((const uint8_t *)"k=v\n", 4, &usual, &plain, false, value, 0, (const uint8_t *)"k", 1, value,
                               long_value, (uint8_t *)out, room, &count, &f) == BIGROSK_INI_OK);
    CHECK(count == long_value + 3 && !memcmp(out, text, count));
    CHECK(bigrosk_ini_load((const uint8_t *)out, count, true, &usual, &d, &f) == BIGROSK_INI_OK);
    CHECK(bigrosk_ini_borrow_str(&d, NULL, "k", &lent) == BIGROSK_INI_OK && lent.count == long_value);
    bigrosk_ini_free(&d);
    free(value);
}

int main(void)
{
    a_long_text_is_edited();
    a_long_text_is_loaded();
    a_value_is_long();
    printf("%d checks, %d failed\n", checks, failed);
    return failed != 0;
}
