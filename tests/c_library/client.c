/* A program that uses the library as a stranger would. The last line is 'N checks, M failed'. */
#include <time.h>
#include "checks.h"

static void nothing_is_loaded(void)
{
    document d = BIGROSK_INI_EMPTY;
    char text[16] = "as it was";
    size_t count = 77;
    CHECK(bigrosk_ini_get_str(&d, NULL, "port", text, sizeof text, &count) == BIGROSK_INI_NO_DOCUMENT);
    struct bigrosk_ini_sizes sizes = { 7, 8 };
    CHECK(bigrosk_ini_get_all_str(&d, NULL, "port", (uint8_t *)text, sizeof text, &count, 1, &sizes)
        == BIGROSK_INI_NO_DOCUMENT);
    CHECK(bigrosk_ini_pairs_str(&d, NULL, (uint8_t *)text, sizeof text, &count, 1, &sizes) == BIGROSK_INI_NO_DOCUMENT);
    CHECK(bigrosk_ini_items(&d, (uint8_t *)text, sizeof text, &count, 1, &sizes) == BIGROSK_INI_NO_DOCUMENT);
    CHECK(bigrosk_ini_has_str(&d, NULL, "port") == BIGROSK_INI_NO_DOCUMENT);
    CHECK(bigrosk_ini_has_section_str(&d, NULL) == BIGROSK_INI_NO_DOCUMENT);
    CHECK(bigrosk_ini_set_str(&d, NULL, "port", "1") == BIGROSK_INI_NO_DOCUMENT);
    CHECK(bigrosk_ini_add_str(&d, NULL, "port", "1") == BIGROSK_INI_NO_DOCUMENT);
    CHECK(bigrosk_ini_delete_str(&d, NULL, "port") == BIGROSK_INI_NO_DOCUMENT);
    CHECK(bigrosk_ini_delete_section_str(&d, NULL) == BIGROSK_INI_NO_DOCUMENT);
    CHECK(bigrosk_ini_write(&d, &plain, (uint8_t *)text, sizeof text, &count) == BIGROSK_INI_NO_DOCUMENT);
    CHECK(!bigrosk_ini_is_plain(&d, &plain, &usual));
    CHECK(!strcmp(text, "as it was") && count == 77);
    bigrosk_ini_free(&d);
    CHECK(!d.is_open);
    CHECK(bigrosk_ini_version() >= 300);
}

/* each status has its own words, and no other number has them */
static void words(void)
{
    const char *none = bigrosk_ini_status_text(BIGROSK_INI_UNKNOWN_OPTION + 1);
    CHECK(!strcmp(bigrosk_ini_status_text(BIGROSK_INI_OK), "done"));
    CHECK(!strcmp(bigrosk_ini_status_text(BIGROSK_INI_ABSENT), "no such pair or section"));
    CHECK(!strcmp(bigrosk_ini_status_text(BIGROSK_INI_NOT_UTF8), "not UTF-8"));
    CHECK(!strcmp(bigrosk_ini_status_text(BIGROSK_INI_NO_MEMORY), "out of memory"));
    CHECK(strstr(bigrosk_ini_status_text(BIGROSK_INI_UNPLAIN_VALUE), "value"));
    CHECK(strstr(bigrosk_ini_status_text(BIGROSK_INI_UNPLAIN_KEY), "key"));
    CHECK(strstr(bigrosk_ini_status_text(BIGROSK_INI_UNPLAIN_NAME), "name"));
    CHECK(!strcmp(none, bigrosk_ini_status_text(UINT32_MAX)));
    for (uint32_t one = 0; one <= BIGROSK_INI_UNKNOWN_OPTION; one++) {
        CHECK(strcmp(bigrosk_ini_status_text(one), none));
        for (uint32_t other = 0; other < one; other++)
            CHECK(strcmp(bigrosk_ini_status_text(one), bigrosk_ini_status_text(other)));
    }
}

static const char fleet[] =
    "; the fleet\nport = 8080\ntimeout: 30\n\n[paths]\nlog   = /var/log/app\ncache = \"/var/cache/app data\"\n";

static void look_ups(void)
{
    document d = BIGROSK_INI_EMPTY;
    fault f;
    char value[64];
    size_t count;
    CHECK(bigrosk_ini_load_str(fleet, &d, &f) == BIGROSK_INI_OK && d.is_open);
    CHECK(is_value(&d, NULL, "port", "8080"));
    CHECK(is_value(&d, "paths", "log", "/var/log/app"));
    CHECK(is_value(&d, "paths", "cache", "/var/cache/app data"));
    CHECK(bigrosk_ini_get_str(&d, "paths", "port", value, sizeof value, NULL) == BIGROSK_INI_ABSENT);
    CHECK(bigrosk_ini_get_str(&d, "nowhere", "port", value, sizeof value, NULL) == BIGROSK_INI_ABSENT);
    memset(value, 'v', sizeof value);
    CHECK(bigrosk_ini_get_str(&d, "paths", "log", value, 5, &count) == BIGROSK_INI_NO_ROOM && count == 12);
    CHECK(bigrosk_ini_get_str(&d, "paths", "log", value, 12, &count) == BIGROSK_INI_NO_ROOM && value[0] == 'v');
    CHECK(bigrosk_ini_get_str(&d, "paths", "log", value, 13, &count) == BIGROSK_INI_OK && value[12] == 0);
    CHECK(bigrosk_ini_get_str(&d, "\xff", "log", value, 13, &count) == BIGROSK_INI_NOT_UTF8);
    CHECK(bigrosk_ini_get_str(&d, "paths", "\xff", value, 13, &count) == BIGROSK_INI_NOT_UTF8);
    CHECK(bigrosk_ini_has_str(&d, "paths", "log") == BIGROSK_INI_OK);
    CHECK(bigrosk_ini_has_str(&d, "paths", "port") == BIGROSK_INI_ABSENT);
    CHECK(bigrosk_ini_has_str(&d, NULL, "\xff") == BIGROSK_INI_NOT_UTF8);
    CHECK(bigrosk_ini_has_section_str(&d, "paths") == BIGROSK_INI_OK);
    CHECK(bigrosk_ini_has_section_str(&d, NULL) == BIGROSK_INI_OK);
    CHECK(bigrosk_ini_has_section_str(&d, "path") == BIGROSK_INI_ABSENT);
    CHECK(bigrosk_ini_has_section_str(&d, "\xff") == BIGROSK_INI_NOT_UTF8);
    bigrosk_ini_free(&d);
}

/* bytes that are no UTF-8, as a name or as a key, with the other one there and not there */
static void look_ups_by_no_text(void)
{
    static const char *const rows[][2] = {
        { "\xff", "log" }, { "\xff", "nothing" }, { "\xff", "\xff" }, { "paths", "\xff" }, { "nowhere", "\xff" },
        { NULL, "\xff" }, { "\xc3", "\xc3\xb6" }, { "\xc3\xa4", "\xc3" }, { "\xc3\xa4", "\xc3\xb6\xc3" },
    };
    document d = BIGROSK_INI_EMPTY;
    fault f;
    char value[64] = "as it was";
    size_t count;
    CHECK(bigrosk_ini_load_str("port=1\n[paths]\nlog=2\n[\xc3\xa4]\n\xc3\xb6=3\n", &d, &f) == BIGROSK_INI_OK);
    CHECK(is_value(&d, "\xc3\xa4", "\xc3\xb6", "3"));
    for (size_t i = 0; i < sizeof rows / sizeof *rows; i++) {
        CHECK(bigrosk_ini_get_str(&d, rows[i][0], rows[i][1], value, sizeof value, &count) == BIGROSK_INI_NOT_UTF8);
        CHECK(bigrosk_ini_has_str(&d, rows[i][0], rows[i][1]) == BIGROSK_INI_NOT_UTF8);
    }
    CHECK(bigrosk_ini_get_str(&d, "\xc3\xb6", "\xc3\xb6", value, sizeof value, &count) == BIGROSK_INI_ABSENT);
    CHECK(bigrosk_ini_has_str(&d, "\xc3\xa4", "\xc3\xa4") == BIGROSK_INI_ABSENT);
    CHECK(bigrosk_ini_has_section_str(&d, "\xc3\xa4") == BIGROSK_INI_OK);
    CHECK(bigrosk_ini_has_section_str(&d, "\xc3") == BIGROSK_INI_NOT_UTF8);
    CHECK(!strcmp(value, "as it was"));

    /* the general section's name is passed over, but must be a text */
    const uint8_t *name = (const uint8_t *)"\xc3\xa4", *key = (const uint8_t *)"port";
    uint8_t *out = (uint8_t *)value;
    CHECK(bigrosk_ini_get(&d, false, name, 1, key, 4, out, sizeof value, &count) == BIGROSK_INI_NOT_UTF8);
    CHECK(bigrosk_ini_has(&d, false, name, 1, key, 4) == BIGROSK_INI_NOT_UTF8);
    CHECK(bigrosk_ini_has_section(&d, false, name, 1) == BIGROSK_INI_NOT_UTF8);
    CHECK(!strcmp(value, "as it was"));
    CHECK(bigrosk_ini_get(&d, false, name, 2, key, 4, out, sizeof value, &count) == BIGROSK_INI_OK && count == 1);
    CHECK(bigrosk_ini_has(&d, false, name, 2, key, 4) == BIGROSK_INI_OK);
    CHECK(bigrosk_ini_has_section(&d, false, name, 2) == BIGROSK_INI_OK);
    bigrosk_ini_free(&d);
}

/* whether this is lent */
static bool is_lent(document *d, const char *section, const char *key, const char *want)
{
    struct bigrosk_ini_borrowed value = { (const uint8_t *)"else", 4 };
    return bigrosk_ini_borrow_str(d, section, key, &value) == BIGROSK_INI_OK && value.count == strlen(want)
        && !memcmp(value.bytes, want, value.count);
}

static void loans(void)
{
    document d = BIGROSK_INI_EMPTY;
    fault f;
    struct bigrosk_ini_borrowed one = BIGROSK_INI_NOTHING_BORROWED, other = BIGROSK_INI_NOTHING_BORROWED;
    CHECK(bigrosk_ini_borrow_str(&d, NULL, "port", &one) == BIGROSK_INI_NO_DOCUMENT && one.bytes && one.count == 0);
    CHECK(bigrosk_ini_load_str("port=1\nempty=\n[paths]\nlog=a b\nlog=second\n[paths]\nonly=3\n", &d, &f) == BIGROSK_INI_OK);
    CHECK(is_lent(&d, NULL, "port", "1") && is_lent(&d, "paths", "log", "a b") && is_lent(&d, NULL, "empty", ""));
    /* the same bytes each time: no copy is made */
    CHECK(bigrosk_ini_borrow_str(&d, "paths", "log", &one) == BIGROSK_INI_OK);
    CHECK(bigrosk_ini_borrow_str(&d, "paths", "log", &other) == BIGROSK_INI_OK && one.bytes == other.bytes && one.count == 3);
    CHECK(bigrosk_ini_borrow_str(&d, "paths", "port", &one) == BIGROSK_INI_ABSENT && one.count == 0);
    CHECK(bigrosk_ini_borrow_str(&d, "paths", "only", &one) == BIGROSK_INI_ABSENT);
    CHECK(bigrosk_ini_borrow_str(&d, "path", "log", &one) == BIGROSK_INI_ABSENT);
    CHECK(bigrosk_ini_borrow_str(&d, "paths", "\xff", &one) == BIGROSK_INI_NOT_UTF8);
    CHECK(bigrosk_ini_borrow_str(&d, "\xff", "log", &one) == BIGROSK_INI_NOT_UTF8);
    /* refused, the struct stays */
    const uint8_t *name = (const uint8_t *)"\xc3\xa4", *key = (const uint8_t *)"port";
    one.bytes = name, one.count = 2;
    CHECK(bigrosk_ini_borrow(&d, true, name, 2, key, 4, &one) == BIGROSK_INI_ABSENT && one.bytes == name && one.count == 2);
    CHECK(bigrosk_ini_borrow(&d, false, name, 1, key, 4, &one) == BIGROSK_INI_NOT_UTF8 && one.bytes == name && one.count == 2);
    CHECK(bigrosk_ini_borrow(&d, false, name, 2, key, 4, &one) == BIGROSK_INI_OK && one.count == 1 && *one.bytes == '1');
    /* the document stays, and can be changed once the loan is over */
    CHECK(is_written(&d, &plain, "port=1\nempty=\n\n[paths]\nlog=a b\nlog=second\n\n[paths]\nonly=3\n"));
    CHECK(bigrosk_ini_set_str(&d, "paths", "log", "a longer value than before") == BIGROSK_INI_OK);
    CHECK(is_lent(&d, "paths", "log", "a longer value than before") && is_lent(&d, NULL, "port", "1"));
    bigrosk_ini_free(&d);
    CHECK(bigrosk_ini_borrow_str(&d, NULL, "port", &one) == BIGROSK_INI_NO_DOCUMENT);
}

static void edits(void)
{
    document d = BIGROSK_INI_EMPTY;
    fault f;
    CHECK(bigrosk_ini_load_str(fleet, &d, &f) == BIGROSK_INI_OK);
    CHECK(bigrosk_ini_set_str(&d, NULL, "port", "9090") == BIGROSK_INI_OK);
    CHECK(bigrosk_ini_set_str(&d, "new", "gr\xc3\xbc\xc3\x9f", "a\tb") == BIGROSK_INI_OK);
    CHECK(bigrosk_ini_set_str(&d, "new", "k", "\xff") == BIGROSK_INI_NOT_UTF8);
    CHECK(bigrosk_ini_delete_str(&d, "paths", "cache") == BIGROSK_INI_OK);
    CHECK(bigrosk_ini_delete_str(&d, "paths", "cache") == BIGROSK_INI_ABSENT);
    CHECK(is_written(&d, &plain,
        "port=9090\ntimeout=30\n\n[paths]\nlog=/var/log/app\n\n[new]\ngr\xc3\xbc\xc3\x9f=a\\tb\n"));
    struct bigrosk_ini_write_option other = { BIGROSK_INI_EVERYTHING, true, 1 };
    CHECK(is_written(&d, &other, "port = 9090\r\ntimeout = 30\r\n\r\n[paths]\r\nlog = /var/log/app\r\n\r\n[new]\r\n"
                                 "gr\\x00fc\\x00df = a\\tb\r\n"));
    /* add keeps what is there, set takes the later ones away */
    CHECK(bigrosk_ini_add_str(&d, "paths", "log", "second") == BIGROSK_INI_OK);
    CHECK(is_value(&d, "paths", "log", "/var/log/app"));
    CHECK(is_written(&d, &plain,
        "port=9090\ntimeout=30\n\n[paths]\nlog=/var/log/app\nlog=second\n\n[new]\ngr\xc3\xbc\xc3\x9f=a\\tb\n"));
    CHECK(bigrosk_ini_set_str(&d, "paths", "log", "only") == BIGROSK_INI_OK);
    CHECK(bigrosk_ini_add_str(&d, "added", "k", "v") == BIGROSK_INI_OK);
    CHECK(bigrosk_ini_add_str(&d, "added", "\xff", "v") == BIGROSK_INI_NOT_UTF8);
    CHECK(bigrosk_ini_delete_section_str(&d, "new") == BIGROSK_INI_OK);
    CHECK(bigrosk_ini_delete_section_str(&d, "new") == BIGROSK_INI_ABSENT);
    CHECK(is_written(&d, &plain, "port=9090\ntimeout=30\n\n[paths]\nlog=only\n\n[added]\nk=v\n"));
    CHECK(bigrosk_ini_is_plain(&d, &plain, &usual));
    CHECK(bigrosk_ini_set_str(&d, "added", "blank", "\t=") == BIGROSK_INI_OK && is_value(&d, "added", "blank", "\t="));
    CHECK(bigrosk_ini_set_str(&d, NULL, "[key", "v") == BIGROSK_INI_OK);
    CHECK(!bigrosk_ini_is_plain(&d, &plain, &usual));
    bigrosk_ini_free(&d);
}

/* whether the text is refused so, and the document stays */
static bool is_refused(document *d, const char *text, uint32_t kind, size_t line, size_t column, const char *message)
{
    fault f = { 0, 0, 0, "" };
    bool same = bigrosk_ini_load_str(text, d, &f) == BIGROSK_INI_BROKEN && f.kind == kind && f.line == line
        && f.column == column && !strcmp(f.message, message) && is_value(d, NULL, "kept", "yes");
    if (!same) printf("%s: kind %u at %zu:%zu, %s\n", text, (unsigned)f.kind, f.line, f.column, f.message);
    return same;
}

static void refusals(void)
{
    document d = BIGROSK_INI_EMPTY;
    fault f;
    CHECK(bigrosk_ini_load_str("kept=yes\n", &d, &f) == BIGROSK_INI_OK);
    CHECK(is_refused(&d, "ok = 1\n = no key\n", BIGROSK_INI_MISSING_KEY, 2, 3, "missing key"));
    CHECK(is_refused(&d, "a=\\xD800", BIGROSK_INI_UNKNOWN_CHARACTER, 1, 9, "unknown character in \\xHH form"));
    CHECK(is_refused(&d, "k=v\r# c\n", BIGROSK_INI_INLINE_COMMENT, 1, 6, "doesn't support inline comment"));
    memset(&f, 'f', sizeof f);
    CHECK(bigrosk_ini_load_str("a=\xff\n=", &d, &f) == BIGROSK_INI_NOT_UTF8 && f.message[0] == 'f');
    CHECK(bigrosk_ini_load_str("[open", &d, &f) == BIGROSK_INI_BROKEN && f.kind == BIGROSK_INI_END_OF_TEXT && f.line == 1);
    CHECK(bigrosk_ini_load_str("a=\\x1\\23", &d, &f) == BIGROSK_INI_BROKEN && f.kind == BIGROSK_INI_BROKEN_ESCAPE);
    CHECK(is_value(&d, NULL, "kept", "yes"));
    bigrosk_ini_free(&d);
}

static void options(void)
{
    document d = BIGROSK_INI_EMPTY;
    fault f;
    const uint8_t text[] = "\xef\xbb\xbf" "a = \"b\\tc\"\n d\n";
    struct bigrosk_ini_read_option o = { false, false, true, false, false };
    CHECK(bigrosk_ini_load(text, sizeof text - 1, true, &o, &d, &f) == BIGROSK_INI_OK);
    CHECK(is_value(&d, NULL, "a", "\"b\\tc\"\nd"));
    CHECK(bigrosk_ini_load((const uint8_t *)"\xef\xbb\xbf" "a=1\n", 7, false, &usual, &d, &f) == BIGROSK_INI_OK);
    CHECK(is_value(&d, NULL, "\xef\xbb\xbf" "a", "1"));
    CHECK(bigrosk_ini_load((const uint8_t *)"[a[b]]\nk=1\n", 11, true, &usual, &d, &f) == BIGROSK_INI_OK);
    CHECK(bigrosk_ini_has_section_str(&d, "a[b]") == BIGROSK_INI_ABSENT);
    o.brackets = true;
    CHECK(bigrosk_ini_load((const uint8_t *)"[a[b]]\nk=1\n", 11, true, &o, &d, &f) == BIGROSK_INI_OK);
    CHECK(is_value(&d, "a[b]", "k", "1"));
    CHECK(bigrosk_ini_load((const uint8_t *)"", 0, true, &usual, &d, &f) == BIGROSK_INI_OK);
    CHECK(is_written(&d, &plain, ""));
    /* a value with a 0 in it */
    char value[16];
    size_t count;
    CHECK(bigrosk_ini_load_str("a = x\\0y\n", &d, &f) == BIGROSK_INI_OK);
    CHECK(bigrosk_ini_get_str(&d, NULL, "a", value, sizeof value, &count) == BIGROSK_INI_OK && count == 3
        && !memcmp(value, "x\0y", 4));
    bigrosk_ini_free(&d);
}

/* whether the walk's next text is this */
static bool is_next(struct bigrosk_ini_walk *walk, const char *want)
{
    size_t count;
    if (bigrosk_ini_is_over(walk)) return false;
    const char *text = bigrosk_ini_text(walk, &count);
    if (!text || !want) return text == want && count == BIGROSK_INI_UNNAMED;
    return !strcmp(text, want) && count == strlen(want);
}

static void walks(void)
{
    document d = BIGROSK_INI_EMPTY;
    fault f;
    uint8_t bytes[64];
    size_t counts[16];
    struct bigrosk_ini_sizes sizes = BIGROSK_INI_NO_SIZES;
    struct bigrosk_ini_walk walk;
    CHECK(bigrosk_ini_load_str("a=1\n[s]\nk=one\nj=\nk=two\n[]\n[s]\nk=gr\xc3\xbcn\n", &d, &f) == BIGROSK_INI_OK);

    /* all values of a key; what doesn't fit leaves both buffers */
    memset(bytes, 'x', sizeof bytes);
    counts[0] = 77;
    CHECK(bigrosk_ini_get_all_str(&d, "s", "k", bytes, 0, counts, 0, &sizes) == BIGROSK_INI_NO_ROOM);
    CHECK(sizes.bytes == 8 && sizes.counts == 2);
    CHECK(bigrosk_ini_get_all_str(&d, "s", "k", bytes, 7, counts, 2, &sizes) == BIGROSK_INI_NO_ROOM);
    CHECK(bigrosk_ini_get_all_str(&d, "s", "k", bytes, 8, counts, 1, &sizes) == BIGROSK_INI_NO_ROOM);
    CHECK(bytes[0] == 'x' && counts[0] == 77 && sizes.bytes == 8 && sizes.counts == 2);
    CHECK(bigrosk_ini_get_all_str(&d, "s", "k", bytes, 8, counts, 2, &sizes) == BIGROSK_INI_OK && bytes[8] == 'x');
    walk = bigrosk_ini_walk_over(bytes, counts, sizes);
    CHECK(is_next(&walk, "one") && is_next(&walk, "two") && bigrosk_ini_is_over(&walk));
    CHECK(bigrosk_ini_get_all_str(&d, "s", "z", bytes, 64, counts, 16, &sizes) == BIGROSK_INI_ABSENT);
    CHECK(bigrosk_ini_get_all_str(&d, "t", "k", bytes, 64, counts, 16, &sizes) == BIGROSK_INI_ABSENT);
    CHECK(bigrosk_ini_get_all_str(&d, "s", "\xff", bytes, 64, counts, 16, &sizes) == BIGROSK_INI_NOT_UTF8);

    /* a section's pairs */
    CHECK(bigrosk_ini_pairs_str(&d, "s", bytes, 64, counts, 16, &sizes) == BIGROSK_INI_OK && sizes.counts == 6);
    walk = bigrosk_ini_walk_over(bytes, counts, sizes);
    CHECK(is_next(&walk, "k") && is_next(&walk, "one") && is_next(&walk, "j") && is_next(&walk, ""));
    CHECK(is_next(&walk, "k") && is_next(&walk, "two") && bigrosk_ini_is_over(&walk));
    CHECK(bigrosk_ini_pairs_str(&d, "", bytes, 0, counts, 0, &sizes) == BIGROSK_INI_OK && sizes.counts == 0);
    CHECK(bigrosk_ini_pairs_str(&d, "t", bytes, 64, counts, 16, &sizes) == BIGROSK_INI_ABSENT);
    CHECK(bigrosk_ini_pairs_str(&d, "\xff", bytes, 64, counts, 16, &sizes) == BIGROSK_INI_NOT_UTF8);
    CHECK(bigrosk_ini_pairs_str(&d, NULL, bytes, 3, counts, 2, &sizes) == BIGROSK_INI_NO_ROOM && sizes.bytes == 4);

    /* the document, in which two sections have one name */
    CHECK(bigrosk_ini_items(&d, bytes, 64, counts, 16, &sizes) == BIGROSK_INI_NO_ROOM && sizes.counts == 18);
    size_t more[18];
    CHECK(bigrosk_ini_items(&d, bytes, 64, more, 18, &sizes) == BIGROSK_INI_OK);
    walk = bigrosk_ini_walk_over(bytes, more, sizes);
    CHECK(is_next(&walk, NULL) && bigrosk_ini_number(&walk) == 1 && is_next(&walk, "a") && is_next(&walk, "1"));
    CHECK(is_next(&walk, "s") && bigrosk_ini_number(&walk) == 3 && is_next(&walk, "k") && is_next(&walk, "one"));
    CHECK(is_next(&walk, "j") && is_next(&walk, "") && is_next(&walk, "k") && is_next(&walk, "two"));
    CHECK(is_next(&walk, "") && bigrosk_ini_number(&walk) == 0);
    CHECK(is_next(&walk, "s") && bigrosk_ini_number(&walk) == 1 && is_next(&walk, "k") && is_next(&walk, "gr\xc3\xbcn"));
    CHECK(bigrosk_ini_is_over(&walk));
    bigrosk_ini_free(&d);
}

/* 100,000 pairs of one section are walked in under a second, after a pair was taken out, too */
static void long_walk(void)
{
    enum { pairs = 100000 };
    document d = BIGROSK_INI_EMPTY;
    fault f;
    struct bigrosk_ini_sizes sizes;
    char *text = malloc(32 * pairs), *end = text;
    uint8_t *bytes = malloc(32 * pairs);
    size_t *counts = malloc(2 * pairs * sizeof *counts), found = 0;
    for (int i = 0; i < pairs; i++) end += sprintf(end, "key%d=value%d\n", i, i);
    CHECK(bigrosk_ini_load_str(text, &d, &f) == BIGROSK_INI_OK);
    CHECK(bigrosk_ini_delete_str(&d, NULL, "key7") == BIGROSK_INI_OK);
    clock_t start = clock();
    CHECK(bigrosk_ini_pairs_str(&d, NULL, bytes, 32 * pairs, counts, 2 * pairs, &sizes) == BIGROSK_INI_OK);
    struct bigrosk_ini_walk walk = bigrosk_ini_walk_over(bytes, counts, sizes);
    while (!bigrosk_ini_is_over(&walk)) bigrosk_ini_text(&walk, NULL);
    CHECK(clock() - start < CLOCKS_PER_SEC);
    walk = bigrosk_ini_walk_over(bytes, counts, sizes);
    for (int i = 0; !bigrosk_ini_is_over(&walk); i++) {
        char key[32], value[32];
        if (i == 7) i++;
        sprintf(key, "key%d", i);
        sprintf(value, "value%d", i);
        found += is_next(&walk, key) && is_next(&walk, value);
    }
    CHECK(found == pairs - 1);
    bigrosk_ini_free(&d);
    free(text);
    free(bytes);
    free(counts);
}

enum edit { set, del, add, rename_key, del_section, rename_section };

/* an edit of the text, by these options; the value is the new key or the new name where the edit renames */
static uint32_t edit_by(enum edit what, const struct bigrosk_ini_read_option *read,
                        const struct bigrosk_ini_write_option *write, const char *text, const char *section,
                        const char *key, const char *value, uint8_t *out, size_t room, size_t *count, fault *f)
{
    const uint8_t *t = bigrosk_ini_bytes(text), *s = bigrosk_ini_bytes(section), *k = bigrosk_ini_bytes(key);
    const uint8_t *v = bigrosk_ini_bytes(value);
    size_t texts = bigrosk_ini_count(text), sections = bigrosk_ini_count(section), keys = bigrosk_ini_count(key);
    size_t values = bigrosk_ini_count(value);
    bool named = section != NULL;
    switch (what) {
    case del: return bigrosk_ini_edit_delete(t, texts, read, named, s, sections, k, keys, out, room, count, f);
    case add:
        return bigrosk_ini_edit_add(t, texts, read, write, named, s, sections, k, keys, v, values, out, room, count, f);
    case rename_key:
        return bigrosk_ini_edit_rename_key(t, texts, read, write, named, s, sections, k, keys, v, values, out, room, count, f);
    case del_section: return bigrosk_ini_edit_delete_section(t, texts, read, s, sections, out, room, count, f);
    case rename_section:
        return bigrosk_ini_edit_rename_section(t, texts, read, write, s, sections, v, values, out, room, count, f);
    default:
        return bigrosk_ini_edit_set(t, texts, read, write, named, s, sections, k, keys, v, values, out, room, count, f);
    }
}

/* whether the edit gives this text, or where want is NULL this status, and then leaves buffer and fault */
static bool is_edited_by(enum edit what, const struct bigrosk_ini_read_option *read,
                         const struct bigrosk_ini_write_option *write, const char *text, const char *section,
                         const char *key, const char *value, const char *want, uint32_t refused)
{
    fault f;
    memset(&f, 'f', sizeof f);
    uint8_t out[256], none[1] = { 'x' };
    memset(out, 'y', sizeof out);
    size_t count = 0, room;
    if (!want) {
        uint32_t status = edit_by(what, read, write, text, section, key, value, out, sizeof out, &count, &f);
        if (status != refused) printf("%s: status %u\n", text, (unsigned)status);
        return status == refused && out[0] == 'y' && f.message[0] == 'f';
    }
    /* what it takes is reported; one byte less is refused, and leaves the buffer; that many and a 0 fit */
    bool good = edit_by(what, read, write, text, section, key, value, none, 0, &count, &f) == BIGROSK_INI_NO_ROOM;
    good = good && none[0] == 'x' && count == strlen(want);
    room = strlen(want);
    good = good && edit_by(what, read, write, text, section, key, value, out, room, &count, &f) == BIGROSK_INI_NO_ROOM;
    good = good && out[0] == 'y' && count == room;
    good = good && edit_by(what, read, write, text, section, key, value, out, room + 1, &count, &f) == BIGROSK_INI_OK;
    good = good && count == room && !strcmp((char *)out, want) && out[room + 1] == 'y' && f.message[0] == 'f';
    if (!good) printf("%s: %.*s\n", text, (int)count, (char *)out);
    return good;
}

static bool is_edited(enum edit what, const char *text, const char *section, const char *key, const char *value,
                      const char *want)
{
    return is_edited_by(what, &usual, &plain, text, section, key, value, want, 0);
}

static bool is_left(enum edit what, const char *text, const char *section, const char *key, const char *value,
                    uint32_t status)
{
    return is_edited_by(what, &usual, &plain, text, section, key, value, NULL, status);
}

static void text_edits(void)
{
    struct bigrosk_ini_write_option spaced = { BIGROSK_INI_EVERYTHING, true, 1 };
    struct bigrosk_ini_read_option lines = { true, true, true, false, false };
    /* a value */
    CHECK(is_edited(set, "; c\n[s]\n  port\t= 80   \n# d\n", "s", "port", "443", "; c\n[s]\n  port\t= 443   \n# d\n"));
    CHECK(is_edited(set, "[s]\nport='80'\n", "s", "port", "443", "[s]\nport='443'\n"));
    CHECK(is_edited(set, "[s]\nport=\"80\" \n", "s", "port", "8\"0", "[s]\nport=8\"0 \n"));
    CHECK(is_edited(set, "[s]\nport=80\n# old\nport=81\nhost=h\n", "s", "port", "443",
                    "[s]\nport=443\n# old\nhost=h\n"));
    CHECK(is_edited(set, "[s] port=80\r\n", "s", "port", "", "[s] port=\r\n"));
    CHECK(is_edited(set, "gr\xc3\xbc\xc3\x9f: x", NULL, "gr\xc3\xbc\xc3\x9f", "a\tb", "gr\xc3\xbc\xc3\x9f: a\\tb"));
    CHECK(is_edited_by(set, &usual, &spaced, "a=b\n", NULL, "a", "\xc3\xbc", "a=\\x00fc\n", 0));
    CHECK(is_edited(set, "[s]\na=1\n[s]\nb=2\n", "s", "b", "3", "[s]\na=1\nb=3\n[s]\nb=2\n"));
    CHECK(is_edited(set, "host=h\n", "server", "port", "443", "host=h\n\n[server]\nport=443\n"));
    CHECK(is_left(set, "host=h\n", "a\nb", "", "443", BIGROSK_INI_UNPLAIN_KEY));
    CHECK(is_left(set, "host=h\n", " s", "port", "443", BIGROSK_INI_UNPLAIN_NAME));
    CHECK(is_edited(set, "a=1\n", NULL, "a", " 1", "a=\" 1\"\n"));
    CHECK(is_left(set, "a=1\n", NULL, "a", " \"'", BIGROSK_INI_UNPLAIN_VALUE));
    CHECK(is_left(set, "= no key", NULL, "a", "'1\"", BIGROSK_INI_UNPLAIN_VALUE));
    CHECK(is_left(set, "a=1\n", NULL, "a", "\xff", BIGROSK_INI_NOT_UTF8));
    CHECK(is_left(set, "a=1\n\xff", NULL, "a", " ", BIGROSK_INI_NOT_UTF8));
    /* a pair taken out */
    CHECK(is_edited(del, "[a]\nk=v\n# c\n", "a", "k", NULL, "[a]\n# c\n"));
    CHECK(is_edited(del, "[a]k=v\n# c", "a", "k", NULL, "[a]\n# c"));
    CHECK(is_edited(del, "k=1\nk=2\n", NULL, "k", NULL, "k=2\n"));
    CHECK(is_edited_by(del, &lines, &plain, "[a]\nk=v\n  w\n\nj=w", "a", "k", NULL, "[a]\n\nj=w", 0));
    CHECK(is_left(del, "[a]\nk=v\n", "a", "v", NULL, BIGROSK_INI_ABSENT));
    CHECK(is_left(del, "[a]\nk=v\n", "\xff", "k", NULL, BIGROSK_INI_NOT_UTF8));
    /* a new line */
    CHECK(is_edited(set, "[a]\nj=w\n# of b\n[b]", "a", "k", "v", "[a]\nj=w\nk=v\n# of b\n[b]"));
    CHECK(is_edited(set, "[a][b]", "a", "k", "v", "[a]\nk=v\n[b]"));
    CHECK(is_edited(set, "", NULL, "k", "v", "k=v\n"));
    CHECK(is_edited_by(set, &usual, &spaced, "[a]\r\nj=w\r\n", "a", "k", "v", "[a]\r\nj=w\r\nk=v\r\n", 0));
    CHECK(is_edited(set, "[a]\nj=w", "b", "k", "v", "[a]\nj=w\n\n[b]\nk=v\n"));
    CHECK(is_left(set, "[a]\n", " b", "k", "v", BIGROSK_INI_UNPLAIN_NAME));
    CHECK(is_left(set, "[a]\n", "a", "", "v", BIGROSK_INI_UNPLAIN_KEY));
    CHECK(is_left(set, "[a]\n", "a", "", " \"'", BIGROSK_INI_UNPLAIN_VALUE));
    CHECK(is_left(set, "[a]\n", "a", "\xff", "v", BIGROSK_INI_NOT_UTF8));
    CHECK(is_edited_by(set, &lines, &plain, "[a]\n  k", "a", "j", "v", NULL, BIGROSK_INI_NO_PLACE));
}

/* a further pair, and renames */
static void more_text_edits(void)
{
    struct bigrosk_ini_write_option spaced = { BIGROSK_INI_EVERYTHING, true, 1 };
    struct bigrosk_ini_read_option lines = { true, true, true, false, false };
    struct bigrosk_ini_read_option indents = { true, true, false, true, false };
    /* a further pair */
    CHECK(is_edited(add, "[a]\nj=w\n# of b\n[b]", "a", "k", "v", "[a]\nj=w\nk=v\n# of b\n[b]"));
    CHECK(is_edited(add, "[a]\nk=u\nj=w\n", "a", "k", "v", "[a]\nk=u\nj=w\nk=v\n"));
    CHECK(is_edited(add, "[a][b]", "a", "k", "v", "[a]\nk=v\n[b]"));
    CHECK(is_edited(add, "[a]j=\\", "a", "k", "v", "[a]j=\\\\\nk=v\n"));
    CHECK(is_edited(add, "host=h\n", "server", "port", "443", "host=h\n\n[server]\nport=443\n"));
    CHECK(is_edited_by(add, &usual, &spaced, "k=u\n", NULL, "k", "\xc3\xbc", "k=u\nk=\\x00fc\n", 0));
    CHECK(is_edited_by(add, &usual, &spaced, "", NULL, "k", "v", "k = v\r\n", 0));
    CHECK(is_left(add, "= no key", "a", "", " \"'", BIGROSK_INI_UNPLAIN_VALUE));
    CHECK(is_left(add, "= no key", "a", "", "v", BIGROSK_INI_UNPLAIN_KEY));
    CHECK(is_left(add, "[a]\nk=u\n", " a", "k", "v", BIGROSK_INI_UNPLAIN_NAME));
    CHECK(is_left(add, "[a]\n", "a", "k", "\xff", BIGROSK_INI_NOT_UTF8));
    CHECK(is_left(add, "[a]\n\xff", "a", "k", " v", BIGROSK_INI_NOT_UTF8));
    CHECK(is_edited_by(add, &lines, &plain, "[a]\n  k", "a", "j", "v", NULL, BIGROSK_INI_NO_PLACE));
    /* another key */
    CHECK(is_edited(rename_key, "[a]\n  k\t= 'v'   \n# c\n", "a", "k", "new", "[a]\n  new\t= 'v'   \n# c\n"));
    CHECK(is_edited(rename_key, "k=1\nk=2\n", NULL, "k", "new", "new=1\nk=2\n"));
    CHECK(is_edited_by(rename_key, &lines, &plain, "[a]k=v\n  w\n", "a", "k", "new", "[a]new=v\n  w\n", 0));
    CHECK(is_edited_by(rename_key, &indents, &plain, "\tk =v\n", NULL, "\tk", "new", "new =v\n", 0));
    CHECK(is_edited_by(rename_key, &usual, &spaced, "k=v", NULL, "k", "\xc3\xbc", "\\x00fc=v", 0));
    CHECK(is_left(rename_key, "[a]\nk=v\n", NULL, "k", "new", BIGROSK_INI_ABSENT));
    CHECK(is_left(rename_key, "= no key", NULL, "k", "", BIGROSK_INI_UNPLAIN_KEY));
    CHECK(is_left(rename_key, "k=v", NULL, "k", " new", BIGROSK_INI_UNPLAIN_KEY));
    CHECK(is_left(rename_key, "k=v", NULL, "k", "\xff", BIGROSK_INI_NOT_UTF8));
    /* a section taken out */
    CHECK(is_edited(del_section, "[a]\n# of k\nk=v\n\n# of b\n[b]", "a", NULL, NULL, "# of b\n[b]"));
    CHECK(is_edited(del_section, "[a] [b]\nk=v", "a", NULL, NULL, "[b]\nk=v"));
    CHECK(is_edited(del_section, "[b] [a]\nk=v\n# of c\n[c]", "a", NULL, NULL, "[b] \n# of c\n[c]"));
    CHECK(is_edited(del_section, "  [a]\nk=v\n  [b]", "a", NULL, NULL, "  [b]"));
    CHECK(is_left(del_section, "a=1\n[a]\n", "", NULL, NULL, BIGROSK_INI_ABSENT));
    CHECK(is_left(del_section, "[a]\n", "\xff", NULL, NULL, BIGROSK_INI_NOT_UTF8));
    /* another name */
    CHECK(is_edited(rename_section, "# c\n [ a ] \nk=v", "a", NULL, "x", "# c\n [x] \nk=v"));
    CHECK(is_edited(rename_section, "[b] [a]k=v", "a", NULL, "x", "[b] [x]k=v"));
    CHECK(is_edited(rename_section, "[a]\n[b]\n[a]\n", "a", NULL, "b", "[b]\n[b]\n[a]\n"));
    CHECK(is_edited_by(rename_section, &usual, &spaced, "[a]", "a", NULL, "\xc3\xbc", "[\\x00fc]", 0));
    CHECK(is_left(rename_section, "a=1\n", "a", NULL, "x", BIGROSK_INI_ABSENT));
    CHECK(is_left(rename_section, "= no key", "a", NULL, " x", BIGROSK_INI_UNPLAIN_NAME));
    CHECK(is_left(rename_section, "[a]", "a", NULL, "\xff", BIGROSK_INI_NOT_UTF8));
}

/* whether each edit of the text is refused so, and the buffer stays */
static bool are_edits_refused(const char *text, uint32_t kind, size_t line, size_t column, const char *message)
{
    bool same = true;
    for (enum edit what = set; what <= rename_section; what++) {
        fault f = { 0, 0, 0, "" };
        uint8_t out[64] = "as it was";
        size_t count = 0;
        same = edit_by(what, &usual, &plain, text, NULL, "a", "2", out, sizeof out, &count, &f) == BIGROSK_INI_BROKEN
            && f.kind == kind && f.line == line && f.column == column && !strcmp(f.message, message)
            && !strcmp((char *)out, "as it was") && same;
    }
    return same;
}

static void refused_text_edits(void)
{
    CHECK(are_edits_refused("a=1\n =v", BIGROSK_INI_MISSING_KEY, 2, 3, "missing key"));
    CHECK(are_edits_refused("a=1\nb=\\xD800", BIGROSK_INI_UNKNOWN_CHARACTER, 2, 9, "unknown character in \\xHH form"));
    /* the helpers for strings, and a mark */
    char out[64];
    fault f;
    size_t count, mark;
    CHECK(bigrosk_ini_edit_set_str("a=1 \n", NULL, "a", "2", out, sizeof out, &count, &f) == BIGROSK_INI_OK
        && !strcmp(out, "a=2 \n") && count == 5);
    CHECK(bigrosk_ini_edit_set_str("[s]", "s", "a", "2", out, sizeof out, &count, &f) == BIGROSK_INI_OK
        && !strcmp(out, "[s]\na=2\n"));
    CHECK(bigrosk_ini_edit_delete_str("[s]\na=2\n", "s", "a", out, sizeof out, &count, &f) == BIGROSK_INI_OK
        && !strcmp(out, "[s]\n"));
    CHECK(bigrosk_ini_edit_add_str("[s]\na=1\n", "s", "a", "2", out, sizeof out, &count, &f) == BIGROSK_INI_OK
        && !strcmp(out, "[s]\na=1\na=2\n"));
    CHECK(bigrosk_ini_edit_rename_key_str("a=1", NULL, "a", "b", out, sizeof out, &count, &f) == BIGROSK_INI_OK
        && !strcmp(out, "b=1"));
    CHECK(bigrosk_ini_edit_delete_section_str("a=1\n[s]\na=2\n", "s", out, sizeof out, &count, &f) == BIGROSK_INI_OK
        && !strcmp(out, "a=1\n"));
    CHECK(bigrosk_ini_edit_delete_section_str("a=1\n[]", NULL, out, sizeof out, &count, &f) == BIGROSK_INI_ABSENT);
    CHECK(bigrosk_ini_edit_rename_section_str("[s]\n", "s", "t", out, sizeof out, &count, &f) == BIGROSK_INI_OK
        && !strcmp(out, "[t]\n"));
    CHECK(bigrosk_ini_edit_rename_section_str("[]\n", NULL, "t", out, sizeof out, &count, &f) == BIGROSK_INI_ABSENT);
    const char *marked = "\xef\xbb\xbf" "a=1";
    mark = bigrosk_ini_mark((const uint8_t *)marked, strlen(marked));
    CHECK(mark == 3 && bigrosk_ini_mark((const uint8_t *)"\xef\xbb", 2) == 0);
    CHECK(bigrosk_ini_edit_delete_str(marked, NULL, "a", out, sizeof out, &count, &f) == BIGROSK_INI_ABSENT);
    CHECK(bigrosk_ini_edit_set_str(marked + mark, NULL, "a", "2", out, sizeof out, &count, &f) == BIGROSK_INI_OK);
}

/* as many documents as one likes; a document may be moved, and loaded over */
static void many(void)
{
    document all[100];
    fault f;
    char number[16];
    bool good = true;
    for (int i = 0; i < 100; i++) {
        all[i] = (document)BIGROSK_INI_EMPTY;
        sprintf(number, "%d", i);
        good = good && bigrosk_ini_load_str("[a]\nb=c\n", &all[i], &f) == BIGROSK_INI_OK;
        good = good && bigrosk_ini_load_str("[a]\nb=d\n", &all[i], &f) == BIGROSK_INI_OK;
        good = good && bigrosk_ini_set_str(&all[i], "a", "n", number) == BIGROSK_INI_OK;
    }
    document moved = all[42];
    all[42] = (document)BIGROSK_INI_EMPTY;
    CHECK(good && is_value(&moved, "a", "n", "42") && is_value(&all[99], "a", "n", "99"));
    bigrosk_ini_free(&moved);
    for (int i = 0; i < 100; i++) bigrosk_ini_free(&all[i]);
    CHECK(!all[0].is_open);
}

int main(void)
{
    nothing_is_loaded();
    words();
    look_ups();
    look_ups_by_no_text();
    loans();
    edits();
    refusals();
    options();
    walks();
    long_walk();
    text_edits();
    more_text_edits();
    refused_text_edits();
    many();
    printf("%d checks, %d failed\n", checks, failed);
    return failed != 0;
}
