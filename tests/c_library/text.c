/* Texts in pieces that stay open, what differs between them, typed look-ups, the buffer that grows, and files. The last line is 'N checks, M failed'. */
#include "checks.h"

typedef struct bigrosk_ini_text text;
typedef struct bigrosk_ini_place place;

static const char fleet[] =
    "; the fleet\nport = 8080\ntimeout: 30\n\n[paths]\n; where it logs\nlog   = /var/log/app\ncache = \"/c d\"\n";

/* whether the text as it now is is this one */
static bool is_text(text *t, const char *want)
{
    struct bigrosk_ini_buffer buffer = BIGROSK_INI_BUFFER_EMPTY;
    bool same = bigrosk_ini_text_to_buffer(t, &buffer) == BIGROSK_INI_OK && buffer.count == strlen(want)
        && !strcmp((const char *)buffer.bytes, want);
    if (!same) printf("the text:\n%s", buffer.bytes ? (const char *)buffer.bytes : "nothing\n");
    bigrosk_ini_buffer_free(&buffer);
    return same;
}

/* the text opened, from bytes that are gone then */
static uint32_t opened(text *t, const char *bytes, fault *f)
{
    size_t count = strlen(bytes);
    uint8_t *copy = malloc(count + 1);
    memcpy(copy, bytes, count + 1);
    uint32_t status = bigrosk_ini_text_open(copy, count, &usual, t, f);
    memset(copy, '#', count);
    free(copy);
    return status;
}

static bool is_value_of(text *t, const char *section, const char *key, const char *want)
{
    char value[256] = "";
    size_t count = 0;
    return bigrosk_ini_text_get_str(t, section, key, value, sizeof value, &count) == BIGROSK_INI_OK
        && !strcmp(value, want) && count == strlen(want);
}

static void nothing_is_open(void)
{
    text t = BIGROSK_INI_TEXT_EMPTY;
    char out[8] = "as is";
    size_t count = 7;
    place p = { 5, 6 };
    struct bigrosk_ini_sizes sizes = { 3, 4 };
    CHECK(bigrosk_ini_text_get_str(&t, NULL, "port", out, sizeof out, &count) == BIGROSK_INI_NO_DOCUMENT);
    CHECK(bigrosk_ini_text_has_str(&t, NULL, "port") == BIGROSK_INI_NO_DOCUMENT);
    CHECK(bigrosk_ini_text_place_str(&t, NULL, "port", &p) == BIGROSK_INI_NO_DOCUMENT && p.line == 5 && p.column == 6);
    CHECK(bigrosk_ini_text_set_str(&t, NULL, "port", "1") == BIGROSK_INI_NO_DOCUMENT);
    CHECK(bigrosk_ini_text_delete_str(&t, NULL, "port") == BIGROSK_INI_NO_DOCUMENT);
    CHECK(bigrosk_ini_text_write(&t, (uint8_t *)out, sizeof out, &count) == BIGROSK_INI_NO_DOCUMENT);
    CHECK(bigrosk_ini_text_items(&t, (uint8_t *)out, sizeof out, &count, 1, &sizes) == BIGROSK_INI_NO_DOCUMENT);
    CHECK(!strcmp(out, "as is") && count == 7 && sizes.bytes == 3);
    bigrosk_ini_text_close(&t);
    CHECK(!t.is_open);
}

static void look_ups(void)
{
    text t = BIGROSK_INI_TEXT_EMPTY;
    fault f = { 0, 0, 0, "" };
    place p = { 0, 0 };
    char value[64] = "";
    size_t count = 0;
    CHECK(opened(&t, fleet, &f) == BIGROSK_INI_OK && t.is_open);
    CHECK(is_text(&t, fleet));
    CHECK(is_value_of(&t, NULL, "port", "8080"));
    CHECK(is_value_of(&t, "paths", "cache", "/c d"));
    CHECK(bigrosk_ini_text_get_str(&t, "paths", "tmp", value, sizeof value, NULL) == BIGROSK_INI_ABSENT);
    CHECK(bigrosk_ini_text_get_str(&t, "\xff", "tmp", value, sizeof value, NULL) == BIGROSK_INI_NOT_UTF8);
    CHECK(bigrosk_ini_text_get_str(&t, "paths", "log", value, 12, &count) == BIGROSK_INI_NO_ROOM && count == 12);
    CHECK(bigrosk_ini_text_get_str(&t, "paths", "log", value, 13, &count) == BIGROSK_INI_OK && count == 12);
    CHECK(bigrosk_ini_text_has_str(&t, "paths", "log") == BIGROSK_INI_OK);
    CHECK(bigrosk_ini_text_has_section(&t, true, (const uint8_t *)"paths", 5) == BIGROSK_INI_OK);
    CHECK(bigrosk_ini_text_has_section(&t, true, (const uint8_t *)"path", 4) == BIGROSK_INI_ABSENT);
    struct bigrosk_ini_borrowed lent = BIGROSK_INI_NOTHING_BORROWED;
    CHECK(bigrosk_ini_text_borrow(&t, BIGROSK_INI_AT("paths", "cache"), &lent) == BIGROSK_INI_OK && lent.count == 4
        && !memcmp(lent.bytes, "/c d", 4));
    CHECK(bigrosk_ini_text_place_str(&t, NULL, "port", &p) == BIGROSK_INI_OK && p.line == 2 && p.column == 8);
    CHECK(bigrosk_ini_text_place_str(&t, "paths", "cache", &p) == BIGROSK_INI_OK && p.line == 8 && p.column == 9);
    CHECK(bigrosk_ini_text_place_str(&t, "paths", "none", &p) == BIGROSK_INI_ABSENT && p.line == 8);
    uint8_t bytes[128] = { 0 };
    size_t counts[16] = { 0 };
    struct bigrosk_ini_sizes sizes = BIGROSK_INI_NO_SIZES;
    CHECK(bigrosk_ini_text_items(&t, bytes, sizeof bytes, counts, 16, &sizes) == BIGROSK_INI_OK && sizes.counts == 12);
    struct bigrosk_ini_walk walk = bigrosk_ini_walk_over(bytes, counts, sizes);
    CHECK(bigrosk_ini_text(&walk, NULL) == NULL && bigrosk_ini_number(&walk) == 2);
    CHECK(!strcmp(bigrosk_ini_text(&walk, NULL), "port") && !strcmp(bigrosk_ini_text(&walk, NULL), "8080"));
    CHECK(bigrosk_ini_text_pairs(&t, true, (const uint8_t *)"paths", 5, bytes, 0, counts, 0, &sizes)
        == BIGROSK_INI_NO_ROOM && sizes.counts == 4);
    CHECK(opened(&t, "[a]\n= b\n", &f) == BIGROSK_INI_BROKEN && f.kind == BIGROSK_INI_MISSING_KEY && f.line == 2);
    CHECK(is_text(&t, fleet));
    CHECK(opened(&t, "k = v", &f) == BIGROSK_INI_OK && is_text(&t, "k = v"));
    bigrosk_ini_text_close(&t);
    bigrosk_ini_text_close(&t);
}

static void edits(void)
{
    text t = BIGROSK_INI_TEXT_EMPTY;
    fault f = { 0, 0, 0, "" };
    CHECK(opened(&t, fleet, &f) == BIGROSK_INI_OK);
    CHECK(bigrosk_ini_text_set_str(&t, NULL, "port", "9090") == BIGROSK_INI_OK);
    CHECK(bigrosk_ini_text_set_str(&t, "paths", "cache", "/e") == BIGROSK_INI_OK);
    CHECK(bigrosk_ini_text_set_str(&t, "paths", "tmp", "/tmp") == BIGROSK_INI_OK);
    CHECK(bigrosk_ini_text_set_str(&t, "new", "k", "v") == BIGROSK_INI_OK);
    CHECK(is_text(&t, "; the fleet\nport = 9090\ntimeout: 30\n\n[paths]\n; where it logs\nlog   = /var/log/app\n"
                      "cache = \"/e\"\ntmp = /tmp\n\n[new]\nk = v\n"));
    CHECK(bigrosk_ini_text_set_str(&t, NULL, "port", "a\nb\\\n") == BIGROSK_INI_OK);
    CHECK(is_value_of(&t, NULL, "port", "a\nb\\\n"));
    CHECK(bigrosk_ini_text_set_str(&t, NULL, "", "v") == BIGROSK_INI_UNPLAIN_KEY);
    CHECK(bigrosk_ini_text_set_str(&t, "]", "k", "v") == BIGROSK_INI_UNPLAIN_NAME);
    CHECK(bigrosk_ini_text_set_str(&t, NULL, "k", "\xc3") == BIGROSK_INI_NOT_UTF8);
    CHECK(bigrosk_ini_text_delete_str(&t, NULL, "port") == BIGROSK_INI_OK);
    CHECK(bigrosk_ini_text_delete_str(&t, NULL, "port") == BIGROSK_INI_ABSENT);
    CHECK(bigrosk_ini_text_delete_section(&t, (const uint8_t *)"new", 3) == BIGROSK_INI_OK);
    CHECK(bigrosk_ini_text_delete_section(&t, (const uint8_t *)"new", 3) == BIGROSK_INI_ABSENT);
    CHECK(bigrosk_ini_text_rename_key(&t, &plain, BIGROSK_INI_AT("paths", "log"), (const uint8_t *)"logs", 4)
        == BIGROSK_INI_OK);
    CHECK(bigrosk_ini_text_rename_key(&t, &plain, BIGROSK_INI_AT("paths", "logs"), (const uint8_t *)" x", 2)
        == BIGROSK_INI_UNPLAIN_KEY);
    CHECK(bigrosk_ini_text_rename_section(&t, &plain, (const uint8_t *)"paths", 5, (const uint8_t *)"files", 5)
        == BIGROSK_INI_OK);
    CHECK(bigrosk_ini_text_rename_section(&t, &plain, (const uint8_t *)"paths", 5, (const uint8_t *)"files", 5)
        == BIGROSK_INI_ABSENT);
    CHECK(bigrosk_ini_text_add_section(&t, &plain, (const uint8_t *)"files", 5) == BIGROSK_INI_THERE);
    CHECK(bigrosk_ini_text_add_section(&t, &plain, (const uint8_t *)"more", 4) == BIGROSK_INI_OK);
    CHECK(is_text(&t, "; the fleet\ntimeout: 30\n\n[files]\n; where it logs\nlogs   = /var/log/app\ncache = \"/e\"\n"
                      "tmp = /tmp\n\n[more]\n"));
    bigrosk_ini_text_close(&t);
}

static void comments(void)
{
    text t = BIGROSK_INI_TEXT_EMPTY;
    fault f = { 0, 0, 0, "" };
    uint8_t out[64] = { 0 };
    size_t count = 0;
    CHECK(opened(&t, fleet, &f) == BIGROSK_INI_OK);
    CHECK(bigrosk_ini_text_comment(&t, BIGROSK_INI_AT("paths", "log"), out, sizeof out, &count) == BIGROSK_INI_OK
        && !strcmp((char *)out, "; where it logs\n") && count == 16);
    CHECK(bigrosk_ini_text_comment(&t, BIGROSK_INI_AT("paths", "cache"), out, sizeof out, &count) == BIGROSK_INI_OK
        && count == 0);
    CHECK(bigrosk_ini_text_comment(&t, BIGROSK_INI_AT("paths", "no"), out, sizeof out, &count) == BIGROSK_INI_ABSENT);
    CHECK(bigrosk_ini_text_set_comment_str(&t, "paths", "cache", "no comment") == BIGROSK_INI_UNPLAIN_VALUE);
    CHECK(bigrosk_ini_text_set_comment_str(&t, "paths", "cache", "# warm") == BIGROSK_INI_OK);
    CHECK(bigrosk_ini_text_set_comment_str(&t, "paths", "log", "") == BIGROSK_INI_OK);
    CHECK(bigrosk_ini_text_comment_out(&t, BIGROSK_INI_AT(NULL, "timeout")) == BIGROSK_INI_OK);
    CHECK(bigrosk_ini_text_comment_out(&t, BIGROSK_INI_AT(NULL, "timeout")) == BIGROSK_INI_ABSENT);
    CHECK(is_text(&t, "; the fleet\nport = 8080\n; timeout: 30\n\n[paths]\nlog   = /var/log/app\n# warm\n"
                      "cache = \"/c d\"\n"));
    bigrosk_ini_text_close(&t);
}

static void repeated(void)
{
    text t = BIGROSK_INI_TEXT_EMPTY;
    fault f = { 0, 0, 0, "" };
    uint8_t bytes[64] = { 0 };
    size_t counts[8] = { 0 };
    struct bigrosk_ini_sizes sizes = BIGROSK_INI_NO_SIZES;
    CHECK(opened(&t, "[a]\nk = 1\nk = 2\nl = 0\nk = 3\n", &f) == BIGROSK_INI_OK);
    CHECK(bigrosk_ini_text_set_nth(&t, &plain, BIGROSK_INI_AT("a", "k"), 1, (const uint8_t *)"two", 3)
        == BIGROSK_INI_OK);
    CHECK(bigrosk_ini_text_set_nth(&t, &plain, BIGROSK_INI_AT("a", "k"), 3, (const uint8_t *)"4", 1)
        == BIGROSK_INI_ABSENT);
    CHECK(bigrosk_ini_text_add_str(&t, "a", "k", "4") == BIGROSK_INI_OK);
    CHECK(is_text(&t, "[a]\nk = 1\nk = two\nl = 0\nk = 3\nk = 4\n"));
    CHECK(bigrosk_ini_text_get_all(&t, BIGROSK_INI_AT("a", "k"), bytes, sizeof bytes, counts, 8, &sizes)
        == BIGROSK_INI_OK && sizes.counts == 4 && sizes.bytes == 10 && !memcmp(bytes, "1\0two\0003\0004", 10));
    CHECK(bigrosk_ini_text_delete_nth(&t, BIGROSK_INI_AT("a", "k"), 0) == BIGROSK_INI_OK);
    CHECK(bigrosk_ini_text_delete_nth(&t, BIGROSK_INI_AT("a", "k"), 3) == BIGROSK_INI_ABSENT);
    CHECK(bigrosk_ini_text_set_all(&t, &plain, BIGROSK_INI_AT("a", "k"), bytes, 10, counts, 4) == BIGROSK_INI_OK);
    CHECK(is_text(&t, "[a]\nk = 1\nl = 0\nk = two\nk = 3\nk = 4\n"));
    CHECK(bigrosk_ini_text_set_all(&t, &plain, BIGROSK_INI_AT("a", "k"), bytes, 9, counts, 4)
        == BIGROSK_INI_NOT_UTF8);
    CHECK(bigrosk_ini_text_set_all(&t, &plain, BIGROSK_INI_AT("a", "k"), bytes, 2, counts, 1) == BIGROSK_INI_OK);
    CHECK(is_text(&t, "[a]\nk = 1\nl = 0\n"));
    CHECK(bigrosk_ini_text_delete_all(&t, BIGROSK_INI_AT("a", "k")) == BIGROSK_INI_OK);
    CHECK(bigrosk_ini_text_delete_all(&t, BIGROSK_INI_AT("a", "k")) == BIGROSK_INI_ABSENT);
    CHECK(is_text(&t, "[a]\nl = 0\n"));
    bigrosk_ini_text_close(&t);
}

static const char before[] = "# of the text\nport = 80\nname = web\n\n[paths]\nlog = /a\ncache = /c\n";
static const char after[] = "name = web\nport = 443\n[paths]\ncache = /c\ntmp = /t\n[more]\nk = v\n";

static void differences(void)
{
    text from = BIGROSK_INI_TEXT_EMPTY, to = BIGROSK_INI_TEXT_EMPTY;
    fault f = { 0, 0, 0, "" };
    uint8_t bytes[64] = { 'x' };
    size_t counts[24] = { 7 }, n = BIGROSK_INI_UNNAMED, number = 5;
    struct bigrosk_ini_sizes sizes = BIGROSK_INI_NO_SIZES;
    CHECK(bigrosk_ini_text_diff(&from, &to, bytes, 64, counts, 24, &sizes) == BIGROSK_INI_NO_DOCUMENT);
    CHECK(bigrosk_ini_text_apply(&from, &plain, bytes, 0, counts, 0, &number) == BIGROSK_INI_NO_DOCUMENT);
    CHECK(opened(&from, before, &f) == BIGROSK_INI_OK);
    CHECK(bigrosk_ini_text_diff(&from, &to, bytes, 64, counts, 24, &sizes) == BIGROSK_INI_NO_DOCUMENT);
    CHECK(bigrosk_ini_text_diff(&to, &from, bytes, 64, counts, 24, &sizes) == BIGROSK_INI_NO_DOCUMENT);
    CHECK(opened(&to, after, &f) == BIGROSK_INI_OK);
    CHECK(bigrosk_ini_text_diff(&from, &to, bytes, 46, counts, 24, &sizes) == BIGROSK_INI_NO_ROOM);
    CHECK(bigrosk_ini_text_diff(&from, &to, bytes, 47, counts, 15, &sizes) == BIGROSK_INI_NO_ROOM);
    CHECK(sizes.bytes == 47 && sizes.counts == 16 && bytes[0] == 'x' && counts[0] == 7 && number == 5);
    CHECK(bigrosk_ini_text_diff(&from, &to, bytes, 47, counts, 16, &sizes) == BIGROSK_INI_OK);
    const char texts[] = "port\0" "80\0" "443\0" "paths\0" "tmp\0" "/t\0" "more\0" "k\0" "v\0" "paths\0" "log\0" "/a";
    const size_t lengths[] = { n, 4, 2, 3, 5, 3, n, 2, 4, 1, n, 1, 5, 3, 2, n };
    CHECK(sizes.bytes == sizeof texts && !memcmp(bytes, texts, sizeof texts));
    CHECK(sizes.counts == 16 && !memcmp(counts, lengths, sizeof lengths));
    struct bigrosk_ini_walk walk = bigrosk_ini_walk_over(bytes, counts, sizes);
    CHECK(bigrosk_ini_text(&walk, NULL) == NULL && !strcmp(bigrosk_ini_text(&walk, NULL), "port"));
    CHECK(bigrosk_ini_text_apply(&from, &plain, bytes, 47, counts, 16, &number) == BIGROSK_INI_OK && number == 5);
    CHECK(is_text(&from, "# of the text\nport = 443\nname = web\n\n[paths]\ncache = /c\ntmp = /t\n\n[more]\nk = v\n"));
    CHECK(is_text(&to, after));
    CHECK(bigrosk_ini_text_diff(&from, &to, bytes, 0, counts, 0, &sizes) == BIGROSK_INI_OK && sizes.counts == 0);
    CHECK(opened(&to, "[paths]\nlog = 1\nother = 2\nlog = 3\n", &f) == BIGROSK_INI_OK);
    CHECK(bigrosk_ini_text_apply(&to, &plain, (const uint8_t *)texts + 34, 13, lengths + 12, 4, &number)
        == BIGROSK_INI_OK && is_text(&to, "[paths]\nother = 2\n"));
    bigrosk_ini_text_close(&from);
    bigrosk_ini_text_close(&to);
}

/* Changes of which the second one is refused, and what is no list of changes: the text stays. */
static void refused_changes(void)
{
    text t = BIGROSK_INI_TEXT_EMPTY;
    fault f = { 0, 0, 0, "" };
    size_t n = BIGROSK_INI_UNNAMED, number = 5;
    const uint8_t *bytes = (const uint8_t *)"a\0" "1\0" "\0" "v\0" "]\0" "k\0" "v";
    const size_t two[] = { n, 1, n, 1, n, 0, n, 1 }, section[] = { 1, 1, n, 1 }, no_key[] = { n, n, n, 1 };
    CHECK(opened(&t, "k = v\n", &f) == BIGROSK_INI_OK);
    CHECK(bigrosk_ini_text_apply(&t, &plain, bytes, 7, two, 7, &number) == BIGROSK_INI_NOT_UTF8);
    CHECK(bigrosk_ini_text_apply(&t, &plain, bytes, 6, two, 8, &number) == BIGROSK_INI_NOT_UTF8);
    CHECK(bigrosk_ini_text_apply(&t, &plain, bytes, 7, no_key, 4, &number) == BIGROSK_INI_NOT_UTF8);
    CHECK(bigrosk_ini_text_apply(&t, &plain, (const uint8_t *)"\xff\0" "1", 4, two, 4, &number) == BIGROSK_INI_NOT_UTF8);
    CHECK(number == 5 && is_text(&t, "k = v\n"));
    CHECK(bigrosk_ini_text_apply(&t, &plain, bytes, 7, two, 8, &number) == BIGROSK_INI_UNPLAIN_KEY && number == 1);
    CHECK(bigrosk_ini_text_apply(&t, &plain, bytes + 7, 6, section, 4, &number) == BIGROSK_INI_UNPLAIN_NAME);
    CHECK(number == 0 && is_text(&t, "k = v\n"));
    CHECK(bigrosk_ini_text_apply(&t, &plain, bytes, 7, two, 0, &number) == BIGROSK_INI_OK && is_text(&t, "k = v\n"));
    CHECK(bigrosk_ini_text_apply(&t, &plain, bytes, 7, two, 4, &number) == BIGROSK_INI_OK);
    CHECK(is_text(&t, "k = v\na = 1\n"));
    bigrosk_ini_text_close(&t);
}

static void merges(void)
{
    text base = BIGROSK_INI_TEXT_EMPTY, ours = BIGROSK_INI_TEXT_EMPTY, theirs = BIGROSK_INI_TEXT_EMPTY;
    fault f = { 0, 0, 0, "" };
    uint8_t bytes[64] = { 'x' };
    size_t counts[8] = { 7 }, number = 5;
    struct bigrosk_ini_sizes sizes = BIGROSK_INI_NO_SIZES;
    struct bigrosk_ini_read_option bare = { false, false, false, false, false };
    const char *mine = "a = 2\nb = 1\nc = 2\nd = 1\n", *others = "# theirs\na = 1\nb = 3\nc = 3\nd = 1\n";
    CHECK(opened(&base, "a = 1\nb = 1\nc = 1\nd = 1\n", &f) == BIGROSK_INI_OK);
    CHECK(opened(&ours, mine, &f) == BIGROSK_INI_OK);
    CHECK(bigrosk_ini_text_conflicts(&base, &ours, &theirs, bytes, 64, counts, 8, &sizes) == BIGROSK_INI_NO_DOCUMENT);
    CHECK(bigrosk_ini_text_merge3(&base, &ours, &theirs, &plain, true, &number) == BIGROSK_INI_NO_DOCUMENT);
    CHECK(bigrosk_ini_text_merge3(&base, &theirs, &ours, &plain, true, &number) == BIGROSK_INI_NO_DOCUMENT);
    CHECK(bigrosk_ini_text_merge3(&theirs, &base, &ours, &plain, true, &number) == BIGROSK_INI_NO_DOCUMENT);
    CHECK(opened(&theirs, others, &f) == BIGROSK_INI_OK);
    CHECK(bigrosk_ini_text_conflicts(&base, &ours, &theirs, bytes, 7, counts, 8, &sizes) == BIGROSK_INI_NO_ROOM);
    CHECK(sizes.bytes == 8 && sizes.counts == 5 && bytes[0] == 'x' && counts[0] == 7);
    CHECK(bigrosk_ini_text_conflicts(&base, &ours, &theirs, bytes, 8, counts, 5, &sizes) == BIGROSK_INI_OK);
    CHECK(!memcmp(bytes, "c\0" "1\0" "2\0" "3", 8) && counts[0] == BIGROSK_INI_UNNAMED && counts[1] == 1);
    CHECK(bigrosk_ini_text_merge3(&base, &ours, &theirs, &plain, false, &number) == BIGROSK_INI_OK && number == 5);
    CHECK(is_text(&theirs, "# theirs\na = 2\nb = 3\nc = 3\nd = 1\n") && is_text(&ours, mine));
    CHECK(opened(&theirs, others, &f) == BIGROSK_INI_OK);
    CHECK(bigrosk_ini_text_merge3(&base, &ours, &theirs, &plain, true, &number) == BIGROSK_INI_OK);
    CHECK(is_text(&theirs, "# theirs\na = 2\nb = 3\nc = 2\nd = 1\n"));
    /* a value that these reading options have no form of */
    CHECK(opened(&ours, "a = 1\nb = \"x\\ny\"\nc = 1\nd = 1\n", &f) == BIGROSK_INI_OK);
    CHECK(bigrosk_ini_text_open((const uint8_t *)"a = 1\nb = 1\n", 12, &bare, &theirs, &f) == BIGROSK_INI_OK);
    CHECK(bigrosk_ini_text_merge3(&base, &ours, &theirs, &plain, true, &number) == BIGROSK_INI_UNPLAIN_VALUE);
    CHECK(number == 0 && is_text(&theirs, "a = 1\nb = 1\n"));
    bigrosk_ini_text_close(&base);
    bigrosk_ini_text_close(&ours);
    bigrosk_ini_text_close(&theirs);
}

/* Sections of a name as one, of which the last value counts: what only the default rule looks at differs not, pairs that don't
 * count stay, and a setting that is taken out loses all. */
static void joined_sections(void)
{
    static const char first[] = "[s]\nk = 1\nk = 2\n[t]\na = 1\n[s]\nk = 3\nm = 1\n";
    static const char second[] = "[s]\nk = 1\n[t]\na = 2\n[s]\nk = 4\n";
    const struct bigrosk_ini_lookup usual_rule = BIGROSK_INI_LOOKUP_DEFAULT;
    struct bigrosk_ini_lookup rule = usual_rule;
    text from = BIGROSK_INI_TEXT_EMPTY, to = BIGROSK_INI_TEXT_EMPTY;
    fault f = { 0, 0, 0, "" };
    uint8_t bytes[64] = { 'x' };
    size_t counts[24] = { 7 }, n = BIGROSK_INI_UNNAMED, number = 5;
    struct bigrosk_ini_sizes sizes = BIGROSK_INI_NO_SIZES;
    rule.sections = BIGROSK_INI_SECTIONS_JOINED;
    rule.values = BIGROSK_INI_VALUES_LAST;
    CHECK(bigrosk_ini_text_diff_under(&from, &to, &rule, bytes, 64, counts, 24, &sizes) == BIGROSK_INI_NO_DOCUMENT);
    CHECK(bigrosk_ini_text_apply_under(&from, &rule, &plain, bytes, 0, counts, 0, &number) == BIGROSK_INI_NO_DOCUMENT);
    CHECK(opened(&from, first, &f) == BIGROSK_INI_OK && opened(&to, second, &f) == BIGROSK_INI_OK);
    /* by the default rule [s] has k = 1 in both */
    const size_t of_one[] = { 1, 1, 1, 1 };
    CHECK(bigrosk_ini_text_diff_under(&from, &to, &usual_rule, bytes, 64, counts, 24, &sizes) == BIGROSK_INI_OK);
    CHECK(sizes.bytes == 8 && !memcmp(bytes, "t\0" "a\0" "1\0" "2", 8));
    CHECK(sizes.counts == 4 && !memcmp(counts, of_one, sizeof of_one));
    CHECK(bigrosk_ini_text_diff_under(&from, &to, &rule, bytes, 21, counts, 24, &sizes) == BIGROSK_INI_NO_ROOM);
    CHECK(sizes.bytes == 22 && sizes.counts == 12 && bytes[0] == 't' && counts[0] == 1);
    CHECK(bigrosk_ini_text_diff_under(&from, &to, &rule, bytes, 22, counts, 12, &sizes) == BIGROSK_INI_OK);
    const char texts[] = "s\0" "k\0" "3\0" "4\0" "t\0" "a\0" "1\0" "2\0" "s\0" "m\0" "1";
    const size_t lengths[] = { 1, 1, 1, 1, 1, 1, 1, 1, 1, 1, 1, n };
    CHECK(sizes.bytes == sizeof texts && !memcmp(bytes, texts, sizeof texts));
    CHECK(sizes.counts == 12 && !memcmp(counts, lengths, sizeof lengths));
    CHECK(bigrosk_ini_text_apply_under(&from, &rule, &plain, bytes, 22, counts, 12, &number) == BIGROSK_INI_OK);
    CHECK(number == 5 && is_text(&from, "[s]\nk = 1\nk = 2\n[t]\na = 2\n[s]\nk = 4\n") && is_text(&to, second));
    CHECK(bigrosk_ini_text_diff_under(&from, &to, &rule, bytes, 0, counts, 0, &sizes) == BIGROSK_INI_OK && !sizes.counts);
    /* without k, which stands there three times */
    const size_t without[] = { 1, 1, n, n };
    CHECK(bigrosk_ini_text_apply_under(&from, &rule, &plain, (const uint8_t *)"s\0" "k", 4, without, 4, &number)
        == BIGROSK_INI_OK && is_text(&from, "[s]\n[t]\na = 2\n[s]\n"));
    /* of two changes the second one is refused */
    const size_t two[] = { 1, 1, n, 1, n, 0, n, 1 };
    CHECK(bigrosk_ini_text_apply_under(&to, &rule, &plain, (const uint8_t *)"s\0" "k\0" "9\0" "\0" "v", 9, two, 8, &number)
        == BIGROSK_INI_UNPLAIN_KEY && number == 1 && is_text(&to, second));
    CHECK(bigrosk_ini_text_apply_under(&to, &rule, &plain, bytes, 22, counts, 11, &number) == BIGROSK_INI_NOT_UTF8);
    bigrosk_ini_text_close(&from);
    bigrosk_ini_text_close(&to);
}

/* Keys and names of other case fit: they are told in small letters, and stay as they are spelled. */
static void ignored_case(void)
{
    struct bigrosk_ini_lookup rule = BIGROSK_INI_LOOKUP_DEFAULT;
    text from = BIGROSK_INI_TEXT_EMPTY, to = BIGROSK_INI_TEXT_EMPTY;
    fault f = { 0, 0, 0, "" };
    uint8_t bytes[64] = { 'x' };
    size_t counts[24] = { 7 }, n = BIGROSK_INI_UNNAMED, number = 5;
    struct bigrosk_ini_sizes sizes = BIGROSK_INI_NO_SIZES;
    const size_t lengths[] = { n, 4, 1, 1 }, without[] = { 3, 4, n, n };
    rule.ignore_case = 1;
    CHECK(opened(&from, "Port = 1\n[Net]\nHost = a\n", &f) == BIGROSK_INI_OK);
    CHECK(opened(&to, "port = 2\n[net]\nHOST = a\n", &f) == BIGROSK_INI_OK);
    CHECK(bigrosk_ini_text_diff(&from, &to, bytes, 64, counts, 24, &sizes) == BIGROSK_INI_OK && sizes.counts == 16);
    CHECK(bigrosk_ini_text_diff_under(&from, &to, &rule, bytes, 64, counts, 24, &sizes) == BIGROSK_INI_OK);
    CHECK(sizes.bytes == 9 && !memcmp(bytes, "port\0" "1\0" "2", 9));
    CHECK(sizes.counts == 4 && !memcmp(counts, lengths, sizeof lengths));
    CHECK(bigrosk_ini_text_apply_under(&from, &rule, &plain, bytes, 9, counts, 4, &number) == BIGROSK_INI_OK);
    CHECK(is_text(&from, "Port = 2\n[Net]\nHost = a\n"));
    CHECK(bigrosk_ini_text_apply_under(&from, &rule, &plain, (const uint8_t *)"net\0" "host", 9, without, 4, &number)
        == BIGROSK_INI_OK && is_text(&from, "Port = 2\n[Net]\n") && number == 5);
    bigrosk_ini_text_close(&from);
    bigrosk_ini_text_close(&to);
}

/* Merges by a rule that a dialect's name stands for; and what stands for no rule, which is refused first. */
static void merges_under_rules(void)
{
    static const char one[] = "[s]\nk = 1\n[S]\nk = 2\nm = 1\n", mine[] = "[s]\nk = 1\n[S]\nK = 5\nm = 1\n";
    struct bigrosk_ini_lookup rule = BIGROSK_INI_LOOKUP_DEFAULT, unknown = BIGROSK_INI_LOOKUP_DEFAULT;
    text base = BIGROSK_INI_TEXT_EMPTY, ours = BIGROSK_INI_TEXT_EMPTY, theirs = BIGROSK_INI_TEXT_EMPTY;
    fault f = { 0, 0, 0, "" };
    uint8_t bytes[64] = { 'x' };
    size_t counts[8] = { 7 }, number = 5;
    struct bigrosk_ini_sizes sizes = BIGROSK_INI_NO_SIZES;
    CHECK(bigrosk_ini_dialect_lookup_str("git", &rule) == BIGROSK_INI_OK && rule.size == sizeof rule);
    CHECK(opened(&base, one, &f) == BIGROSK_INI_OK && opened(&ours, mine, &f) == BIGROSK_INI_OK);
    CHECK(bigrosk_ini_text_conflicts_under(&base, &ours, &theirs, &rule, bytes, 64, counts, 8, &sizes)
        == BIGROSK_INI_NO_DOCUMENT);
    CHECK(bigrosk_ini_text_merge3_under(&base, &ours, &theirs, &rule, &plain, true, &number) == BIGROSK_INI_NO_DOCUMENT);
    CHECK(opened(&theirs, "# theirs\n[s]\nk = 1\n[S]\nk = 2\nm = 7\n", &f) == BIGROSK_INI_OK);
    CHECK(bigrosk_ini_text_conflicts_under(&base, &ours, &theirs, &rule, bytes, 0, counts, 0, &sizes) == BIGROSK_INI_OK);
    CHECK(sizes.bytes == 0 && sizes.counts == 0);
    CHECK(bigrosk_ini_text_merge3_under(&base, &ours, &theirs, &rule, &plain, true, &number) == BIGROSK_INI_OK);
    CHECK(is_text(&theirs, "# theirs\n[s]\nk = 1\n[S]\nk = 5\nm = 7\n") && is_text(&ours, mine));
    CHECK(opened(&theirs, "[s]\nk = 1\n[S]\nk = 6\nm = 1\n", &f) == BIGROSK_INI_OK);
    CHECK(bigrosk_ini_text_conflicts_under(&base, &ours, &theirs, &rule, bytes, 9, counts, 5, &sizes)
        == BIGROSK_INI_NO_ROOM && sizes.bytes == 10 && sizes.counts == 5);
    CHECK(bigrosk_ini_text_conflicts_under(&base, &ours, &theirs, &rule, bytes, 10, counts, 5, &sizes) == BIGROSK_INI_OK);
    CHECK(!memcmp(bytes, "s\0" "k\0" "2\0" "5\0" "6", 10));
    CHECK(bigrosk_ini_text_merge3_under(&base, &ours, &theirs, &rule, &plain, false, &number) == BIGROSK_INI_OK);
    CHECK(is_text(&theirs, "[s]\nk = 1\n[S]\nk = 6\nm = 1\n"));
    CHECK(bigrosk_ini_text_merge3_under(&base, &ours, &theirs, &rule, &plain, true, &number) == BIGROSK_INI_OK);
    CHECK(is_text(&theirs, "[s]\nk = 1\n[S]\nk = 5\nm = 1\n") && number == 5);
    bigrosk_ini_text_close(&theirs);
    for (int i = 0; i < 3; i++) {
        unknown.sections = i == 0 ? 2 : 1;
        unknown.values = i == 1 ? 3 : 1;
        unknown.ignore_case = i == 2 ? 2 : 1;
        CHECK(bigrosk_ini_text_diff_under(&base, &theirs, &unknown, bytes, 64, counts, 8, &sizes) == BIGROSK_INI_UNKNOWN_OPTION);
        CHECK(bigrosk_ini_text_apply_under(&base, &unknown, &plain, bytes, 10, counts, 5, &number)
            == BIGROSK_INI_UNKNOWN_OPTION);
        CHECK(bigrosk_ini_text_conflicts_under(&base, &ours, &theirs, &unknown, bytes, 64, counts, 8, &sizes)
            == BIGROSK_INI_UNKNOWN_OPTION);
        CHECK(bigrosk_ini_text_merge3_under(&theirs, &ours, &base, &unknown, &plain, true, &number)
            == BIGROSK_INI_UNKNOWN_OPTION);
        CHECK(number == 5 && bytes[0] == 's' && is_text(&base, one));
    }
    bigrosk_ini_text_close(&base);
    bigrosk_ini_text_close(&ours);
}

/* All values of a key as one setting: a list, told as a text with a line for each value, and set as a whole. */
static void lists_of_values(void)
{
    static const char unit[] = "[u]\nEnvironment=A\nEnvironment=B\nAfter=x\n";
    static const char other[] = "[u]\nEnvironment=A\nEnvironment=C\\nD\nAfter=x\n";
    struct bigrosk_ini_lookup rule = BIGROSK_INI_LOOKUP_DEFAULT;
    text from = BIGROSK_INI_TEXT_EMPTY, to = BIGROSK_INI_TEXT_EMPTY;
    fault f = { 0, 0, 0, "" };
    uint8_t bytes[64] = { 'x' };
    size_t counts[24] = { 7 }, n = BIGROSK_INI_UNNAMED, number = 5;
    struct bigrosk_ini_sizes sizes = BIGROSK_INI_NO_SIZES;
    CHECK(opened(&from, unit, &f) == BIGROSK_INI_OK && opened(&to, other, &f) == BIGROSK_INI_OK);
    /* the first values are the same */
    CHECK(bigrosk_ini_text_diff_under(&from, &to, &rule, bytes, 0, counts, 0, &sizes) == BIGROSK_INI_OK && !sizes.counts);
    rule.values = BIGROSK_INI_VALUES_LIST;
    CHECK(bigrosk_ini_text_diff_under(&from, &to, &rule, bytes, 24, counts, 24, &sizes) == BIGROSK_INI_NO_ROOM);
    CHECK(sizes.bytes == 25 && sizes.counts == 4 && bytes[0] == 'x' && counts[0] == 7);
    CHECK(bigrosk_ini_text_diff_under(&from, &to, &rule, bytes, 25, counts, 4, &sizes) == BIGROSK_INI_OK);
    const char texts[] = "u\0" "Environment\0" "A\nB\0" "A\nC\\nD";
    const size_t lengths[] = { 1, 11, 3, 6 };
    CHECK(sizes.bytes == sizeof texts && !memcmp(bytes, texts, sizeof texts) && !memcmp(counts, lengths, sizeof lengths));
    CHECK(bigrosk_ini_text_apply_under(&from, &rule, &plain, bytes, 25, counts, 4, &number) == BIGROSK_INI_OK);
    CHECK(number == 5 && is_text(&from, other) && is_text(&to, other));
    CHECK(bigrosk_ini_text_diff_under(&from, &to, &rule, bytes, 0, counts, 0, &sizes) == BIGROSK_INI_OK && !sizes.counts);
    /* a value more stands in a new pair, the pair of one less goes, and without a list all do */
    const size_t three[] = { 1, 11, n, 5 }, one[] = { 1, 11, n, 1 }, none[] = { 1, 11, n, n };
    CHECK(bigrosk_ini_text_apply_under(&from, &rule, &plain, (const uint8_t *)"u\0" "Environment\0" "1\n2\n3", 20, three, 4,
        &number) == BIGROSK_INI_OK && is_text(&from, "[u]\nEnvironment=1\nEnvironment=2\nAfter=x\nEnvironment=3\n"));
    CHECK(bigrosk_ini_text_apply_under(&from, &rule, &plain, (const uint8_t *)"u\0" "Environment\0" "4", 16, one, 4, &number)
        == BIGROSK_INI_OK && is_text(&from, "[u]\nEnvironment=4\nAfter=x\n"));
    CHECK(bigrosk_ini_text_apply_under(&from, &rule, &plain, (const uint8_t *)"u\0" "Environment", 14, none, 4, &number)
        == BIGROSK_INI_OK && is_text(&from, "[u]\nAfter=x\n") && number == 5);
    /* of two changes the second one is refused */
    const size_t two[] = { 1, 11, n, 3, n, 0, n, 1 };
    CHECK(bigrosk_ini_text_apply_under(&to, &rule, &plain, (const uint8_t *)"u\0" "Environment\0" "7\n8\0" "\0" "v", 21, two, 8,
        &number) == BIGROSK_INI_UNPLAIN_KEY && number == 1 && is_text(&to, other));
    bigrosk_ini_text_close(&from);
    bigrosk_ini_text_close(&to);
}

/* Three-way merges of lists, and lists over sections of a name as one, in any case. */
static void merged_lists(void)
{
    struct bigrosk_ini_lookup rule = BIGROSK_INI_LOOKUP_DEFAULT;
    text base = BIGROSK_INI_TEXT_EMPTY, ours = BIGROSK_INI_TEXT_EMPTY, theirs = BIGROSK_INI_TEXT_EMPTY;
    fault f = { 0, 0, 0, "" };
    uint8_t bytes[64] = { 'x' };
    size_t counts[8] = { 7 }, number = 5;
    struct bigrosk_ini_sizes sizes = BIGROSK_INI_NO_SIZES;
    rule.values = BIGROSK_INI_VALUES_LIST;
    CHECK(opened(&base, "[u]\nEnvironment=A\n", &f) == BIGROSK_INI_OK);
    CHECK(opened(&ours, "[u]\nEnvironment=A\nEnvironment=B\n", &f) == BIGROSK_INI_OK);
    CHECK(opened(&theirs, "# theirs\n[u]\nEnvironment=A\nAfter=y\n", &f) == BIGROSK_INI_OK);
    CHECK(bigrosk_ini_text_conflicts_under(&base, &ours, &theirs, &rule, bytes, 0, counts, 0, &sizes) == BIGROSK_INI_OK);
    CHECK(bigrosk_ini_text_merge3_under(&base, &ours, &theirs, &rule, &plain, false, &number) == BIGROSK_INI_OK);
    CHECK(number == 5 && is_text(&theirs, "# theirs\n[u]\nEnvironment=A\nAfter=y\nEnvironment=B\n"));
    CHECK(opened(&theirs, "[u]\nEnvironment=A\nEnvironment=C\n", &f) == BIGROSK_INI_OK);
    const char conflict[] = "u\0" "Environment\0" "A\0" "A\nB\0" "A\nC";
    const size_t lengths[] = { 1, 11, 1, 3, 3 };
    CHECK(bigrosk_ini_text_conflicts_under(&base, &ours, &theirs, &rule, bytes, 64, counts, 8, &sizes) == BIGROSK_INI_OK);
    CHECK(sizes.bytes == 24 && !memcmp(bytes, conflict, sizeof conflict));
    CHECK(sizes.counts == 5 && !memcmp(counts, lengths, sizeof lengths));
    CHECK(bigrosk_ini_text_merge3_under(&base, &ours, &theirs, &rule, &plain, false, &number) == BIGROSK_INI_OK);
    CHECK(is_text(&theirs, "[u]\nEnvironment=A\nEnvironment=C\n"));
    CHECK(bigrosk_ini_text_merge3_under(&base, &ours, &theirs, &rule, &plain, true, &number) == BIGROSK_INI_OK);
    CHECK(is_text(&theirs, "[u]\nEnvironment=A\nEnvironment=B\n") && number == 5);
    /* by the other numbers of the rule */
    rule.sections = BIGROSK_INI_SECTIONS_JOINED;
    rule.ignore_case = 1;
    CHECK(opened(&base, "[u]\nk=1\n[v]\n[U]\nK=2\n", &f) == BIGROSK_INI_OK && opened(&ours, "[u]\nk=1\n", &f) == BIGROSK_INI_OK);
    CHECK(bigrosk_ini_text_diff_under(&base, &ours, &rule, bytes, 64, counts, 8, &sizes) == BIGROSK_INI_OK);
    CHECK(sizes.bytes == 10 && sizes.counts == 4 && !memcmp(bytes, "u\0" "k\0" "1\n2\0" "1", 10));
    CHECK(bigrosk_ini_text_apply_under(&base, &rule, &plain, bytes, 10, counts, 4, &number) == BIGROSK_INI_OK);
    CHECK(is_text(&base, "[u]\nk=1\n[v]\n[U]\n"));
    bigrosk_ini_text_close(&base);
    bigrosk_ini_text_close(&ours);
    bigrosk_ini_text_close(&theirs);
}

/* The rule of a dialect's programs, by its name; refused, the rule stays. */
static void rules_of_dialects(void)
{
    static const struct { const char *name; uint8_t sections, values, ignore_case; } rows[] = {
        { "crate", 0, 0, 0 }, { "systemd", 1, 1, 0 }, { "git", 1, 1, 1 }, { "windows", 0, 0, 1 },
    };
    for (size_t i = 0; i < sizeof rows / sizeof *rows; i++) {
        struct bigrosk_ini_lookup rule = { 9, 8, 7, 6 };
        CHECK(bigrosk_ini_dialect_lookup_str("gits", &rule) == BIGROSK_INI_ABSENT);
        CHECK(bigrosk_ini_dialect_lookup_str("\xff", &rule) == BIGROSK_INI_NOT_UTF8);
        CHECK(rule.size == 9 && rule.sections == 8 && rule.values == 7 && rule.ignore_case == 6);
        CHECK(bigrosk_ini_dialect_lookup_str(rows[i].name, &rule) == BIGROSK_INI_OK && rule.size == 9);
        CHECK(rule.sections == rows[i].sections && rule.values == rows[i].values);
        CHECK(rule.ignore_case == rows[i].ignore_case);
    }
}

static void typed(void)
{
    text t = BIGROSK_INI_TEXT_EMPTY;
    fault f = { 0, 0, 0, "" };
    place p = { 0, 0 };
    long long n = 7;
    double x = 0.5;
    bool b = false;
    CHECK(opened(&t, "n = -42\nbig = 9223372036854775808\nbad = \"4 2\"\nnone =\nx = -1.5e2\nhex = 0x10\nnan = nan\n"
                     "yes = Yes\nno = OFF\nlong = 00000000000000000000000000000000000000000000000000000000000000000000"
                     "0000000000000000000000000000000000000000000000000000000000000000000001\n", &f) == BIGROSK_INI_OK);
    CHECK(bigrosk_ini_text_get_int(&t, NULL, "n", &n, &p) == BIGROSK_INI_OK && n == -42);
    CHECK(bigrosk_ini_text_get_int(&t, NULL, "m", &n, &p) == BIGROSK_INI_ABSENT && n == -42 && p.line == 0);
    CHECK(bigrosk_ini_text_get_int(&t, NULL, "big", &n, &p) == BIGROSK_INI_MISTYPED && n == -42 && p.line == 2
        && p.column == 7);
    CHECK(bigrosk_ini_text_get_int(&t, NULL, "bad", &n, &p) == BIGROSK_INI_MISTYPED && p.line == 3 && p.column == 7);
    CHECK(bigrosk_ini_text_get_int(&t, NULL, "none", &n, &p) == BIGROSK_INI_MISTYPED && p.line == 4);
    CHECK(bigrosk_ini_text_get_int(&t, NULL, "hex", &n, &p) == BIGROSK_INI_MISTYPED);
    CHECK(bigrosk_ini_text_get_int(&t, NULL, "long", &n, &p) == BIGROSK_INI_MISTYPED && p.line == 10);
    CHECK(bigrosk_ini_text_get_double(&t, NULL, "x", &x, &p) == BIGROSK_INI_OK && x == -150);
    CHECK(bigrosk_ini_text_get_double(&t, NULL, "n", &x, &p) == BIGROSK_INI_OK && x == -42);
    CHECK(bigrosk_ini_text_get_double(&t, NULL, "nan", &x, &p) == BIGROSK_INI_MISTYPED && x == -42 && p.line == 7);
    CHECK(bigrosk_ini_text_get_double(&t, NULL, "hex", &x, &p) == BIGROSK_INI_MISTYPED);
    CHECK(bigrosk_ini_text_get_double(&t, NULL, "none", &x, &p) == BIGROSK_INI_MISTYPED);
    CHECK(bigrosk_ini_text_get_bool(&t, NULL, "yes", &b, &p) == BIGROSK_INI_OK && b);
    CHECK(bigrosk_ini_text_get_bool(&t, NULL, "no", &b, &p) == BIGROSK_INI_OK && !b);
    CHECK(bigrosk_ini_text_get_bool(&t, NULL, "n", &b, &p) == BIGROSK_INI_MISTYPED && p.line == 1 && p.column == 5);
    CHECK(bigrosk_ini_text_get_bool(&t, NULL, "maybe", &b, &p) == BIGROSK_INI_ABSENT);
    CHECK(bigrosk_ini_text_get_int(&t, "\xff", "n", &n, &p) == BIGROSK_INI_NOT_UTF8);
    bigrosk_ini_text_close(&t);
    CHECK(bigrosk_ini_text_get_int(&t, NULL, "n", &n, &p) == BIGROSK_INI_NO_DOCUMENT);
}

static void put(const char *path, const char *bytes)
{
    FILE *it = fopen(path, "wb");
    CHECK(it && fputs(bytes, it) >= 0 && fclose(it) == 0);
}

static bool is_file(const char *path, const char *want)
{
    char got[256] = "";
    FILE *it = fopen(path, "rb");
    size_t count = it ? fread(got, 1, sizeof got - 1, it) : 0;
    if (it) fclose(it);
    return it && count == strlen(want) && !strcmp(got, want);
}

static void files(const char *path)
{
    struct bigrosk_ini_file file = BIGROSK_INI_FILE_EMPTY, other = BIGROSK_INI_FILE_EMPTY, broken = BIGROSK_INI_FILE_EMPTY;
    char name[4] = "";
    put(path, "\xef\xbb\xbf# about\n[a]\nk = 1\nword = some\n");
    CHECK(bigrosk_ini_file_open(&file, path) == BIGROSK_INI_OK && file.mark == 3);
    CHECK(bigrosk_ini_file_int(&file, "a", "k", 5) == 1 && bigrosk_ini_file_int(&file, "a", "l", 5) == 5);
    CHECK(bigrosk_ini_file_bool(&file, "a", "k", false) && bigrosk_ini_file_double(&file, "a", "k", 2) == 1);
    CHECK(!strcmp(bigrosk_ini_file_string(&file, "a", "none", name, sizeof name, "else"), "else"));
    CHECK(bigrosk_ini_file_set(&file, "a", "k", "2") == BIGROSK_INI_OK);
    CHECK(bigrosk_ini_file_delete(&file, "a", "none") == BIGROSK_INI_ABSENT && file.status == BIGROSK_INI_OK);
    CHECK(bigrosk_ini_file_save(&file) == BIGROSK_INI_OK);
    CHECK(is_file(path, "\xef\xbb\xbf# about\n[a]\nk = 2\nword = some\n"));
    CHECK(bigrosk_ini_file_int(&file, "a", "word", 5) == 5 && file.status == BIGROSK_INI_MISTYPED);
    CHECK(file.place.line == 4 && file.place.column == 8 && !strcmp(file.key, "word"));
    CHECK(!strcmp(bigrosk_ini_file_string(&file, "a", "word", name, sizeof name, "else"), "else"));
    CHECK(file.status == BIGROSK_INI_MISTYPED);
    CHECK(bigrosk_ini_file_set(&file, "a", "k", "3") == BIGROSK_INI_OK);
    CHECK(bigrosk_ini_file_save(&file) == BIGROSK_INI_MISTYPED);
    CHECK(is_file(path, "\xef\xbb\xbf# about\n[a]\nk = 2\nword = some\n"));
    bigrosk_ini_file_close(&file);
    CHECK(bigrosk_ini_file_open(&other, "/nowhere/at/all") == BIGROSK_INI_NO_FILE && errno == ENOENT);
    bigrosk_ini_file_close(&other);
    put(path, "[a]\n= 1\n");
    CHECK(bigrosk_ini_file_open(&broken, path) == BIGROSK_INI_BROKEN && broken.place.line == 2 && broken.message[0]);
    CHECK(bigrosk_ini_file_save(&broken) == BIGROSK_INI_BROKEN && is_file(path, "[a]\n= 1\n"));
    bigrosk_ini_file_close(&broken);
    remove(path);
}

/* A file of a dialect is read as its programs read it, and what is set is written as they read it back. */
static void dialects(const char *path)
{
    struct bigrosk_ini_file unit = BIGROSK_INI_FILE_EMPTY, git = BIGROSK_INI_FILE_EMPTY, none = BIGROSK_INI_FILE_EMPTY;
    struct bigrosk_ini_file nowhere = BIGROSK_INI_FILE_EMPTY, hg = BIGROSK_INI_FILE_EMPTY, before = BIGROSK_INI_FILE_EMPTY;
    struct bigrosk_ini_file lone = BIGROSK_INI_FILE_EMPTY, unknown = BIGROSK_INI_FILE_EMPTY, commented = BIGROSK_INI_FILE_EMPTY;
    struct bigrosk_ini_file keys = BIGROSK_INI_FILE_EMPTY, noted = BIGROSK_INI_FILE_EMPTY;
    struct bigrosk_ini_read_option five = BIGROSK_INI_READ_DEFAULT;
    char value[64] = "";
    put(path, "[Service]\nExecStart=\"/bin/a\" \\t\n");
    CHECK(bigrosk_ini_file_open_as(&unit, path, "systemd") == BIGROSK_INI_OK);
    bigrosk_ini_file_string(&unit, "Service", "ExecStart", value, sizeof value, "");
    CHECK(!strcmp(value, "\"/bin/a\" \\t"));
    CHECK(bigrosk_ini_file_set(&unit, "Service", "Root", "C:\\new") == BIGROSK_INI_OK);
    CHECK(bigrosk_ini_file_save(&unit) == BIGROSK_INI_OK);
    CHECK(is_file(path, "[Service]\nExecStart=\"/bin/a\" \\t\nRoot=C:\\new\n"));
    bigrosk_ini_file_close(&unit);
    put(path, "[user]\n");
    CHECK(bigrosk_ini_file_open_as(&git, path, "git") == BIGROSK_INI_OK);
    CHECK(bigrosk_ini_file_set(&git, "user", "name", "a\\b") == BIGROSK_INI_OK);
    CHECK(bigrosk_ini_file_save(&git) == BIGROSK_INI_OK && is_file(path, "[user]\nname = a\\\\b\n"));
    bigrosk_ini_file_close(&git);
    /* a path that ends in a backslash: alone it is read as it stands, and by the five options of before with the next line */
    put(path, "p=C:\\x\\\nk=v\n");
    CHECK(bigrosk_ini_file_open_as(&hg, path, "hg") == BIGROSK_INI_OK);
    CHECK(!strcmp(bigrosk_ini_file_string(&hg, NULL, "p", value, sizeof value, ""), "C:\\x\\"));
    CHECK(bigrosk_ini_file_set(&hg, NULL, "k", "\\") == BIGROSK_INI_OK && bigrosk_ini_file_save(&hg) == BIGROSK_INI_OK);
    CHECK(is_file(path, "p=C:\\x\\\nk=\\\n"));
    bigrosk_ini_file_close(&hg);
    CHECK(bigrosk_ini_dialect_str("hg", &five, &hg.write) == BIGROSK_INI_OK);
    put(path, "p=C:\\x\\\nk=v\n");
    CHECK(bigrosk_ini_file_read(&before, path, &five) == BIGROSK_INI_OK);
    CHECK(!strcmp(bigrosk_ini_file_string(&before, NULL, "p", value, sizeof value, ""), "C:\\xk=v"));
    bigrosk_ini_file_close(&before);
    /* a line without separator, by a reading that refuses it, and by one that there isn't */
    struct bigrosk_ini_reading reading = BIGROSK_INI_READING_DEFAULT;
    reading.lone_lines = BIGROSK_INI_LONE_LINES_REFUSED;
    put(path, "\xef\xbb\xbf[a]\nk\nj=v\n");
    CHECK(bigrosk_ini_file_read_by(&lone, path, &reading) == BIGROSK_INI_BROKEN);
    CHECK(lone.place.line == 3 && lone.place.column == 1 && !strcmp(lone.message, "no separator follows the key in its line"));
    reading.lone_lines = BIGROSK_INI_LONE_LINES_KEYS + 1;
    CHECK(bigrosk_ini_file_read_by(&unknown, path, &reading) == BIGROSK_INI_UNKNOWN_OPTION && unknown.place.line == 0);
    CHECK(!lone.text.is_open && !unknown.text.is_open);
    /* and as a key alone: its line stays until it is set */
    reading.lone_lines = BIGROSK_INI_LONE_LINES_KEYS;
    CHECK(bigrosk_ini_file_read_by(&keys, path, &reading) == BIGROSK_INI_OK);
    CHECK(!strcmp(bigrosk_ini_file_string(&keys, "a", "k", value, sizeof value, "none"), ""));
    CHECK(bigrosk_ini_file_set(&keys, "a", "j", "w") == BIGROSK_INI_OK && bigrosk_ini_file_save(&keys) == BIGROSK_INI_OK);
    CHECK(is_file(path, "\xef\xbb\xbf[a]\nk\nj=w\n"));
    CHECK(bigrosk_ini_file_set(&keys, "a", "k", "w") == BIGROSK_INI_OK && bigrosk_ini_file_save(&keys) == BIGROSK_INI_OK);
    CHECK(is_file(path, "\xef\xbb\xbf[a]\nk=w\nj=w\n"));
    bigrosk_ini_file_close(&keys);
    /* an indented comment, by a reading that has these */
    reading.lone_lines = BIGROSK_INI_LONE_LINES_RUN_ON;
    reading.indented_comments = 1;
    put(path, "[a]\n  ; c\nk=v\n");
    CHECK(bigrosk_ini_file_read_by(&commented, path, &reading) == BIGROSK_INI_OK);
    CHECK(!strcmp(bigrosk_ini_file_string(&commented, "a", "k", value, sizeof value, ""), "v"));
    bigrosk_ini_file_close(&commented);
    /* a comment after a value, by a reading that has these: it stays where the value is set */
    reading.inline_comments = 1;
    put(path, "[a] ; n\nk=v # m\n");
    CHECK(bigrosk_ini_file_read_by(&noted, path, &reading) == BIGROSK_INI_OK);
    CHECK(!strcmp(bigrosk_ini_file_string(&noted, "a", "k", value, sizeof value, ""), "v"));
    CHECK(bigrosk_ini_file_set(&noted, "a", "k", "w") == BIGROSK_INI_OK && bigrosk_ini_file_save(&noted) == BIGROSK_INI_OK);
    CHECK(is_file(path, "[a] ; n\nk=w # m\n"));
    bigrosk_ini_file_close(&noted);
    put(path, "[user]\nname = a\\\\b\n");
    CHECK(bigrosk_ini_file_open_as(&none, path, "Git") == BIGROSK_INI_NO_DIALECT && none.place.line == 0);
    CHECK(bigrosk_ini_file_save(&none) == BIGROSK_INI_NO_DIALECT && is_file(path, "[user]\nname = a\\\\b\n"));
    bigrosk_ini_file_close(&none);
    CHECK(bigrosk_ini_file_open_as(&nowhere, "/nowhere/at/all", "git") == BIGROSK_INI_NO_FILE && errno == ENOENT);
    bigrosk_ini_file_close(&nowhere);
    remove(path);
}

int main(int argc, char **argv)
{
    nothing_is_open();
    look_ups();
    edits();
    comments();
    repeated();
    differences();
    refused_changes();
    merges();
    joined_sections();
    ignored_case();
    merges_under_rules();
    lists_of_values();
    merged_lists();
    rules_of_dialects();
    typed();
    files(argc > 1 ? argv[1] : "text_client.ini");
    dialects(argc > 1 ? argv[1] : "text_client.ini");
    printf("%d checks, %d failed\n", checks, failed);
    return failed != 0;
}
