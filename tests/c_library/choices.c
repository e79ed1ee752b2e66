/* Each option, policy, line end and separator alone, where it tells; each kind of fault; each helper for strings with NULL, on a
 * text with a section of the empty name; a mark. The last line is 'N checks, M failed'. */
#include "checks.h"

enum { choices = 5 };

/* these options, with one of them set so */
static struct bigrosk_ini_read_option with_choice(bool others, int which, bool it)
{
    struct bigrosk_ini_read_option o = { others, others, others, others, others };
    switch (which) {
    case 0: o.quotes = it; break;
    case 1: o.escapes = it; break;
    case 2: o.multiline = it; break;
    case 3: o.keep_indentation = it; break;
    default: o.brackets = it; break;
    }
    return o;
}

/* whether the pair is there: to a look-up, and to the edits that look for one */
static bool is_there(const char *text, const char *section, const char *key, const struct bigrosk_ini_read_option *read,
                     bool there)
{
    document d = BIGROSK_INI_EMPTY;
    fault f;
    uint8_t out[256];
    const uint8_t *t = bigrosk_ini_bytes(text), *s = bigrosk_ini_bytes(section), *k = bigrosk_ini_bytes(key);
    size_t n = strlen(text), sections = bigrosk_ini_count(section), keys = strlen(key), count;
    bool named = section != NULL;
    uint32_t want = there ? BIGROSK_INI_OK : BIGROSK_INI_ABSENT;
    bool good = bigrosk_ini_load(t, n, true, read, &d, &f) == BIGROSK_INI_OK && bigrosk_ini_has_str(&d, section, key) == want;
    bigrosk_ini_free(&d);
    good = good && bigrosk_ini_edit_delete(t, n, read, named, s, sections, k, keys, out, sizeof out, &count, &f) == want;
    good = good && bigrosk_ini_edit_rename_key(t, n, read, &plain, named, s, sections, k, keys, (const uint8_t *)"new", 3, out,
                                               sizeof out, &count, &f) == want;
    /* a value of one byte becomes one of two; else a line is new, or refused */
    uint32_t status = bigrosk_ini_edit_set(t, n, read, &plain, named, s, sections, k, keys, (const uint8_t *)"22", 2, out,
                                           sizeof out, &count, &f);
    good = good && (status == BIGROSK_INI_OK && count == n + 1) == there;
    if (!good) printf("in %s\n", text);
    return good;
}

static void read_options(void)
{
    static const struct { const char *text, *section, *key; bool there; } rows[choices] = {
        { "a=\"\nk=1\n\"=2\n", NULL, "k", false },  /* quotes: the line stands in them */
        { "\\x006b=1\n", NULL, "k", true },           /* escapes: it is a k */
        { "a=1\n [s]\nk=1\n", "s", "k", false },      /* multiline: the header is the value's */
        { " k=1\n", NULL, "k", false },               /* keep_indentation: the key has a blank */
        { "[s[t]]\nk=1\n", "s[t]", "k", true },       /* brackets */
    };
    for (int i = 0; i < choices; i++)
        for (int others = 0; others < 2; others++)
            for (int it = 0; it < 2; it++) {
                struct bigrosk_ini_read_option o = with_choice(others, i, it);
                CHECK(is_there(rows[i].text, rows[i].section, rows[i].key, &o, it ? rows[i].there : !rows[i].there));
            }
    struct bigrosk_ini_read_option o = with_choice(false, 0, true);
    CHECK(is_there(rows[1].text, NULL, "k", &usual, true) && is_there(rows[1].text, NULL, "k", &o, false));
    /* is_plain asks them too: a pair that an escape keeps together is one only where escapes are on */
    document d = BIGROSK_INI_EMPTY;
    fault f;
    o = with_choice(true, 1, false);
    CHECK(bigrosk_ini_load_str("k=a\\nb\n", &d, &f) == BIGROSK_INI_OK);
    CHECK(bigrosk_ini_is_plain(&d, &plain, &usual) && !bigrosk_ini_is_plain(&d, &plain, &o));
    bigrosk_ini_free(&d);
}

/* two lines whose backslashes, without escapes, stand alone by the option, and else join what follows them */
static const char path[] = "p=C:\\x\\\nk=v\n";

/* whether a document and an open text, read so, have the value for p, and k where it is a pair of its own */
static bool are_read(const struct bigrosk_ini_reading *reading, const char *p, bool k)
{
    document d = BIGROSK_INI_EMPTY;
    struct bigrosk_ini_text t = BIGROSK_INI_TEXT_EMPTY;
    fault f;
    const uint8_t *text = bigrosk_ini_bytes(path);
    char value[16];
    uint32_t want = k ? BIGROSK_INI_OK : BIGROSK_INI_ABSENT;
    bool good = bigrosk_ini_load_by(text, strlen(path), true, reading, &d, &f) == BIGROSK_INI_OK;
    good = good && is_value(&d, NULL, "p", p) && bigrosk_ini_has_str(&d, NULL, "k") == want;
    good = good && bigrosk_ini_text_open_by(text, strlen(path), reading, &t, &f) == BIGROSK_INI_OK;
    good = good && bigrosk_ini_text_get_str(&t, NULL, "p", value, sizeof value, NULL) == BIGROSK_INI_OK;
    good = good && !strcmp(value, p) && bigrosk_ini_text_has_str(&t, NULL, "k") == want;
    bigrosk_ini_free(&d);
    bigrosk_ini_text_close(&t);
    return good;
}

/* The struct that may grow: raw backslashes, the size that doesn't reach them, and each of the first five alone. */
static void readings(void)
{
    struct bigrosk_ini_reading r = BIGROSK_INI_READING_DEFAULT;
    document d = BIGROSK_INI_EMPTY;
    fault f;
    CHECK(r.size == sizeof r && r.size == 10 && offsetof(struct bigrosk_ini_reading, indented_comments) == 8);
    CHECK(!are_read(&r, "C:xk=v", false)); /* \x begins an escape, and is broken */
    r.raw_backslash = true;
    CHECK(bigrosk_ini_load_by((const uint8_t *)"k=a\\tb\n", 7, true, &r, &d, &f) == BIGROSK_INI_OK);
    CHECK(is_value(&d, NULL, "k", "a\tb")); /* with escapes it changes nothing */
    CHECK(bigrosk_ini_set_str(&d, NULL, "k", "a\\") == BIGROSK_INI_OK);
    static const struct bigrosk_ini_write_option bare = { BIGROSK_INI_NOTHING, false, 0 };
    CHECK(!bigrosk_ini_is_plain_by(&d, &bare, &r));
    r.escapes = false;
    CHECK(are_read(&r, "C:\\x\\", true) && bigrosk_ini_is_plain_by(&d, &bare, &r));
    r.size = 6;
    CHECK(are_read(&r, "C:\\xk=v", false) && !bigrosk_ini_is_plain_by(&d, &bare, &r));
    r.size = sizeof r;
    r.raw_backslash = false;
    CHECK(are_read(&r, "C:\\xk=v", false) && !bigrosk_ini_is_plain_by(&d, &bare, &r));
    bigrosk_ini_free(&d);
    /* the first five, as in the struct that has no more */
    static const struct { const char *text; bool others[5]; } rows[] = {
        { "k='\n", { false, true, false, false, false } },  { "k=\\x\n", { true, false, false, false, false } },
        { "k=v\n =w\n", { true, true, true, false, false } }, { " k=v\n", { true, true, false, true, false } },
        { "[k]]\nk=v\n", { true, true, false, false, true } },
    };
    for (size_t i = 0; i < sizeof rows / sizeof *rows; i++)
        for (int raw = 0; raw < 2; raw++) {
            const bool *o = rows[i].others;
            struct bigrosk_ini_read_option five = { o[0], o[1], o[2], o[3], o[4] };
            struct bigrosk_ini_reading all = { sizeof all, o[0], o[1], o[2], o[3], o[4], raw, BIGROSK_INI_LONE_LINES_RUN_ON, 0, 0 };
            document one = BIGROSK_INI_EMPTY, other = BIGROSK_INI_EMPTY;
            const uint8_t *text = bigrosk_ini_bytes(rows[i].text);
            size_t n = strlen(rows[i].text), count = 0;
            char out[32];
            CHECK(bigrosk_ini_load(text, n, true, &five, &one, &f) == BIGROSK_INI_OK);
            CHECK(bigrosk_ini_load_by(text, n, true, &all, &other, &f) == BIGROSK_INI_OK);
            CHECK(bigrosk_ini_write(&one, &plain, (uint8_t *)out, sizeof out, &count) == BIGROSK_INI_OK);
            CHECK(is_written(&other, &plain, out));
            bigrosk_ini_free(&one);
            bigrosk_ini_free(&other);
        }
}

/* what a document and an open text answer to a text that is read so: the same, with the same fault, and neither is opened where
 * that is a refusal */
static uint32_t answered(const struct bigrosk_ini_reading *reading, const char *text, fault *f)
{
    document d = BIGROSK_INI_EMPTY;
    struct bigrosk_ini_text t = BIGROSK_INI_TEXT_EMPTY;
    fault other = *f;
    size_t n = strlen(text);
    uint32_t status = bigrosk_ini_load_by((const uint8_t *)text, n, true, reading, &d, f);
    CHECK(bigrosk_ini_text_open_by((const uint8_t *)text, n, reading, &t, &other) == status);
    CHECK(f->kind == other.kind && f->line == other.line && f->column == other.column && !strcmp(f->message, other.message));
    CHECK(d.is_open == (status == BIGROSK_INI_OK) && t.is_open == d.is_open);
    bigrosk_ini_free(&d);
    bigrosk_ini_text_close(&t);
    return status;
}

/* Lines without separator: where they are refused, a number that stands for nothing, and a size that doesn't reach it. */
static void lone_lines(void)
{
    static const struct { const char *text; uint32_t kind; size_t line, column; } rows[] = {
        { "  ; c\nk=v\n", BIGROSK_INI_NO_SEPARATOR, 2, 1 }, { "abc\nk=v\n", BIGROSK_INI_NO_SEPARATOR, 2, 1 },
        { "abc\rk=v\n", BIGROSK_INI_NO_SEPARATOR, 1, 5 },   { "[a] b\n", BIGROSK_INI_NO_SEPARATOR, 2, 1 },
        { "abc", BIGROSK_INI_END_OF_TEXT, 1, 4 },             { "  abc", BIGROSK_INI_END_OF_TEXT, 1, 6 },
        { " =v\n", BIGROSK_INI_MISSING_KEY, 1, 3 },           { "  \n  ", 0, 0, 0 },
        { "a\\\nb=c\n", 0, 0, 0 },
    };
    struct bigrosk_ini_reading r = BIGROSK_INI_READING_DEFAULT, later = r;
    document d = BIGROSK_INI_EMPTY;
    CHECK(r.lone_lines == BIGROSK_INI_LONE_LINES_RUN_ON);
    later.lone_lines = BIGROSK_INI_LONE_LINES_REFUSED;
    for (size_t i = 0; i < sizeof rows / sizeof *rows; i++) {
        fault f = { 0, 0, 0, "" };
        CHECK(answered(&later, rows[i].text, &f) == (rows[i].kind ? BIGROSK_INI_BROKEN : BIGROSK_INI_OK));
        CHECK(f.kind == rows[i].kind && f.line == rows[i].line && f.column == rows[i].column);
        CHECK(f.kind != BIGROSK_INI_NO_SEPARATOR || !strcmp(f.message, "no separator follows the key in its line"));
    }
    for (int number = 0; number < 256; number++) {
        fault f = { 77, 7, 7, "seven" };
        later.lone_lines = (uint8_t)number;
        later.size = sizeof later;
        bool is_known = number <= BIGROSK_INI_LONE_LINES_KEYS, is_refused = number == BIGROSK_INI_LONE_LINES_REFUSED;
        uint32_t want = is_refused ? BIGROSK_INI_BROKEN : is_known ? BIGROSK_INI_OK : BIGROSK_INI_UNKNOWN_OPTION;
        CHECK(answered(&later, "abc\nk=v\n", &f) == want && (f.kind == 77) == !is_refused);
        CHECK(answered(&later, "k=v\n", &f) == (is_known ? BIGROSK_INI_OK : BIGROSK_INI_UNKNOWN_OPTION));
        CHECK(answered(&later, "\xff", &f) == BIGROSK_INI_NOT_UTF8);
        CHECK(bigrosk_ini_load_str("k=v\n", &d, &f) == BIGROSK_INI_OK);
        CHECK(bigrosk_ini_is_plain_by(&d, &plain, &later) == is_known);
        want = is_known ? BIGROSK_INI_OK : BIGROSK_INI_UNKNOWN_OPTION;
        CHECK(bigrosk_ini_load_by((const uint8_t *)"j=w\n", 4, true, &later, &d, &f) == want);
        CHECK(is_value(&d, NULL, is_known ? "j" : "k", is_known ? "w" : "v"));
        /* a program that was compiled before */
        later.size = offsetof(struct bigrosk_ini_reading, lone_lines);
        CHECK(answered(&later, "abc\nk=v\n", &f) == BIGROSK_INI_OK && bigrosk_ini_is_plain_by(&d, &plain, &later));
        struct bigrosk_ini_write_option w = plain;
        CHECK(bigrosk_ini_dialect_by_str("hg", &later, &w) == BIGROSK_INI_OK);
        CHECK(later.raw_backslash && later.lone_lines == number && later.size == 7);
        later = r;
    }
    bigrosk_ini_free(&d);
}

/* whether the text is read so by the options, and has the document that is written so */
static bool has_document(const struct bigrosk_ini_reading *reading, const char *text, const char *want)
{
    document d = BIGROSK_INI_EMPTY;
    fault f;
    bool good = bigrosk_ini_load_by((const uint8_t *)text, strlen(text), true, reading, &d, &f) == BIGROSK_INI_OK;
    good = good && is_written(&d, &plain, want);
    bigrosk_ini_free(&d);
    return good;
}

/* Keys alone, which have the empty value, in a document and in a text. */
static void keys_alone(void)
{
    static const struct { const char *text, *want; } rows[] = {
        { "abc\nk=v\n", "abc=\nk=v\n" },    { "abc", "abc=\n" },
        { "  abc\r\n", "abc=\n" },            { "a\\=b\n", "a=b=\n" },
        { "skip-x # n\n", "skip-x # n=\n" },  { "k\n  w\n", "k=\nw=\n" },
        { "a\\", "a\\\\=\n" },                { "!include /x\n.include /a=b\n", "!include /x=\n.include /a=b\n" },
    };
    struct bigrosk_ini_reading keys = BIGROSK_INI_READING_DEFAULT;
    struct bigrosk_ini_text t = BIGROSK_INI_TEXT_EMPTY;
    fault f = { 77, 7, 7, "seven" };
    keys.lone_lines = BIGROSK_INI_LONE_LINES_KEYS;
    for (int multiline = 0; multiline < 2; multiline++)
        for (size_t i = 0; i < sizeof rows / sizeof *rows; i++) {
            keys.multiline = multiline;
            CHECK(answered(&keys, rows[i].text, &f) == BIGROSK_INI_OK && f.kind == 77);
            CHECK(has_document(&keys, rows[i].text, rows[i].want));
        }
    CHECK(answered(&keys, "\\\n\n", &f) == BIGROSK_INI_BROKEN);
    CHECK(f.kind == BIGROSK_INI_MISSING_KEY && f.line == 3 && f.column == 1 && !strcmp(f.message, "missing key"));
    CHECK(answered(&keys, "\\\n", &f) == BIGROSK_INI_BROKEN);
    CHECK(f.kind == BIGROSK_INI_END_OF_TEXT && f.line == 2 && f.column == 1);
    CHECK(bigrosk_ini_text_open_by((const uint8_t *)"k\nj\n", 4, &keys, &t, &f) == BIGROSK_INI_OK);
    bigrosk_ini_text_close(&t);
}

/* a text, and what a document of it is written as where comments of a kind are read, and where not: NULL where it is refused */
struct commented { const char *text, *with, *without; bool multiline; };

/* An option on comments, the one that stands at this place: what rows say of it, numbers that stand for nothing, and a size that
 * doesn't reach it. By default a document of `text` is plain; the dialect has the number 1 for the option before this one. */
static void comments(const struct commented *rows, size_t count, size_t place, const char *text, const char *dialect)
{
    struct bigrosk_ini_reading r = BIGROSK_INI_READING_DEFAULT, later = r;
    uint8_t *option = (uint8_t *)&later + place;
    document d = BIGROSK_INI_EMPTY;
    fault f = { 77, 7, 7, "seven" };
    CHECK(*option == 0);
    for (size_t i = 0; i < count; i++)
        for (int number = 0; number < 2; number++) {
            const char *want = number ? rows[i].with : rows[i].without;
            later.multiline = rows[i].multiline;
            *option = (uint8_t)number;
            CHECK(answered(&later, rows[i].text, &f) == (want ? BIGROSK_INI_OK : BIGROSK_INI_BROKEN));
            CHECK(!want || has_document(&later, rows[i].text, want));
        }
    CHECK(bigrosk_ini_load_str(text, &d, &f) == BIGROSK_INI_OK);
    /* with the option it is one where no mark stands in it */
    CHECK(bigrosk_ini_is_plain_by(&d, &plain, &r) && bigrosk_ini_is_plain_by(&d, &plain, &later) == !strchr(text, ';'));
    for (int number = 2; number < 256; number++) {
        later = r;
        *option = (uint8_t)number;
        CHECK(answered(&later, "k=v\n", &f) == BIGROSK_INI_UNKNOWN_OPTION && answered(&later, "\xff", &f) == BIGROSK_INI_NOT_UTF8);
        CHECK(!bigrosk_ini_is_plain_by(&d, &plain, &later));
        /* a program that was compiled before */
        later.size = (uint8_t)place;
        CHECK(answered(&later, "k=v\n", &f) == BIGROSK_INI_OK && bigrosk_ini_is_plain_by(&d, &plain, &later));
        struct bigrosk_ini_write_option w = plain;
        CHECK(bigrosk_ini_dialect_by_str(dialect, &later, &w) == BIGROSK_INI_OK && later.size == place);
        CHECK(option[-1] == 1 && *option == number);
    }
    bigrosk_ini_free(&d);
}

/* Indented comments, among the lines of a value too, and after CR. */
static void indented_comments(void)
{
    static const struct commented rows[] = {
        { "  ; c\nk=v\n", "k=v\n", "; c\\nk=v\n", false },   { "\t# a=b", "", "# a=b\n", false },
        { "  \\;a=b\n", ";a=b\n", ";a=b\n", false },          { "k=v\r# c\rj=w\n", "k=v\nj=w\n", NULL, false },
        { "k=v\r  # c\rj=w\n", "k=v\nj=w\n", "k=v\n# c\\rj=w\n", false },
        { "k=a\n ; c\n b\n", "k=a\\nb\n", "k=a\\n; c\\nb\n", true },
        { "k=a\n; c\n b\n", "k=a\n", "k=a\n", true },       { "[a] ; c\n", NULL, NULL, false },
    };
    comments(rows, sizeof rows / sizeof *rows, offsetof(struct bigrosk_ini_reading, indented_comments), "k=v\n", "strict");
}

/* Inline comments, after values and names. */
static void inline_comments(void)
{
    static const struct commented rows[] = {
        { "k = v ; n\n", "k=v\n", "k=v ; n\n", false },       { "k = ; n\n", "k=; n\n", "k=; n\n", false },
        { "k=a;b\t#c\n", "k=a;b\n", "k=a;b\\t#c\n", false },  { "k=a\\ ;b\n", "k=a ;b\n", "k=a ;b\n", false },
        { "[a];n\nk=v\n", "[a]\nk=v\n", NULL, false },        { "k=v\r; c\rj=w\n", "k=v\nj=w\n", NULL, false },
        { "k='a ;b' ; c\n", "k=a ;b\n", "k=a ;b ; c\n", false }, { "  ; c\nk=v\n", "; c\\nk=v\n", "; c\\nk=v\n", false },
        { "k=a ; n\n b # m\n", "k=a\\nb\n", "k=a ; n\\nb # m\n", true },
    };
    comments(rows, sizeof rows / sizeof *rows, offsetof(struct bigrosk_ini_reading, inline_comments), "k=a ;b\n", "git");
}

/* whether the value, set in a document and in a text, is written so by the option; where it is no plain one, not in a text */
static bool is_spelled(const struct bigrosk_ini_write_option *o, const char *value, const char *want, bool is_plain)
{
    document d = BIGROSK_INI_EMPTY;
    fault f;
    char text[128], out[128] = "";
    size_t count = 0;
    sprintf(text, "k=%s\n", want);
    bool good = bigrosk_ini_load_str("k=v\n", &d, &f) == BIGROSK_INI_OK
        && bigrosk_ini_set_str(&d, NULL, "k", value) == BIGROSK_INI_OK && is_written(&d, o, text);
    bigrosk_ini_free(&d);
    uint32_t status = bigrosk_ini_edit_set((const uint8_t *)"k=v\n", 4, &usual, o, false, (const uint8_t *)"", 0,
                                           (const uint8_t *)"k", 1, (const uint8_t *)value, strlen(value), (uint8_t *)out,
                                           sizeof out, &count, &f);
    return good && (is_plain ? status == BIGROSK_INI_OK && !strcmp(out, text) : status == BIGROSK_INI_UNPLAIN_VALUE);
}

static void policies(void)
{
    static const struct { uint32_t policy; const char *tab, *reserved, *unicode, *extended; } rows[] = {
        { BIGROSK_INI_NOTHING, "a\tb", "a;b", "\xc3\xbc", "\xf0\x9f\x90\xb1" },
        { BIGROSK_INI_BASICS, "a\\tb", "a;b", "\xc3\xbc", "\xf0\x9f\x90\xb1" },
        { BIGROSK_INI_BASICS_UNICODE, "a\\tb", "a;b", "\\x00fc", "\xf0\x9f\x90\xb1" },
        { BIGROSK_INI_BASICS_UNICODE_EXTENDED, "a\\tb", "a;b", "\\x00fc", "\\x1f431" },
        { BIGROSK_INI_RESERVED, "a\\tb", "a\\;b", "\xc3\xbc", "\xf0\x9f\x90\xb1" },
        { BIGROSK_INI_RESERVED_UNICODE, "a\\tb", "a\\;b", "\\x00fc", "\xf0\x9f\x90\xb1" },
        { BIGROSK_INI_RESERVED_UNICODE_EXTENDED, "a\\tb", "a\\;b", "\\x00fc", "\\x1f431" },
        { BIGROSK_INI_EVERYTHING, "a\\tb", "a\\;b", "\\x00fc", "\\x1f431" },
        { UINT32_MAX, "a\\tb", "a\\;b", "\\x00fc", "\\x1f431" },
    };
    for (size_t i = 0; i < sizeof rows / sizeof *rows; i++) {
        struct bigrosk_ini_write_option o = { rows[i].policy, false, 0 };
        CHECK(is_spelled(&o, "a\tb", rows[i].tab, true));
        CHECK(is_spelled(&o, "a;b", rows[i].reserved, true));
        CHECK(is_spelled(&o, "\xc3\xbc", rows[i].unicode, true));
        /* five digits aren't read back */
        CHECK(is_spelled(&o, "\xf0\x9f\x90\xb1", rows[i].extended, rows[i].extended[0] != '\\'));
    }
}

static void line_ends_and_separators(void)
{
    static const char *const separators[] = { "=", " = ", ":", ": ", ": " };
    document d = BIGROSK_INI_EMPTY;
    fault f;
    CHECK(bigrosk_ini_load_str("a=1\n[s]\nb=2\n", &d, &f) == BIGROSK_INI_OK);
    for (int crlf = 0; crlf < 2; crlf++)
        for (uint32_t i = 0; i < 5; i++) {
            struct bigrosk_ini_write_option o = { BIGROSK_INI_BASICS, crlf, i < 4 ? i : UINT32_MAX };
            const char *end = crlf ? "\r\n" : "\n";
            char want[64], out[64];
            size_t count;
            sprintf(want, "a%s1%s%s[s]%sb%s2%s", separators[i], end, end, end, separators[i], end);
            CHECK(is_written(&d, &o, want));
            /* a text without a line has no line end and no separator of its own */
            sprintf(want, "a%s1%s", separators[i], end);
            CHECK(bigrosk_ini_edit_add((const uint8_t *)"", 0, &usual, &o, false, (const uint8_t *)"", 0, (const uint8_t *)"a", 1,
                                       (const uint8_t *)"1", 1, (uint8_t *)out, sizeof out, &count, &f) == BIGROSK_INI_OK);
            CHECK(!strcmp(out, want));
        }
    bigrosk_ini_free(&d);
}

static void kinds(void)
{
    static const struct { const char *text; uint32_t kind; size_t line, column; bool multiline, brackets; } rows[] = {
        { "[open", BIGROSK_INI_END_OF_TEXT, 1, 6, false, false },
        { "a=\\x1\\23", BIGROSK_INI_BROKEN_ESCAPE, 1, 8, false, false },
        { "a=\\xD800", BIGROSK_INI_UNKNOWN_CHARACTER, 1, 9, false, false },
        { "k=v\r# c\n", BIGROSK_INI_INLINE_COMMENT, 1, 6, false, false },
        { "a=1\n=v\n", BIGROSK_INI_MISSING_KEY, 2, 2, false, false },
        { "k=v\n\rx\n", BIGROSK_INI_CR_ALONE, 2, 3, true, false },
        { "[a]k=v\n", BIGROSK_INI_HEADER_END, 2, 1, false, true },
    };
    document d = BIGROSK_INI_EMPTY;
    for (size_t i = 0; i < sizeof rows / sizeof *rows; i++) {
        struct bigrosk_ini_read_option o = { true, true, rows[i].multiline, false, rows[i].brackets };
        fault f = { 0, 0, 0, "" };
        CHECK(bigrosk_ini_load(bigrosk_ini_bytes(rows[i].text), strlen(rows[i].text), true, &o, &d, &f) == BIGROSK_INI_BROKEN);
        CHECK(f.kind == rows[i].kind && f.line == rows[i].line && f.column == rows[i].column && f.message[0] != 0);
    }
}

/* both NULL and the empty name are there, and the general section comes first */
static const char both[] = "k=general\nonly=1\n[]\nk=empty\nother=2\n";

/* whether the document, changed, is written so */
static bool is_left(document *d, const char *want)
{
    bool good = is_written(d, &plain, want);
    bigrosk_ini_free(d);
    return good;
}

static document loaded(const char *text)
{
    document d = BIGROSK_INI_EMPTY;
    fault f;
    CHECK(bigrosk_ini_load_str(text, &d, &f) == BIGROSK_INI_OK);
    return d;
}

static void null_is_the_general_section(void)
{
    document d = loaded(both);
    struct bigrosk_ini_borrowed lent;
    struct bigrosk_ini_sizes sizes;
    uint8_t bytes[64];
    size_t counts[8];
    CHECK(is_value(&d, NULL, "k", "general") && is_value(&d, "", "k", "empty"));
    CHECK(bigrosk_ini_borrow_str(&d, NULL, "k", &lent) == BIGROSK_INI_OK && lent.count == 7);
    CHECK(bigrosk_ini_borrow_str(&d, "", "k", &lent) == BIGROSK_INI_OK && lent.count == 5);
    CHECK(bigrosk_ini_has_str(&d, NULL, "only") == BIGROSK_INI_OK && bigrosk_ini_has_str(&d, "", "only") == BIGROSK_INI_ABSENT);
    CHECK(bigrosk_ini_has_str(&d, NULL, "other") == BIGROSK_INI_ABSENT && bigrosk_ini_has_str(&d, "", "other") == BIGROSK_INI_OK);
    CHECK(bigrosk_ini_get_all_str(&d, NULL, "k", bytes, 64, counts, 8, &sizes) == BIGROSK_INI_OK);
    CHECK(sizes.counts == 1 && !strcmp((char *)bytes, "general"));
    CHECK(bigrosk_ini_get_all_str(&d, "", "k", bytes, 64, counts, 8, &sizes) == BIGROSK_INI_OK);
    CHECK(sizes.counts == 1 && !strcmp((char *)bytes, "empty"));
    CHECK(bigrosk_ini_pairs_str(&d, NULL, bytes, 64, counts, 8, &sizes) == BIGROSK_INI_OK);
    CHECK(!memcmp(bytes, "k\0general\0only", 15));
    CHECK(bigrosk_ini_pairs_str(&d, "", bytes, 64, counts, 8, &sizes) == BIGROSK_INI_OK);
    CHECK(!memcmp(bytes, "k\0empty\0other", 14));
    CHECK(bigrosk_ini_get_str(&d, NULL, NULL, (char *)bytes, 64, NULL) == BIGROSK_INI_ABSENT);
    bigrosk_ini_free(&d);
    d = loaded("k=1\n");
    CHECK(bigrosk_ini_has_section_str(&d, NULL) == BIGROSK_INI_OK && bigrosk_ini_has_section_str(&d, "") == BIGROSK_INI_ABSENT);
    bigrosk_ini_free(&d);

    d = loaded(both);
    CHECK(bigrosk_ini_set_str(&d, NULL, "k", "new") == BIGROSK_INI_OK);
    CHECK(is_left(&d, "k=new\nonly=1\n\n[]\nk=empty\nother=2\n"));
    d = loaded(both);
    CHECK(bigrosk_ini_add_str(&d, NULL, "k", "more") == BIGROSK_INI_OK);
    CHECK(is_left(&d, "k=general\nonly=1\nk=more\n\n[]\nk=empty\nother=2\n"));
    d = loaded(both);
    CHECK(bigrosk_ini_delete_str(&d, NULL, "k") == BIGROSK_INI_OK);
    CHECK(is_left(&d, "only=1\n\n[]\nk=empty\nother=2\n"));
    d = loaded(both);
    CHECK(bigrosk_ini_delete_section_str(&d, NULL) == BIGROSK_INI_OK);
    CHECK(is_left(&d, "[]\nk=empty\nother=2\n"));
    d = loaded(both);
    CHECK(bigrosk_ini_delete_section_str(&d, "") == BIGROSK_INI_OK);
    CHECK(is_left(&d, "k=general\nonly=1\n"));
    d = loaded(NULL);
    CHECK(is_left(&d, ""));
    /* a mark at the front belongs to no key and no header */
    d = loaded("\xef\xbb\xbf" "k=1\n");
    CHECK(is_value(&d, NULL, "k", "1"));
    CHECK(is_left(&d, "k=1\n"));
    d = loaded("\xef\xbb\xbf[s]\nk=1\n");
    CHECK(is_value(&d, "s", "k", "1"));
    bigrosk_ini_free(&d);
}

static void null_is_the_general_section_of_a_text(void)
{
    char out[64];
    fault f;
    size_t n;
    CHECK(bigrosk_ini_edit_set_str(both, NULL, "k", "new", out, sizeof out, &n, &f) == BIGROSK_INI_OK);
    CHECK(!strcmp(out, "k=new\nonly=1\n[]\nk=empty\nother=2\n"));
    CHECK(bigrosk_ini_edit_add_str(both, NULL, "k", "more", out, sizeof out, &n, &f) == BIGROSK_INI_OK);
    CHECK(!strcmp(out, "k=general\nonly=1\nk=more\n[]\nk=empty\nother=2\n"));
    CHECK(bigrosk_ini_edit_delete_str(both, NULL, "k", out, sizeof out, &n, &f) == BIGROSK_INI_OK);
    CHECK(!strcmp(out, "only=1\n[]\nk=empty\nother=2\n"));
    CHECK(bigrosk_ini_edit_rename_key_str(both, NULL, "k", "new", out, sizeof out, &n, &f) == BIGROSK_INI_OK);
    CHECK(!strcmp(out, "new=general\nonly=1\n[]\nk=empty\nother=2\n"));
    CHECK(bigrosk_ini_edit_delete_section_str(both, NULL, out, sizeof out, &n, &f) == BIGROSK_INI_ABSENT);
    CHECK(bigrosk_ini_edit_delete_section_str(both, "", out, sizeof out, &n, &f) == BIGROSK_INI_OK);
    CHECK(!strcmp(out, "k=general\nonly=1\n"));
    CHECK(bigrosk_ini_edit_rename_section_str(both, NULL, "s", out, sizeof out, &n, &f) == BIGROSK_INI_ABSENT);
    CHECK(bigrosk_ini_edit_rename_section_str(both, "", "s", out, sizeof out, &n, &f) == BIGROSK_INI_OK);
    CHECK(!strcmp(out, "k=general\nonly=1\n[s]\nk=empty\nother=2\n"));
    CHECK(bigrosk_ini_edit_set_str(NULL, NULL, "k", NULL, out, sizeof out, &n, &f) == BIGROSK_INI_OK && !strcmp(out, "k=\n"));
}

/* how many bytes of a block of this size, and no byte more, are a mark */
static size_t mark_of(const char *text, size_t count)
{
    uint8_t *block = malloc(count ? count : 1);
    memcpy(block, text, count);
    size_t mark = bigrosk_ini_mark(block, count);
    free(block);
    return mark;
}

static void marks(void)
{
    static const char mark[] = "\xef\xbb\xbf";
    for (size_t count = 0; count < 3; count++) CHECK(mark_of(mark, count) == 0);
    CHECK(mark_of(mark, 3) == 3 && mark_of("\xef\xbb\xbf" "a=1", 6) == 3);
    CHECK(mark_of("\xef\xbb\xbe", 3) == 0 && mark_of("a=1", 3) == 0);
}

/* whether the name is one of these words */
static bool is_word_of(const char *const *words, const char *name)
{
    while (*words && strcmp(*words, name)) words++;
    return *words != NULL;
}

/* Options by a dialect's name, as its programs read and write; refused, they stay. */
static void dialects(void)
{
    static const struct {
        const char *name;
        struct bigrosk_ini_read_option read;
        struct bigrosk_ini_write_option write;
    } rows[] = {
        { "crate", { true, true, false, false, false }, { BIGROSK_INI_BASICS, false, 0 } },
        { "git", { true, true, false, false, false }, { BIGROSK_INI_BASICS, false, 1 } },
        { "systemd", { false, false, false, false, false }, { BIGROSK_INI_NOTHING, false, 0 } },
        { "desktop", { false, true, false, false, false }, { BIGROSK_INI_BASICS, false, 0 } },
        { "python", { false, false, true, false, false }, { BIGROSK_INI_NOTHING, false, 1 } },
        { "php", { true, true, false, false, false }, { BIGROSK_INI_NOTHING, false, 1 } },
        { "mysql", { true, false, false, false, false }, { BIGROSK_INI_BASICS, false, 0 } },
        { "samba", { true, false, false, false, false }, { BIGROSK_INI_NOTHING, false, 1 } },
        { "windows", { true, false, false, false, false }, { BIGROSK_INI_NOTHING, true, 0 } },
        { "kde", { true, true, false, false, true }, { BIGROSK_INI_BASICS, false, 0 } },
        { "supervisor", { true, false, false, false, false }, { BIGROSK_INI_NOTHING, false, 0 } },
        { "fail2ban", { false, false, true, false, false }, { BIGROSK_INI_NOTHING, false, 1 } },
        { "aws", { false, false, true, false, false }, { BIGROSK_INI_NOTHING, false, 1 } },
        { "editorconfig", { false, false, false, false, true }, { BIGROSK_INI_NOTHING, false, 1 } },
        { "npm", { true, false, false, false, false }, { BIGROSK_INI_BASICS, false, 0 } },
        { "qt", { true, true, false, false, false }, { BIGROSK_INI_BASICS, false, 0 } },
        { "hg", { true, false, false, false, false }, { BIGROSK_INI_NOTHING, false, 1 } },
        { "pulseaudio", { true, true, false, false, false }, { BIGROSK_INI_NOTHING, false, 1 } },
        { "odbc", { true, true, false, false, false }, { BIGROSK_INI_NOTHING, false, 1 } },
        { "freetds", { true, true, false, false, false }, { BIGROSK_INI_NOTHING, false, 1 } },
        { "sssd", { true, false, false, false, false }, { BIGROSK_INI_NOTHING, false, 1 } },
        { "openssl", { true, true, false, false, false }, { BIGROSK_INI_BASICS, false, 1 } },
        { "uwsgi", { true, true, false, false, false }, { BIGROSK_INI_NOTHING, false, 1 } },
        { "xrdp", { true, true, false, false, false }, { BIGROSK_INI_NOTHING, false, 0 } },
        { "openttd", { false, true, false, false, false }, { BIGROSK_INI_NOTHING, false, 1 } },
        { "strict", { true, true, false, false, false }, { BIGROSK_INI_BASICS, false, 0 } },
    };
    static const char *const raw[] = { "python", "fail2ban", "aws", "hg", "mysql", NULL };
    static const char *const keyed[] = { "mysql", "pulseaudio", "openssl", NULL };
    static const char *const commented[] = { "git", "desktop", "python", "odbc", "freetds", NULL };
    static const char *const noted[] = { "fail2ban", "supervisor", "openssl", NULL };
    for (size_t i = 0; i < sizeof rows / sizeof *rows; i++) {
        struct bigrosk_ini_read_option r = { true, true, true, true, true }, wanted = rows[i].read;
        struct bigrosk_ini_write_option w = { 5, true, 9 };
        CHECK(bigrosk_ini_dialect_str(rows[i].name, &r, &w) == BIGROSK_INI_OK);
        CHECK(r.quotes == wanted.quotes && r.escapes == wanted.escapes && r.multiline == wanted.multiline);
        CHECK(r.keep_indentation == wanted.keep_indentation && r.brackets == wanted.brackets);
        CHECK(w.policy == rows[i].write.policy && w.crlf == rows[i].write.crlf && w.separator == rows[i].write.separator);
        /* the struct with further options gets the same, and these */
        for (int before = 0; before < 2; before++) {
            struct bigrosk_ini_reading all = { sizeof all, before, before, before, before, before, before, before, before, before };
            struct bigrosk_ini_write_option v = { 5, true, 9 };
            CHECK(bigrosk_ini_dialect_by_str(rows[i].name, &all, &v) == BIGROSK_INI_OK && all.size == sizeof all);
            CHECK(all.quotes == wanted.quotes && all.escapes == wanted.escapes && all.multiline == wanted.multiline);
            CHECK(all.keep_indentation == wanted.keep_indentation && all.brackets == wanted.brackets);
            CHECK(all.raw_backslash == is_word_of(raw, rows[i].name));
            bool is_strict = !strcmp(rows[i].name, "strict"), is_keyed = is_word_of(keyed, rows[i].name);
            CHECK(all.lone_lines == (is_strict ? BIGROSK_INI_LONE_LINES_REFUSED
                : is_keyed ? BIGROSK_INI_LONE_LINES_KEYS : BIGROSK_INI_LONE_LINES_RUN_ON));
            CHECK(all.indented_comments == is_word_of(commented, rows[i].name));
            CHECK(all.inline_comments == is_word_of(noted, rows[i].name));
            CHECK(v.policy == w.policy && v.crlf == w.crlf && v.separator == w.separator);
        }
    }
    static const char *const others[] = { "", "systemD", "system", "systemd ", "\xff" };
    for (size_t i = 0; i < sizeof others / sizeof *others; i++) {
        struct bigrosk_ini_read_option r = { true, false, true, false, true };
        struct bigrosk_ini_write_option w = { 5, true, 9 };
        CHECK(bigrosk_ini_dialect_str(others[i], &r, &w) == (i == 4 ? BIGROSK_INI_NOT_UTF8 : BIGROSK_INI_ABSENT));
        CHECK(r.quotes && !r.escapes && r.multiline && !r.keep_indentation && r.brackets);
        CHECK(w.policy == 5 && w.crlf && w.separator == 9);
        struct bigrosk_ini_reading all = { sizeof all, true, false, true, false, true, true, 9, 9, 9 };
        CHECK(bigrosk_ini_dialect_by_str(others[i], &all, &w) == (i == 4 ? BIGROSK_INI_NOT_UTF8 : BIGROSK_INI_ABSENT));
        CHECK(all.size == sizeof all && all.quotes && !all.escapes && all.multiline && !all.keep_indentation);
        CHECK(all.brackets && all.raw_backslash && all.lone_lines == 9 && all.indented_comments == 9);
        CHECK(all.inline_comments == 9 && w.policy == 5 && w.crlf && w.separator == 9);
    }
}

int main(void)
{
    read_options();
    readings();
    lone_lines();
    keys_alone();
    indented_comments();
    inline_comments();
    dialects();
    policies();
    line_ends_and_separators();
    kinds();
    null_is_the_general_section();
    null_is_the_general_section_of_a_text();
    marks();
    printf("%d checks, %d failed\n", checks, failed);
    return failed != 0;
}
