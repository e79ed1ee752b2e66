/* A fuzz target for the C library: libFuzzer's entry, which AFL++ takes too. It opens a text under options,
 * looks up, edits and reads back, and ends the process where an answer breaks a promise of bigrosk_ini.h.
 * tests/fuzz.sh builds and runs it.
 *
 * An input is two bytes of options, the name of a section, a key and a value, each with a | after it, and
 * the text. Bits of the first byte: 1 quotes, 2 escapes, 4 multiline, 8 kept indentation, 16 brackets, 32 a
 * mark is dropped, 64 the general section in place of the one of the name, 128 raw backslashes, where all of
 * the options are read by. Of the second: 1 to 8 the policy, 16 and 32 the separator, 64 that a key runs on
 * over its line's end, in place of being refused there, and a key alone, where all are read by, 128 CR LF. So
 * `#A` has the default options. */
#include "promises.h"

int LLVMFuzzerTestOneInput(const uint8_t *data, size_t size);

#ifdef __clang__
/* libFuzzer looks at these, since the library itself has no counters. */
__attribute__((section("__libfuzzer_extra_counters"))) static uint8_t seen[4096];
#else
static uint8_t seen[4096];
#endif

void broken(const char *file, int line, const char *promise)
{
    fprintf(stderr, "%s:%d: a promise is broken: %s\n", file, line, promise);
    abort();
}

void *filled(size_t count)
{
    uint8_t *at = malloc(count + 1);
    if (!at) exit(0);
    memset(at, 0x5a, count + 1);
    return at;
}

void note(unsigned what, size_t number)
{
    seen[(what * 64 + (number < 63 ? number : 63)) % sizeof seen] = 1;
}

/* How many bytes a character that begins with this one has; 0 where none does. */
static unsigned bytes_of_character(uint8_t first)
{
    if (first < 0x80) return 1;
    if (first >= 0xc2 && first < 0xe0) return 2;
    if (first >= 0xe0 && first < 0xf0) return 3;
    return first >= 0xf0 && first < 0xf5 ? 4 : 0;
}

/* Whether the second byte may follow the first: else the character is too long, half a pair or too great. */
static bool may_follow(uint8_t first, uint8_t second)
{
    switch (first) {
    case 0xe0: return second >= 0xa0;
    case 0xed: return second < 0xa0;
    case 0xf0: return second >= 0x90;
    case 0xf4: return second < 0x90;
    default: return true;
    }
}

bool is_utf8(struct bytes text)
{
    for (size_t i = 0; i < text.count;) {
        unsigned count = bytes_of_character(text.at[i]);
        if (count == 0 || count > text.count - i) return false;
        for (unsigned k = 1; k < count; k++)
            if ((text.at[i + k] & 0xc0) != 0x80) return false;
        if (count > 1 && !may_follow(text.at[i], text.at[i + 1])) return false;
        i += count;
    }
    return true;
}

bool is_same(struct bytes one, struct bytes other)
{
    if (!one.at || !other.at) return !one.at && !other.at;
    return one.count == other.count && memcmp(one.at, other.at, one.count) == 0;
}

/* The bytes up to the next |, which are taken off; all of them where there is none. */
static struct bytes next_part(struct bytes *rest)
{
    const uint8_t *end = rest->count ? memchr(rest->at, '|', rest->count) : NULL;
    struct bytes part = { rest->at, end ? (size_t)(end - rest->at) : rest->count };
    size_t taken = end ? part.count + 1 : part.count;
    rest->at += taken;
    rest->count -= taken;
    return part;
}

static struct input input_of(const uint8_t *data, size_t size)
{
    uint8_t first = data[0], second = data[1];
    struct bytes rest = { data + 2, size - 2 };
    struct input input = {
        { first & 1, (first & 2) != 0, (first & 4) != 0, (first & 8) != 0, (first & 16) != 0 },
        BIGROSK_INI_READING_DEFAULT,
        { second & 15u, second >> 7, (second >> 4) & 3u },
        (first & 32) != 0, (first & 64) == 0, { NULL, 0 }, { NULL, 0 }, { NULL, 0 }, { NULL, 0 }
    };
    input.reading.quotes = input.read.quotes;
    input.reading.escapes = input.read.escapes;
    input.reading.multiline = input.read.multiline;
    input.reading.keep_indentation = input.read.keep_indentation;
    input.reading.brackets = input.read.brackets;
    input.reading.raw_backslash = first >> 7;
    input.reading.lone_lines = (second & 64) ? BIGROSK_INI_LONE_LINES_RUN_ON : BIGROSK_INI_LONE_LINES_REFUSED;
    input.section = next_part(&rest);
    input.key = next_part(&rest);
    input.value = next_part(&rest);
    input.text = rest;
    return input;
}

/* Where a text is refused, the fault stands in it, and the document that was loaded stays. */
static void is_refused(const struct input *input, struct bytes text, uint32_t status, const fault *f,
                       document *it)
{
    char value[2] = "";
    PROMISE(bigrosk_ini_get_str(it, NULL, "before", value, sizeof value, NULL) == BIGROSK_INI_OK
        && value[0] == 'b');
    PROMISE((status == BIGROSK_INI_NOT_UTF8) == !is_utf8(text));
    if (status != BIGROSK_INI_BROKEN) return;
    size_t lines = 1;
    for (size_t i = 0; i < text.count; i++) lines += text.at[i] == '\n' || text.at[i] == '\r';
    PROMISE(f->kind >= BIGROSK_INI_END_OF_TEXT && f->kind <= BIGROSK_INI_HEADER_END);
    PROMISE(f->kind != BIGROSK_INI_CR_ALONE || input->read.multiline);
    PROMISE(f->kind != BIGROSK_INI_HEADER_END || input->read.brackets);
    PROMISE(f->line >= 1 && f->line <= lines && f->column >= 1 && f->column <= text.count + 1);
    PROMISE(memchr(f->message, 0, sizeof f->message) != NULL && f->message[0] != 0);
    note(1, f->kind);
}

/* A plain document, written by one option, loads by the other as it is; a text is as long as is said. */
static void write_and_load(document *it, const struct listing *listing, const struct input *input)
{
    size_t count = 0, again = 0;
    uint8_t *none = filled(0);
    PROMISE(bigrosk_ini_write(it, &input->write, none, 0, &count) == BIGROSK_INI_NO_ROOM && none[0] == 0x5a);
    free(none);
    uint8_t *text = filled(count + 1);
    PROMISE(bigrosk_ini_write(it, &input->write, text, count, &again) == BIGROSK_INI_NO_ROOM
        && text[0] == 0x5a && again == count);
    PROMISE(bigrosk_ini_write(it, &input->write, text, count + 1, &again) == BIGROSK_INI_OK
        && text[count] == 0 && again == count);
    if (bigrosk_ini_is_plain(it, &input->write, &input->read)) {
        document other = BIGROSK_INI_EMPTY;
        fault f = { 0, 0, 0, "" };
        note(2, 1);
        PROMISE(bigrosk_ini_load(text, count, false, &input->read, &other, &f) == BIGROSK_INI_OK);
        PROMISE(has_listing(&other, listing));
        bigrosk_ini_free(&other);
    }
    free(text);
}

static bool has_line_end(const char *text, size_t count)
{
    return memchr(text, '\n', count) || memchr(text, '\r', count);
}

/* Whether a comment mark stands after a blank. */
static bool has_note(const char *text, size_t count)
{
    for (size_t i = 1; i < count; i++)
        if (strchr(" \t", text[i - 1]) && text[i - 1] && strchr(";#", text[i]) && text[i]) return true;
    return false;
}

/* No value has such a thing, and no key where it ends with its line. */
static void are_without(bool (*has)(const char *, size_t), const struct listing *listing, bool is_strict)
{
    struct bigrosk_ini_walk walk = bigrosk_ini_walk_over(listing->bytes, listing->counts, listing->sizes);
    while (!bigrosk_ini_is_over(&walk)) {
        bigrosk_ini_text(&walk, NULL);
        for (size_t left = bigrosk_ini_number(&walk); left > 0; left--) {
            size_t count = 0;
            const char *key = bigrosk_ini_text(&walk, &count);
            PROMISE(!is_strict || !has(key, count));
            const char *value = bigrosk_ini_text(&walk, &count);
            PROMISE(!has(value, count));
        }
    }
}

/* A plain document, written, loads as it is by all options too. */
static void write_and_load_by(document *it, const struct listing *listing, const struct input *input)
{
    if (!bigrosk_ini_is_plain_by(it, &input->write, &input->reading)) return;
    size_t count = 0;
    uint8_t *none = filled(0);
    PROMISE(bigrosk_ini_write(it, &input->write, none, 0, &count) == BIGROSK_INI_NO_ROOM);
    free(none);
    document other = BIGROSK_INI_EMPTY;
    fault f = { 0, 0, 0, "" };
    uint8_t *text = filled(count + 1);
    PROMISE(bigrosk_ini_write(it, &input->write, text, count + 1, &count) == BIGROSK_INI_OK);
    PROMISE(bigrosk_ini_load_by(text, count, false, &input->reading, &other, &f) == BIGROSK_INI_OK);
    PROMISE(has_listing(&other, listing));
    bigrosk_ini_free(&other);
    free(text);
}

/* A text in pieces is read as a document is, here in the place of one that is loaded. */
static void read_pieces(const struct input *input, document *it, unsigned what)
{
    const struct bigrosk_ini_reading *reading = &input->reading;
    struct bytes text = input->text;
    struct bigrosk_ini_text pieces = BIGROSK_INI_TEXT_EMPTY;
    fault f = { 0, 0, 0, "" };
    uint32_t told = bigrosk_ini_load_by(text.at, text.count, false, reading, it, &f);
    PROMISE(bigrosk_ini_text_open_by(text.at, text.count, reading, &pieces, &f) == told);
    note(what + reading->indented_comments + 4u * reading->inline_comments, told);
    bigrosk_ini_text_close(&pieces);
    bigrosk_ini_free(it);
}

/* A fault of a text that the first five options read, and these don't, where backslashes make no difference: of
 * a line without separator, or of a key that the text's end cuts short. */
static bool is_of_lone_line(const fault *f)
{
    return f->kind == BIGROSK_INI_NO_SEPARATOR || f->kind == BIGROSK_INI_END_OF_TEXT;
}

/* The text by all options: as by the first five, but for backslashes where these are raw, which then keep no
 * line end and no mark, for comment marks where comments may be indented or stand after values, and for lines
 * without separator where these are refused. */
static void read_by(const struct input *input, uint32_t status, const struct listing *listing)
{
    const struct bigrosk_ini_reading *reading = &input->reading;
    struct bytes text = input->text;
    document it = BIGROSK_INI_EMPTY;
    fault f = { 0, 0, 0, "" };
    bool is_raw = reading->raw_backslash && !reading->escapes;
    bool differs = is_raw && text.count && memchr(text.at, '\\', text.count);
    if ((reading->indented_comments || reading->inline_comments) && text.count)
        differs = differs || memchr(text.at, ';', text.count) || memchr(text.at, '#', text.count);
    bool is_strict = reading->lone_lines == BIGROSK_INI_LONE_LINES_REFUSED;
    uint32_t told = bigrosk_ini_load_by(text.at, text.count, input->drop_mark, reading, &it, &f);
    PROMISE(told == status || (differs && (told == BIGROSK_INI_OK || told == BIGROSK_INI_BROKEN))
        || (is_strict && told == BIGROSK_INI_BROKEN && is_of_lone_line(&f)));
    PROMISE(f.kind != BIGROSK_INI_NO_SEPARATOR || is_strict);
    PROMISE(f.kind != BIGROSK_INI_INLINE_COMMENT || !reading->inline_comments);
    PROMISE(f.kind <= BIGROSK_INI_NO_SEPARATOR && (told == BIGROSK_INI_BROKEN) == (f.kind >= BIGROSK_INI_END_OF_TEXT));
    if (told == BIGROSK_INI_OK) {
        struct listing had = listing_of(&it);
        PROMISE(differs || is_same_listing(&had, listing));
        if (is_raw && !reading->quotes && !reading->multiline) are_without(has_line_end, &had, is_strict);
        if (is_raw && !reading->quotes && reading->inline_comments)
            are_without(has_note, &had, is_strict && !reading->keep_indentation);
        write_and_load_by(&it, &had, input);
        free_listing(&had);
    }
    read_pieces(input, &it, 30);
}

/* Where lines without separator are keys alone, the text is read as where they are refused, but where one is. */
static void read_keys_alone(struct input *input)
{
    struct bigrosk_ini_reading strict = input->reading, *reading = &input->reading;
    struct bytes text = input->text;
    document it = BIGROSK_INI_EMPTY, other = BIGROSK_INI_EMPTY;
    fault f = { 0, 0, 0, "" }, g = { 0, 0, 0, "" };
    uint32_t status = bigrosk_ini_load_by(text.at, text.count, input->drop_mark, &strict, &other, &g);
    reading->lone_lines = BIGROSK_INI_LONE_LINES_KEYS;
    uint32_t told = bigrosk_ini_load_by(text.at, text.count, input->drop_mark, reading, &it, &f);
    bool has_lone_line = status == BIGROSK_INI_BROKEN && is_of_lone_line(&g);
    PROMISE(f.kind < BIGROSK_INI_NO_SEPARATOR && (told == BIGROSK_INI_BROKEN) == (f.kind >= BIGROSK_INI_END_OF_TEXT));
    PROMISE(has_lone_line ? told == BIGROSK_INI_OK || told == BIGROSK_INI_BROKEN
        : told == status && f.kind == g.kind && f.line == g.line && f.column == g.column);
    if (told == BIGROSK_INI_OK) {
        struct listing had = listing_of(&it);
        PROMISE(has_lone_line || has_listing(&other, &had));
        if (reading->raw_backslash && !reading->escapes && !reading->quotes && !reading->multiline)
            are_without(has_line_end, &had, true);
        write_and_load_by(&it, &had, input);
        free_listing(&had);
    }
    read_pieces(input, &it, 32);
    bigrosk_ini_free(&other);
    *reading = strict;
}

/* The same without indented and inline comments, and with them. */
static void read_by_all(struct input *input, uint32_t status, const struct listing *listing)
{
    for (uint8_t comments = 0; comments < 4; comments++) {
        input->reading.indented_comments = comments & 1u;
        input->reading.inline_comments = comments >> 1;
        read_by(input, status, listing);
        if (input->reading.lone_lines == BIGROSK_INI_LONE_LINES_REFUSED) read_keys_alone(input);
    }
}

int LLVMFuzzerTestOneInput(const uint8_t *data, size_t size)
{
    document it = BIGROSK_INI_EMPTY;
    fault f = { 0, 0, 0, "" };
    if (size < 2) return 0;
    struct input input = input_of(data, size);
    struct bytes text = input.text;
    PROMISE(bigrosk_ini_load_str("before=b\n", &it, &f) == BIGROSK_INI_OK);
    uint32_t status = bigrosk_ini_load(text.at, text.count, input.drop_mark, &input.read, &it, &f);
    note(0, status);
    if (status == BIGROSK_INI_OK) {
        struct listing listing = listing_of(&it);
        PROMISE(is_utf8(text));
        look_up(&it, &listing, &input);
        write_and_load(&it, &listing, &input);
        edit_document(&listing, &input);
        read_by_all(&input, status, &listing);
        free_listing(&listing);
    } else {
        PROMISE(status == BIGROSK_INI_BROKEN || status == BIGROSK_INI_NOT_UTF8);
        is_refused(&input, text, status, &f, &it);
        read_by_all(&input, status, NULL);
    }
    bigrosk_ini_free(&it);
    PROMISE(!it.is_open);
    edit_text(&input);
    return 0;
}
