/* Wrong bodies for the calls of the library: the variable WRONG names the one that is taken, and without it
 * all are right. They are linked before the calls by --wrap, and the fuzz target must find each one by its
 * corpus. */
#include <stdio.h>
#include <stdlib.h>
#include "bigrosk_ini.h"

#define DOCUMENT struct bigrosk_ini_document *document
#define NAME bool named, const uint8_t *section, size_t section_count
#define NAMED named, section, section_count
#define KEY const uint8_t *key, size_t key_count
#define KEYS key, key_count
#define VALUE const uint8_t *value, size_t value_count
#define TEXT const uint8_t *text, size_t text_count
#define READ const struct bigrosk_ini_read_option *read
#define WRITE const struct bigrosk_ini_write_option *write
#define VALUES value, value_count
#define TEXTS text, text_count
#define COUNTS size_t *counts, size_t counts_room
#define LISTING uint8_t *bytes, size_t bytes_room, COUNTS, struct bigrosk_ini_sizes *sizes
#define LISTINGS bytes, bytes_room, counts, counts_room, sizes
#define OUT uint8_t *out, size_t room, size_t *count
#define OUTS out, room, count
#define FAULT struct bigrosk_ini_fault *fault

static bool is_wrong(const char *what)
{
    const char *named = getenv("WRONG");
    return named && !strcmp(named, what);
}

uint32_t __real_bigrosk_ini_load(TEXT, bool drop_mark, READ, DOCUMENT, FAULT);
uint32_t __wrap_bigrosk_ini_load(TEXT, bool drop_mark, READ, DOCUMENT, FAULT)
{
    static uint8_t copy[1 << 16];
    memcpy(copy, text, text_count);
    if (is_wrong("load_takes_bytes"))
        for (size_t i = 0; i < text_count; i++) copy[i] &= 0x7f;
    if (is_wrong("load_frees_first")) bigrosk_ini_free(document);
    uint32_t status = __real_bigrosk_ini_load(copy, text_count, drop_mark, read, document, fault);
    if (status == BIGROSK_INI_BROKEN && is_wrong("load_line_0")) fault->line = 0;
    if (status == BIGROSK_INI_BROKEN && is_wrong("load_no_kind")) fault->kind = 0;
    return status;
}

#define READING const struct bigrosk_ini_reading *reading

uint32_t __real_bigrosk_ini_load_by(TEXT, bool drop_mark, READING, DOCUMENT, FAULT);
uint32_t __wrap_bigrosk_ini_load_by(TEXT, bool drop_mark, READING, DOCUMENT, FAULT)
{
    struct bigrosk_ini_reading other = *reading;
    if (is_wrong("load_by_overlooks_raw_backslashes")) other.raw_backslash = false;
    if (is_wrong("load_by_overlooks_quotes")) other.quotes = true;
    if (is_wrong("load_by_overlooks_lone_lines")) other.lone_lines = BIGROSK_INI_LONE_LINES_RUN_ON;
    if (other.lone_lines == BIGROSK_INI_LONE_LINES_KEYS && is_wrong("load_by_refuses_keys_alone"))
        other.lone_lines = BIGROSK_INI_LONE_LINES_REFUSED;
    if (is_wrong("load_by_overlooks_indented_comments")) other.indented_comments = 0;
    if (is_wrong("load_by_overlooks_inline_comments")) other.inline_comments = 0;
    uint32_t status = __real_bigrosk_ini_load_by(TEXTS, drop_mark, &other, document, fault);
    if (status == BIGROSK_INI_BROKEN && is_wrong("load_by_has_no_kind_of_lone_lines") && fault->kind == BIGROSK_INI_NO_SEPARATOR)
        fault->kind = BIGROSK_INI_MISSING_KEY;
    return status;
}

bool __real_bigrosk_ini_is_plain_by(DOCUMENT, WRITE, READING);
bool __wrap_bigrosk_ini_is_plain_by(DOCUMENT, WRITE, READING)
{
    return is_wrong("is_plain_by_is_always_so") || __real_bigrosk_ini_is_plain_by(document, write, reading);
}

uint32_t __real_bigrosk_ini_text_open_by(const uint8_t *bytes, size_t bytes_count, READING, struct bigrosk_ini_text *text, FAULT);
uint32_t __wrap_bigrosk_ini_text_open_by(const uint8_t *bytes, size_t bytes_count, READING, struct bigrosk_ini_text *text, FAULT)
{
    struct bigrosk_ini_reading other = *reading;
    if (is_wrong("text_open_by_overlooks_raw_backslashes")) other.raw_backslash = false;
    if (is_wrong("text_open_by_overlooks_lone_lines")) other.lone_lines = BIGROSK_INI_LONE_LINES_RUN_ON;
    if (is_wrong("text_open_by_overlooks_indented_comments")) other.indented_comments = 0;
    if (is_wrong("text_open_by_overlooks_inline_comments")) other.inline_comments = 0;
    return __real_bigrosk_ini_text_open_by(bytes, bytes_count, &other, text, fault);
}

uint32_t __real_bigrosk_ini_get(DOCUMENT, NAME, KEY, OUT);
uint32_t __wrap_bigrosk_ini_get(DOCUMENT, NAME, KEY, OUT)
{
    uint32_t status = __real_bigrosk_ini_get(document, NAMED, KEYS, OUTS);
    if (status == BIGROSK_INI_OK && is_wrong("get_count")) ++*count;
    if (status == BIGROSK_INI_OK && is_wrong("get_first_byte") && *count) out[0] ^= 1;
    if (status == BIGROSK_INI_OK && is_wrong("get_no_zero")) out[*count] = 'x';
    if (status == BIGROSK_INI_NO_ROOM && is_wrong("get_fills_what_there_is") && room) out[0] = 'x';
    return status;
}

uint32_t __real_bigrosk_ini_borrow(DOCUMENT, NAME, KEY, struct bigrosk_ini_borrowed *value);
uint32_t __wrap_bigrosk_ini_borrow(DOCUMENT, NAME, KEY, struct bigrosk_ini_borrowed *value)
{
    uint32_t status = __real_bigrosk_ini_borrow(document, NAMED, KEYS, value);
    if (status == BIGROSK_INI_OK && is_wrong("borrow_short") && value->count) value->count--;
    return status;
}

uint32_t __real_bigrosk_ini_has(DOCUMENT, NAME, KEY);
uint32_t __wrap_bigrosk_ini_has(DOCUMENT, NAME, KEY)
{
    uint32_t status = __real_bigrosk_ini_has(document, NAMED, KEYS);
    return status == BIGROSK_INI_ABSENT && is_wrong("has_all") ? BIGROSK_INI_OK : status;
}

uint32_t __real_bigrosk_ini_has_section(DOCUMENT, NAME);
uint32_t __wrap_bigrosk_ini_has_section(DOCUMENT, NAME)
{
    uint32_t status = __real_bigrosk_ini_has_section(document, NAMED);
    return status == BIGROSK_INI_OK && is_wrong("has_no_section") ? BIGROSK_INI_ABSENT : status;
}

uint32_t __real_bigrosk_ini_get_all(DOCUMENT, NAME, KEY, LISTING);
uint32_t __wrap_bigrosk_ini_get_all(DOCUMENT, NAME, KEY, LISTING)
{
    uint32_t status = __real_bigrosk_ini_get_all(document, NAMED, KEYS, LISTINGS);
    if (is_wrong("get_all_of_one")) sizes->counts = 1;
    return status;
}

uint32_t __real_bigrosk_ini_set(DOCUMENT, NAME, KEY, VALUE);
uint32_t __real_bigrosk_ini_add(DOCUMENT, NAME, KEY, VALUE);
uint32_t __real_bigrosk_ini_delete(DOCUMENT, NAME, KEY);
uint32_t __wrap_bigrosk_ini_set(DOCUMENT, NAME, KEY, VALUE)
{
    if (is_wrong("set_adds")) return __real_bigrosk_ini_add(document, NAMED, KEYS, VALUES);
    return __real_bigrosk_ini_set(document, NAMED, KEYS, VALUES);
}

uint32_t __wrap_bigrosk_ini_add(DOCUMENT, NAME, KEY, VALUE)
{
    if (is_wrong("add_sets")) return __real_bigrosk_ini_set(document, NAMED, KEYS, VALUES);
    return __real_bigrosk_ini_add(document, NAMED, KEYS, VALUES);
}

uint32_t __wrap_bigrosk_ini_delete(DOCUMENT, NAME, KEY)
{
    uint32_t status = __real_bigrosk_ini_delete(document, NAMED, KEYS);
    while (status == BIGROSK_INI_OK && is_wrong("delete_takes_all"))
        if (__real_bigrosk_ini_delete(document, NAMED, KEYS) != BIGROSK_INI_OK) break;
    return status == BIGROSK_INI_ABSENT && is_wrong("delete_of_none_is_done") ? BIGROSK_INI_OK : status;
}

uint32_t __real_bigrosk_ini_delete_section(DOCUMENT, NAME);
uint32_t __wrap_bigrosk_ini_delete_section(DOCUMENT, NAME)
{
    if (is_wrong("delete_section_does_nothing")) return BIGROSK_INI_OK;
    return __real_bigrosk_ini_delete_section(document, NAMED);
}

uint32_t __real_bigrosk_ini_write(DOCUMENT, WRITE, OUT);
uint32_t __wrap_bigrosk_ini_write(DOCUMENT, WRITE, OUT)
{
    uint32_t status = __real_bigrosk_ini_write(document, write, OUTS);
    size_t front = status == BIGROSK_INI_OK && is_wrong("write_front_alone") ? *count / 2 : *count;
    if (status == BIGROSK_INI_OK) memset(out + front, '\n', *count - front);
    return status;
}

bool __real_bigrosk_ini_is_plain(DOCUMENT, WRITE, READ);
bool __wrap_bigrosk_ini_is_plain(DOCUMENT, WRITE, READ)
{
    return is_wrong("is_plain_always") || __real_bigrosk_ini_is_plain(document, write, read);
}

uint32_t __real_bigrosk_ini_edit_set(TEXT, READ, WRITE, NAME, KEY, VALUE, OUT, FAULT);
uint32_t __real_bigrosk_ini_edit_add(TEXT, READ, WRITE, NAME, KEY, VALUE, OUT, FAULT);
uint32_t __wrap_bigrosk_ini_edit_set(TEXT, READ, WRITE, NAME, KEY, VALUE, OUT, FAULT)
{
    if (is_wrong("edit_set_adds"))
        return __real_bigrosk_ini_edit_add(TEXTS, read, write, NAMED, KEYS, VALUES, OUTS, fault);
    uint32_t status = __real_bigrosk_ini_edit_set(TEXTS, read, write, NAMED, KEYS, VALUES, OUTS, fault);
    if (status == BIGROSK_INI_BROKEN && is_wrong("edit_set_other_place")) fault->column++;
    return status == BIGROSK_INI_BROKEN && is_wrong("edit_set_hides_a_fault") ? BIGROSK_INI_NO_ROOM : status;
}

uint32_t __wrap_bigrosk_ini_edit_add(TEXT, READ, WRITE, NAME, KEY, VALUE, OUT, FAULT)
{
    uint32_t status = __real_bigrosk_ini_edit_add(TEXTS, read, write, NAMED, KEYS, VALUES, OUTS, fault);
    /* a comment is changed: it loads as before */
    if (status != BIGROSK_INI_OK || !is_wrong("edit_add_changes_a_comment")) return status;
    uint8_t *mark = memchr(out, '#', *count);
    if (mark && (mark == out || mark[-1] == '\n')) mark[0] = ';';
    return status;
}

uint32_t __real_bigrosk_ini_edit_delete(TEXT, READ, NAME, KEY, OUT, FAULT);
uint32_t __wrap_bigrosk_ini_edit_delete(TEXT, READ, NAME, KEY, OUT, FAULT)
{
    uint32_t status = __real_bigrosk_ini_edit_delete(TEXTS, read, NAMED, KEYS, OUTS, fault);
    if (status == BIGROSK_INI_OK && is_wrong("edit_delete_does_nothing")) memcpy(out, text, *count);
    return status;
}

uint32_t __real_bigrosk_ini_edit_rename_key(TEXT, READ, WRITE, NAME, KEY, VALUE, OUT, FAULT);
uint32_t __wrap_bigrosk_ini_edit_rename_key(TEXT, READ, WRITE, NAME, KEY, VALUE, OUT, FAULT)
{
    if (is_wrong("edit_rename_key_keeps_it")) value = key, value_count = key_count;
    return __real_bigrosk_ini_edit_rename_key(TEXTS, read, write, NAMED, KEYS, VALUES, OUTS, fault);
}

uint32_t __real_bigrosk_ini_edit_delete_section(TEXT, READ, KEY, OUT, FAULT);
uint32_t __wrap_bigrosk_ini_edit_delete_section(TEXT, READ, KEY, OUT, FAULT)
{
    uint32_t status = __real_bigrosk_ini_edit_delete_section(TEXTS, read, KEYS, OUTS, fault);
    return status == BIGROSK_INI_ABSENT && is_wrong("edit_delete_no_section") ? BIGROSK_INI_NO_ROOM : status;
}

uint32_t __real_bigrosk_ini_edit_rename_section(TEXT, READ, WRITE, KEY, VALUE, OUT, FAULT);
uint32_t __wrap_bigrosk_ini_edit_rename_section(TEXT, READ, WRITE, KEY, VALUE, OUT, FAULT)
{
    if (is_wrong("edit_rename_section_upper") && value_count) value = (const uint8_t *)"X", value_count = 1;
    return __real_bigrosk_ini_edit_rename_section(TEXTS, read, write, KEYS, VALUES, OUTS, fault);
}

#define OPEN struct bigrosk_ini_text *text

uint32_t __real_bigrosk_ini_text_open(const uint8_t *bytes, size_t bytes_count, READ, OPEN, FAULT);
uint32_t __wrap_bigrosk_ini_text_open(const uint8_t *bytes, size_t bytes_count, READ, OPEN, FAULT)
{
    if (is_wrong("text_open_leaves_out_the_end") && bytes_count > 0 && bytes[bytes_count - 1] == '\n') bytes_count--;
    return __real_bigrosk_ini_text_open(bytes, bytes_count, read, text, fault);
}

uint32_t __real_bigrosk_ini_text_write(OPEN, OUT);
uint32_t __wrap_bigrosk_ini_text_write(OPEN, OUT)
{
    uint32_t status = __real_bigrosk_ini_text_write(text, OUTS);
    if (status == BIGROSK_INI_OK && *count > 0 && is_wrong("text_write_changes_a_byte")) out[*count - 1] ^= 1;
    if (status == BIGROSK_INI_OK && is_wrong("text_write_has_no_end")) out[*count] = 0x5a;
    return status;
}

uint32_t __real_bigrosk_ini_text_set(OPEN, WRITE, NAME, KEY, VALUE);
uint32_t __wrap_bigrosk_ini_text_set(OPEN, WRITE, NAME, KEY, VALUE)
{
    if (is_wrong("text_set_does_nothing")) return BIGROSK_INI_OK;
    return __real_bigrosk_ini_text_set(text, write, NAMED, KEYS, VALUES);
}

uint32_t __real_bigrosk_ini_text_add(OPEN, WRITE, NAME, KEY, VALUE);
uint32_t __wrap_bigrosk_ini_text_add(OPEN, WRITE, NAME, KEY, VALUE)
{
    if (is_wrong("text_add_sets")) return __real_bigrosk_ini_text_set(text, write, NAMED, KEYS, VALUES);
    return __real_bigrosk_ini_text_add(text, write, NAMED, KEYS, VALUES);
}

uint32_t __real_bigrosk_ini_text_delete(OPEN, NAME, KEY);
uint32_t __wrap_bigrosk_ini_text_delete(OPEN, NAME, KEY)
{
    if (is_wrong("text_delete_takes_all")) return bigrosk_ini_text_delete_all(text, NAMED, KEYS);
    return __real_bigrosk_ini_text_delete(text, NAMED, KEYS);
}

uint32_t __real_bigrosk_ini_text_delete_section(OPEN, KEY);
uint32_t __wrap_bigrosk_ini_text_delete_section(OPEN, KEY)
{
    uint32_t status = __real_bigrosk_ini_text_delete_section(text, KEYS);
    return status == BIGROSK_INI_ABSENT && is_wrong("text_delete_section_is_always_done") ? BIGROSK_INI_OK : status;
}
