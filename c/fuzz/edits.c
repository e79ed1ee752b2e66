/* Edits of a document and of a text, beside those of a list (listing.c): both lead to the same document. Those of a text that stays
 * open are the same as those of bytes. */
#include "promises.h"

/* Loads the document of a text. To edits of a text a mark is a character: then none is dropped. */
static uint32_t load(const struct input *input, bool drop_mark, struct bytes text, document *it, fault *f)
{
    return bigrosk_ini_load(text.at, text.count, drop_mark, &input->read, it, f);
}

/* what the calls take of an input: a pointer and a number each */
#define NAME in->section.at, in->section.count
#define KEY in->key.at, in->key.count
#define VALUE in->value.at, in->value.count
#define TEXT text.at, text.count, &in->read
#define OUT out, room, count, f

/* What the document's call of this kind answers. */
static uint32_t call_document(document *it, enum edit_kind kind, const struct input *in)
{
    switch (kind) {
    case SET: return bigrosk_ini_set(it, in->named, NAME, KEY, VALUE);
    case ADD: return bigrosk_ini_add(it, in->named, NAME, KEY, VALUE);
    case DELETE: return bigrosk_ini_delete(it, in->named, NAME, KEY);
    default: return bigrosk_ini_delete_section(it, in->named, NAME);
    }
}

/* What the text's call of this kind answers. */
static uint32_t call_text(struct bytes text, enum edit_kind kind, const struct input *in, uint8_t *out,
                          size_t room, size_t *count, fault *f)
{
    switch (kind) {
    case SET: return bigrosk_ini_edit_set(TEXT, &in->write, in->named, NAME, KEY, VALUE, OUT);
    case ADD: return bigrosk_ini_edit_add(TEXT, &in->write, in->named, NAME, KEY, VALUE, OUT);
    case DELETE: return bigrosk_ini_edit_delete(TEXT, in->named, NAME, KEY, OUT);
    case RENAME_KEY: return bigrosk_ini_edit_rename_key(TEXT, &in->write, in->named, NAME, KEY, VALUE, OUT);
    case DELETE_SECTION: return bigrosk_ini_edit_delete_section(TEXT, NAME, OUT);
    default: return bigrosk_ini_edit_rename_section(TEXT, &in->write, NAME, VALUE, OUT);
    }
}

static bool are_texts(enum edit_kind kind, const struct input *in)
{
    bool has_key = kind != DELETE_SECTION && kind != RENAME_SECTION;
    bool has_value = kind != DELETE && kind != DELETE_SECTION;
    return is_utf8(in->section) && (!has_key || is_utf8(in->key)) && (!has_value || is_utf8(in->value));
}

/* One edit of a document that is loaded for it. */
static void edit_document_by(const struct listing *listing, enum edit_kind kind, const struct input *input)
{
    document it = BIGROSK_INI_EMPTY;
    fault f = { 0, 0, 0, "" };
    bool is_there = false;
    PROMISE(load(input, input->drop_mark, input->text, &it, &f) == BIGROSK_INI_OK);
    struct listing wanted = edited_listing(listing, kind, input, &is_there);
    uint32_t status = call_document(&it, kind, input);
    if (!are_texts(kind, input)) PROMISE(status == BIGROSK_INI_NOT_UTF8);
    else if (!is_there && kind != SET && kind != ADD) PROMISE(status == BIGROSK_INI_ABSENT);
    else PROMISE(status == BIGROSK_INI_OK);
    PROMISE(has_listing(&it, status == BIGROSK_INI_OK ? &wanted : listing));
    note(5 + kind, status);
    free_listing(&wanted);
    bigrosk_ini_free(&it);
}

void edit_document(const struct listing *listing, const struct input *input)
{
    edit_document_by(listing, SET, input);
    edit_document_by(listing, ADD, input);
    edit_document_by(listing, DELETE, input);
    edit_document_by(listing, DELETE_SECTION, input);
}

/* Whether a status says that what the call of this kind puts in can't be written. */
static bool is_unwritable(enum edit_kind kind, uint32_t status)
{
    bool is_new = kind == SET || kind == ADD;
    switch (status) {
    case BIGROSK_INI_UNPLAIN_VALUE: return is_new;
    case BIGROSK_INI_UNPLAIN_KEY: return is_new || kind == RENAME_KEY;
    case BIGROSK_INI_UNPLAIN_NAME: return is_new || kind == RENAME_SECTION;
    default: return false;
    }
}

/* How many bytes two texts begin, and end, with in common; the ends don't overlap. */
static size_t in_common(struct bytes one, struct bytes other)
{
    size_t shorter = one.count < other.count ? one.count : other.count, front = 0, back = 0;
    while (front < shorter && one.at[front] == other.at[front]) front++;
    const uint8_t *one_end = one.at + one.count, *other_end = other.at + other.count;
    while (back < shorter - front && one_end[-1] == other_end[-1]) back++, one_end--, other_end--;
    return front + back;
}

/* The new text: it loads as the edited document, and keeps the bytes that the edit isn't about. */
static void is_edited(const struct input *input, enum edit_kind kind, const struct listing *wanted,
                      struct bytes text)
{
    document it = BIGROSK_INI_EMPTY;
    fault f = { 0, 0, 0, "" };
    PROMISE(is_utf8(text));
    PROMISE(load(input, false, text, &it, &f) == BIGROSK_INI_OK);
    PROMISE(has_listing(&it, wanted));
    if (kind == ADD) PROMISE(in_common(text, input->text) >= input->text.count);
    if (kind == DELETE) PROMISE(in_common(text, input->text) >= text.count);
    bigrosk_ini_free(&it);
}

/* A value that is there already stays as it is written: the same edit again changes no byte. */
static void is_set_already(const struct input *input, struct bytes text)
{
    size_t count = 0;
    fault f = { 0, 0, 0, "" };
    uint8_t *out = filled(text.count + 1);
    PROMISE(call_text(text, SET, input, out, text.count + 1, &count, &f) == BIGROSK_INI_OK);
    PROMISE(count == text.count && memcmp(out, text.at, count) == 0);
    free(out);
}

/* The call with a buffer that is too small, by nothing or by one byte, and with one that is large enough. */
static void take_edited(const struct input *input, enum edit_kind kind, const struct listing *wanted,
                        size_t count)
{
    fault f = { 77, 0, 0, "" };
    size_t again = 0;
    struct bytes text = { filled(count + 1), count };
    uint8_t *out = (uint8_t *)text.at;
    PROMISE(call_text(input->text, kind, input, out, count, &again, &f) == BIGROSK_INI_NO_ROOM
        && again == count && out[0] == 0x5a);
    PROMISE(call_text(input->text, kind, input, out, count + 1, &again, &f) == BIGROSK_INI_OK
        && again == count);
    PROMISE(out[count] == 0 && out[count + 1] == 0x5a && f.kind == 77);
    is_edited(input, kind, wanted, text);
    if (kind == SET) is_set_already(input, text);
    free(out);
}

/* What the call of this kind answers on a text that stays open. */
static uint32_t call_open(struct bigrosk_ini_text *it, enum edit_kind kind, const struct input *in)
{
    switch (kind) {
    case SET: return bigrosk_ini_text_set(it, &in->write, in->named, NAME, KEY, VALUE);
    case ADD: return bigrosk_ini_text_add(it, &in->write, in->named, NAME, KEY, VALUE);
    case DELETE: return bigrosk_ini_text_delete(it, in->named, NAME, KEY);
    case RENAME_KEY: return bigrosk_ini_text_rename_key(it, &in->write, in->named, NAME, KEY, VALUE);
    case DELETE_SECTION: return bigrosk_ini_text_delete_section(it, NAME);
    default: return bigrosk_ini_text_rename_section(it, &in->write, NAME, VALUE);
    }
}

/* whether the text that is open is this one now */
static bool is_open_text(struct bigrosk_ini_text *it, struct bytes want)
{
    size_t count = 0;
    uint8_t *out = filled(want.count + 1);
    uint32_t status = bigrosk_ini_text_write(it, out, want.count + 1, &count);
    bool same = status == BIGROSK_INI_OK && count == want.count && memcmp(out, want.at, count) == 0
        && out[count] == 0 && out[count + 1] == 0x5a;
    free(out);
    return same;
}

/* The same edit of the text, opened from bytes that are gone by then: the same answer, and the same new text. */
static void edit_open_by(const struct input *input, enum edit_kind kind, uint32_t status, size_t count)
{
    struct bigrosk_ini_text it = BIGROSK_INI_TEXT_EMPTY;
    fault f = { 0, 0, 0, "" };
    uint8_t *copy = filled(input->text.count);
    memcpy(copy, input->text.at, input->text.count);
    PROMISE(bigrosk_ini_text_open(copy, input->text.count, &input->read, &it, &f) == BIGROSK_INI_OK);
    free(copy);
    PROMISE(is_open_text(&it, input->text));
    uint32_t answer = call_open(&it, kind, input);
    note(22 + kind, answer);
    PROMISE(answer == (status == BIGROSK_INI_NO_ROOM ? BIGROSK_INI_OK : status));
    struct bytes wanted = { filled(count + 1), count };
    if (answer == BIGROSK_INI_OK)
        PROMISE(call_text(input->text, kind, input, (uint8_t *)wanted.at, count + 1, &count, &f) == BIGROSK_INI_OK);
    PROMISE(is_open_text(&it, answer == BIGROSK_INI_OK ? wanted : input->text));
    free((uint8_t *)wanted.at);
    bigrosk_ini_text_close(&it);
}

/* One edit of the text: its document is listed where it loads, and its fault is `there` where it doesn't. */
static void edit_text_by(const struct input *input, enum edit_kind kind, uint32_t loaded,
                         const struct listing *listing, const fault *there)
{
    fault f = { 0, 0, 0, "" };
    size_t count = 0;
    uint8_t *none = filled(0);
    uint32_t status = call_text(input->text, kind, input, none, 0, &count, &f);
    note(16 + kind, status);
    PROMISE(none[0] == 0x5a && status != BIGROSK_INI_OK && status != BIGROSK_INI_NO_DOCUMENT);
    free(none);
    PROMISE((status == BIGROSK_INI_NOT_UTF8) == (loaded == BIGROSK_INI_NOT_UTF8 || !are_texts(kind, input)));
    if (loaded == BIGROSK_INI_OK) edit_open_by(input, kind, status, count);
    if (status == BIGROSK_INI_NOT_UTF8 || is_unwritable(kind, status)) return;
    PROMISE((status == BIGROSK_INI_BROKEN) == (loaded == BIGROSK_INI_BROKEN));
    if (status == BIGROSK_INI_BROKEN) {
        PROMISE(f.kind == there->kind && f.line == there->line && f.column == there->column
            && !strcmp(f.message, there->message));
        return;
    }
    bool is_there = false;
    struct listing wanted = edited_listing(listing, kind, input, &is_there);
    if (kind != SET && kind != ADD) PROMISE(status == (is_there ? BIGROSK_INI_NO_ROOM : BIGROSK_INI_ABSENT));
    else PROMISE(status == BIGROSK_INI_NO_ROOM || (status == BIGROSK_INI_NO_PLACE
        && input->read.multiline && !is_there));
    if (status == BIGROSK_INI_NO_ROOM) take_edited(input, kind, &wanted, count);
    free_listing(&wanted);
}

void edit_text(const struct input *input)
{
    document it = BIGROSK_INI_EMPTY;
    fault f = { 0, 0, 0, "" };
    struct listing listing = { NULL, NULL, BIGROSK_INI_NO_SIZES, BIGROSK_INI_NO_SIZES };
    struct input named = *input;
    named.named = true;
    uint32_t loaded = load(input, false, input->text, &it, &f);
    if (loaded == BIGROSK_INI_OK) listing = listing_of(&it);
    for (enum edit_kind kind = SET; kind < EDIT_KINDS; kind++)
        edit_text_by(kind < DELETE_SECTION ? input : &named, kind, loaded, &listing, &f);
    if (loaded == BIGROSK_INI_OK) free_listing(&listing);
    bigrosk_ini_free(&it);
}
