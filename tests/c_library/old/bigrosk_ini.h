/* The header as it was in version 0.3.0, without its comments: what old/client.c is compiled with. It stays as it is. */
#ifndef BIGROSK_INI_H
#define BIGROSK_INI_H
#include <stdbool.h>
#include <stddef.h>
#include <stdint.h>
#include <string.h>
#ifdef __cplusplus
extern "C" {
#endif
enum bigrosk_ini_status {
    BIGROSK_INI_OK = 0,
    BIGROSK_INI_ABSENT = 1,
    BIGROSK_INI_NO_ROOM = 2,
    BIGROSK_INI_BROKEN = 3,
    BIGROSK_INI_NOT_UTF8 = 4,
    BIGROSK_INI_NO_MEMORY = 5,
    BIGROSK_INI_NO_DOCUMENT = 6,
    BIGROSK_INI_UNPLAIN_VALUE = 7,
    BIGROSK_INI_UNPLAIN_KEY = 8,
    BIGROSK_INI_NO_PLACE = 9,
    BIGROSK_INI_UNPLAIN_NAME = 10
};
enum bigrosk_ini_kind {
    BIGROSK_INI_END_OF_TEXT = 1,
    BIGROSK_INI_BROKEN_ESCAPE = 2,
    BIGROSK_INI_UNKNOWN_CHARACTER = 3,
    BIGROSK_INI_INLINE_COMMENT = 4,
    BIGROSK_INI_MISSING_KEY = 5,
    BIGROSK_INI_CR_ALONE = 6,
    BIGROSK_INI_HEADER_END = 7
};
struct bigrosk_ini_document {
    bool is_open;
    void *inner;
};
#define BIGROSK_INI_EMPTY { false, NULL }
struct bigrosk_ini_read_option {
    bool quotes;
    bool escapes;
    bool multiline;
    bool keep_indentation;
    bool brackets;
};
#define BIGROSK_INI_READ_DEFAULT { true, true, false, false, false }
enum bigrosk_ini_policy {
    BIGROSK_INI_NOTHING = 0,
    BIGROSK_INI_BASICS = 1,
    BIGROSK_INI_BASICS_UNICODE = 2,
    BIGROSK_INI_BASICS_UNICODE_EXTENDED = 3,
    BIGROSK_INI_RESERVED = 4,
    BIGROSK_INI_RESERVED_UNICODE = 5,
    BIGROSK_INI_RESERVED_UNICODE_EXTENDED = 6,
    BIGROSK_INI_EVERYTHING = 7
};
struct bigrosk_ini_write_option {
    uint32_t policy;
    bool crlf;
    uint32_t separator;
};
#define BIGROSK_INI_WRITE_DEFAULT { BIGROSK_INI_BASICS, false, 0 }
struct bigrosk_ini_fault {
    uint32_t kind;
    size_t line;
    size_t column;
    char message[64];
};
struct bigrosk_ini_sizes {
    size_t bytes;
    size_t counts;
};
#define BIGROSK_INI_NO_SIZES { 0, 0 }
struct bigrosk_ini_borrowed {
    const uint8_t *bytes;
    size_t count;
};
#define BIGROSK_INI_NOTHING_BORROWED { (const uint8_t *)"", 0 }
#define BIGROSK_INI_UNNAMED SIZE_MAX
uint32_t bigrosk_ini_version(void);
uint32_t bigrosk_ini_load(const uint8_t *text, size_t text_count, bool drop_mark,
                          const struct bigrosk_ini_read_option *option, struct bigrosk_ini_document *document,
                          struct bigrosk_ini_fault *fault);
void bigrosk_ini_free(struct bigrosk_ini_document *document);
uint32_t bigrosk_ini_get(struct bigrosk_ini_document *document, bool named, const uint8_t *section, size_t section_count,
                         const uint8_t *key, size_t key_count, uint8_t *value, size_t room, size_t *count);
uint32_t bigrosk_ini_borrow(struct bigrosk_ini_document *document, bool named, const uint8_t *section, size_t section_count,
                            const uint8_t *key, size_t key_count, struct bigrosk_ini_borrowed *value);
uint32_t bigrosk_ini_get_all(struct bigrosk_ini_document *document, bool named, const uint8_t *section,
                             size_t section_count, const uint8_t *key, size_t key_count, uint8_t *bytes, size_t bytes_room,
                             size_t *counts, size_t counts_room, struct bigrosk_ini_sizes *sizes);
uint32_t bigrosk_ini_pairs(struct bigrosk_ini_document *document, bool named, const uint8_t *section,
                           size_t section_count, uint8_t *bytes, size_t bytes_room, size_t *counts, size_t counts_room,
                           struct bigrosk_ini_sizes *sizes);
uint32_t bigrosk_ini_items(struct bigrosk_ini_document *document, uint8_t *bytes, size_t bytes_room, size_t *counts,
                           size_t counts_room, struct bigrosk_ini_sizes *sizes);
uint32_t bigrosk_ini_has(struct bigrosk_ini_document *document, bool named, const uint8_t *section, size_t section_count,
                         const uint8_t *key, size_t key_count);
uint32_t bigrosk_ini_has_section(struct bigrosk_ini_document *document, bool named, const uint8_t *section,
                                 size_t section_count);
uint32_t bigrosk_ini_set(struct bigrosk_ini_document *document, bool named, const uint8_t *section, size_t section_count,
                         const uint8_t *key, size_t key_count, const uint8_t *value, size_t value_count);
uint32_t bigrosk_ini_add(struct bigrosk_ini_document *document, bool named, const uint8_t *section, size_t section_count,
                         const uint8_t *key, size_t key_count, const uint8_t *value, size_t value_count);
uint32_t bigrosk_ini_delete(struct bigrosk_ini_document *document, bool named, const uint8_t *section,
                            size_t section_count, const uint8_t *key, size_t key_count);
uint32_t bigrosk_ini_delete_section(struct bigrosk_ini_document *document, bool named, const uint8_t *section,
                                    size_t section_count);
uint32_t bigrosk_ini_write(struct bigrosk_ini_document *document, const struct bigrosk_ini_write_option *option,
                           uint8_t *text, size_t room, size_t *count);
bool bigrosk_ini_is_plain(struct bigrosk_ini_document *document, const struct bigrosk_ini_write_option *write,
                          const struct bigrosk_ini_read_option *read);
uint32_t bigrosk_ini_edit_set(const uint8_t *text, size_t text_count, const struct bigrosk_ini_read_option *read,
                              const struct bigrosk_ini_write_option *write, bool named, const uint8_t *section,
                              size_t section_count, const uint8_t *key, size_t key_count, const uint8_t *value,
                              size_t value_count, uint8_t *out, size_t room, size_t *count,
                              struct bigrosk_ini_fault *fault);
uint32_t bigrosk_ini_edit_add(const uint8_t *text, size_t text_count, const struct bigrosk_ini_read_option *read,
                              const struct bigrosk_ini_write_option *write, bool named, const uint8_t *section,
                              size_t section_count, const uint8_t *key, size_t key_count, const uint8_t *value,
                              size_t value_count, uint8_t *out, size_t room, size_t *count,
                              struct bigrosk_ini_fault *fault);
uint32_t bigrosk_ini_edit_delete(const uint8_t *text, size_t text_count, const struct bigrosk_ini_read_option *read,
                                 bool named, const uint8_t *section, size_t section_count, const uint8_t *key,
                                 size_t key_count, uint8_t *out, size_t room, size_t *count,
                                 struct bigrosk_ini_fault *fault);
uint32_t bigrosk_ini_edit_rename_key(const uint8_t *text, size_t text_count, const struct bigrosk_ini_read_option *read,
                                     const struct bigrosk_ini_write_option *write, bool named, const uint8_t *section,
                                     size_t section_count, const uint8_t *key, size_t key_count,
                                     const uint8_t *new_key, size_t new_key_count, uint8_t *out, size_t room,
                                     size_t *count, struct bigrosk_ini_fault *fault);
uint32_t bigrosk_ini_edit_delete_section(const uint8_t *text, size_t text_count,
                                         const struct bigrosk_ini_read_option *read, const uint8_t *section,
                                         size_t section_count, uint8_t *out, size_t room, size_t *count,
                                         struct bigrosk_ini_fault *fault);
uint32_t bigrosk_ini_edit_rename_section(const uint8_t *text, size_t text_count,
                                         const struct bigrosk_ini_read_option *read,
                                         const struct bigrosk_ini_write_option *write, const uint8_t *section,
                                         size_t section_count, const uint8_t *new_name, size_t new_name_count,
                                         uint8_t *out, size_t room, size_t *count, struct bigrosk_ini_fault *fault);
static inline size_t bigrosk_ini_mark(const uint8_t *text, size_t text_count)
{
    return text_count >= 3 && memcmp(text, "\xef\xbb\xbf", 3) == 0 ? 3 : 0;
}
static inline const uint8_t *bigrosk_ini_bytes(const char *s) { return (const uint8_t *)(s ? s : ""); }
static inline size_t bigrosk_ini_count(const char *s) { return s ? strlen(s) : 0; }
static inline uint32_t bigrosk_ini_load_str(const char *text, struct bigrosk_ini_document *document,
                                            struct bigrosk_ini_fault *fault)
{
    struct bigrosk_ini_read_option option = BIGROSK_INI_READ_DEFAULT;
    return bigrosk_ini_load(bigrosk_ini_bytes(text), bigrosk_ini_count(text), true, &option, document, fault);
}
static inline uint32_t bigrosk_ini_get_str(struct bigrosk_ini_document *document, const char *section, const char *key,
                                           char *value, size_t room, size_t *count)
{
    size_t unused = 0;
    return bigrosk_ini_get(document, section != NULL, bigrosk_ini_bytes(section), bigrosk_ini_count(section),
                           bigrosk_ini_bytes(key), bigrosk_ini_count(key), (uint8_t *)value, room,
                           count ? count : &unused);
}
static inline uint32_t bigrosk_ini_borrow_str(struct bigrosk_ini_document *document, const char *section, const char *key,
                                              struct bigrosk_ini_borrowed *value)
{
    struct bigrosk_ini_borrowed nothing = BIGROSK_INI_NOTHING_BORROWED;
    *value = nothing;
    return bigrosk_ini_borrow(document, section != NULL, bigrosk_ini_bytes(section), bigrosk_ini_count(section),
                              bigrosk_ini_bytes(key), bigrosk_ini_count(key), value);
}
static inline uint32_t bigrosk_ini_get_all_str(struct bigrosk_ini_document *document, const char *section,
                                               const char *key, uint8_t *bytes, size_t bytes_room, size_t *counts,
                                               size_t counts_room, struct bigrosk_ini_sizes *sizes)
{
    return bigrosk_ini_get_all(document, section != NULL, bigrosk_ini_bytes(section), bigrosk_ini_count(section),
                               bigrosk_ini_bytes(key), bigrosk_ini_count(key), bytes, bytes_room, counts, counts_room,
                               sizes);
}
static inline uint32_t bigrosk_ini_pairs_str(struct bigrosk_ini_document *document, const char *section, uint8_t *bytes,
                                             size_t bytes_room, size_t *counts, size_t counts_room,
                                             struct bigrosk_ini_sizes *sizes)
{
    return bigrosk_ini_pairs(document, section != NULL, bigrosk_ini_bytes(section), bigrosk_ini_count(section), bytes,
                             bytes_room, counts, counts_room, sizes);
}
static inline uint32_t bigrosk_ini_has_str(struct bigrosk_ini_document *document, const char *section, const char *key)
{
    return bigrosk_ini_has(document, section != NULL, bigrosk_ini_bytes(section), bigrosk_ini_count(section),
                           bigrosk_ini_bytes(key), bigrosk_ini_count(key));
}
static inline uint32_t bigrosk_ini_has_section_str(struct bigrosk_ini_document *document, const char *section)
{
    return bigrosk_ini_has_section(document, section != NULL, bigrosk_ini_bytes(section), bigrosk_ini_count(section));
}
static inline uint32_t bigrosk_ini_set_str(struct bigrosk_ini_document *document, const char *section, const char *key,
                                           const char *value)
{
    return bigrosk_ini_set(document, section != NULL, bigrosk_ini_bytes(section), bigrosk_ini_count(section),
                           bigrosk_ini_bytes(key), bigrosk_ini_count(key), bigrosk_ini_bytes(value),
                           bigrosk_ini_count(value));
}
static inline uint32_t bigrosk_ini_add_str(struct bigrosk_ini_document *document, const char *section, const char *key,
                                           const char *value)
{
    return bigrosk_ini_add(document, section != NULL, bigrosk_ini_bytes(section), bigrosk_ini_count(section),
                           bigrosk_ini_bytes(key), bigrosk_ini_count(key), bigrosk_ini_bytes(value),
                           bigrosk_ini_count(value));
}
static inline uint32_t bigrosk_ini_delete_str(struct bigrosk_ini_document *document, const char *section,
                                              const char *key)
{
    return bigrosk_ini_delete(document, section != NULL, bigrosk_ini_bytes(section), bigrosk_ini_count(section),
                              bigrosk_ini_bytes(key), bigrosk_ini_count(key));
}
static inline uint32_t bigrosk_ini_delete_section_str(struct bigrosk_ini_document *document, const char *section)
{
    return bigrosk_ini_delete_section(document, section != NULL, bigrosk_ini_bytes(section),
                                      bigrosk_ini_count(section));
}
static inline uint32_t bigrosk_ini_edit_set_str(const char *text, const char *section, const char *key, const char *value,
                                                char *out, size_t room, size_t *count, struct bigrosk_ini_fault *fault)
{
    struct bigrosk_ini_read_option read = BIGROSK_INI_READ_DEFAULT;
    struct bigrosk_ini_write_option write = BIGROSK_INI_WRITE_DEFAULT;
    return bigrosk_ini_edit_set(bigrosk_ini_bytes(text), bigrosk_ini_count(text), &read, &write, section != NULL,
                                bigrosk_ini_bytes(section), bigrosk_ini_count(section), bigrosk_ini_bytes(key),
                                bigrosk_ini_count(key), bigrosk_ini_bytes(value), bigrosk_ini_count(value),
                                (uint8_t *)out, room, count, fault);
}
static inline uint32_t bigrosk_ini_edit_add_str(const char *text, const char *section, const char *key, const char *value,
                                                char *out, size_t room, size_t *count, struct bigrosk_ini_fault *fault)
{
    struct bigrosk_ini_read_option read = BIGROSK_INI_READ_DEFAULT;
    struct bigrosk_ini_write_option write = BIGROSK_INI_WRITE_DEFAULT;
    return bigrosk_ini_edit_add(bigrosk_ini_bytes(text), bigrosk_ini_count(text), &read, &write, section != NULL,
                                bigrosk_ini_bytes(section), bigrosk_ini_count(section), bigrosk_ini_bytes(key),
                                bigrosk_ini_count(key), bigrosk_ini_bytes(value), bigrosk_ini_count(value),
                                (uint8_t *)out, room, count, fault);
}
static inline uint32_t bigrosk_ini_edit_delete_str(const char *text, const char *section, const char *key, char *out,
                                                   size_t room, size_t *count, struct bigrosk_ini_fault *fault)
{
    struct bigrosk_ini_read_option read = BIGROSK_INI_READ_DEFAULT;
    return bigrosk_ini_edit_delete(bigrosk_ini_bytes(text), bigrosk_ini_count(text), &read, section != NULL,
                                   bigrosk_ini_bytes(section), bigrosk_ini_count(section), bigrosk_ini_bytes(key),
                                   bigrosk_ini_count(key), (uint8_t *)out, room, count, fault);
}
static inline uint32_t bigrosk_ini_edit_rename_key_str(const char *text, const char *section, const char *key,
                                                       const char *new_key, char *out, size_t room, size_t *count,
                                                       struct bigrosk_ini_fault *fault)
{
    struct bigrosk_ini_read_option read = BIGROSK_INI_READ_DEFAULT;
    struct bigrosk_ini_write_option write = BIGROSK_INI_WRITE_DEFAULT;
    return bigrosk_ini_edit_rename_key(bigrosk_ini_bytes(text), bigrosk_ini_count(text), &read, &write,
                                       section != NULL, bigrosk_ini_bytes(section), bigrosk_ini_count(section),
                                       bigrosk_ini_bytes(key), bigrosk_ini_count(key), bigrosk_ini_bytes(new_key),
                                       bigrosk_ini_count(new_key), (uint8_t *)out, room, count, fault);
}
static inline uint32_t bigrosk_ini_edit_delete_section_str(const char *text, const char *section, char *out,
                                                           size_t room, size_t *count, struct bigrosk_ini_fault *fault)
{
    struct bigrosk_ini_read_option read = BIGROSK_INI_READ_DEFAULT;
    if (!section) return BIGROSK_INI_ABSENT;
    return bigrosk_ini_edit_delete_section(bigrosk_ini_bytes(text), bigrosk_ini_count(text), &read,
                                           bigrosk_ini_bytes(section), bigrosk_ini_count(section), (uint8_t *)out, room,
                                           count, fault);
}
static inline uint32_t bigrosk_ini_edit_rename_section_str(const char *text, const char *section, const char *new_name,
                                                           char *out, size_t room, size_t *count,
                                                           struct bigrosk_ini_fault *fault)
{
    struct bigrosk_ini_read_option read = BIGROSK_INI_READ_DEFAULT;
    struct bigrosk_ini_write_option write = BIGROSK_INI_WRITE_DEFAULT;
    if (!section) return BIGROSK_INI_ABSENT;
    return bigrosk_ini_edit_rename_section(bigrosk_ini_bytes(text), bigrosk_ini_count(text), &read, &write,
                                           bigrosk_ini_bytes(section), bigrosk_ini_count(section),
                                           bigrosk_ini_bytes(new_name), bigrosk_ini_count(new_name), (uint8_t *)out,
                                           room, count, fault);
}
struct bigrosk_ini_walk {
    const uint8_t *at;
    const size_t *counts, *end;
};
static inline struct bigrosk_ini_walk bigrosk_ini_walk_over(const uint8_t *bytes, const size_t *counts,
                                                            struct bigrosk_ini_sizes sizes)
{
    struct bigrosk_ini_walk walk = { bytes, counts, counts + sizes.counts };
    return walk;
}
static inline bool bigrosk_ini_is_over(const struct bigrosk_ini_walk *walk) { return walk->counts == walk->end; }
static inline size_t bigrosk_ini_number(struct bigrosk_ini_walk *walk) { return *walk->counts++; }
static inline const char *bigrosk_ini_text(struct bigrosk_ini_walk *walk, size_t *count)
{
    const char *text = (const char *)walk->at;
    size_t bytes = bigrosk_ini_number(walk);
    if (count) *count = bytes;
    if (bytes == BIGROSK_INI_UNNAMED) return NULL;
    walk->at += bytes + 1;
    return text;
}
#ifdef __cplusplus
}
#endif
#endif
