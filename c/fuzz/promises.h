/* What the parts of the fuzz target share: an input, a document as the library lists it, edits, and what is
 * done where an answer breaks a promise of bigrosk_ini.h. */
#ifndef PROMISES_H
#define PROMISES_H

#include <stdio.h>
#include <stdlib.h>
#include "bigrosk_ini.h"

/* Ends the process where a promise is broken. */
#define PROMISE(it) do { if (!(it)) broken(__FILE__, __LINE__, #it); } while (0)

typedef struct bigrosk_ini_document document;
typedef struct bigrosk_ini_fault fault;

/* Bytes of an input, or of a listing; of the general section's name `at` is NULL. */
struct bytes {
    const uint8_t *at;
    size_t count;
};

/* What an input asks. */
struct input {
    struct bigrosk_ini_read_option read;
    struct bigrosk_ini_reading reading; /* the same, and the options that came later */
    struct bigrosk_ini_write_option write;
    bool drop_mark;
    bool named;
    struct bytes section, key, value, text;
};

/* A document as bigrosk_ini_items lists it. */
struct listing {
    uint8_t *bytes;
    size_t *counts;
    struct bigrosk_ini_sizes sizes, rooms;
};

enum edit_kind { SET, ADD, DELETE, RENAME_KEY, DELETE_SECTION, RENAME_SECTION, EDIT_KINDS };

void broken(const char *file, int line, const char *promise);

/* Memory that holds some value; running out of memory ends the process well. */
void *filled(size_t count);

/* Says that an input did this, so that libFuzzer keeps one that does something new. */
void note(unsigned what, size_t number);

bool is_utf8(struct bytes text);
bool is_same(struct bytes one, struct bytes other);

/* listing.c */
struct listing listing_of(document *it);
struct listing edited_listing(const struct listing *old, enum edit_kind kind, const struct input *input,
    bool *is_there);
bool is_same_listing(const struct listing *one, const struct listing *other);
bool has_listing(document *it, const struct listing *wanted);
void free_listing(struct listing *it);

/* look_ups.c */
void look_up(document *it, const struct listing *listing, const struct input *input);

/* edits.c */
void edit_document(const struct listing *listing, const struct input *input);
void edit_text(const struct input *input);

#endif
