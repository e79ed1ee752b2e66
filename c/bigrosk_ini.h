/* Bigrosk: INI documents for C, over a library whose every function is proved.
 *
 * A document lives in a struct bigrosk_ini_document of the caller's. It begins as BIGROSK_INI_EMPTY; bigrosk_ini_load puts
 * a document in, bigrosk_ini_free takes it out. Texts are UTF-8, each a pointer and a number of bytes; the functions at
 * the end take strings that end in 0. A call that is refused changes no document. The library opens no file: the caller
 * reads and writes. The calls bigrosk_ini_edit_.. change a text itself, and keep its comments and its layout.
 *
 * What a caller owes, and nothing checks:
 *   - a struct bigrosk_ini_document is written by these calls alone; it may be moved, but of two copies only one may be
 *     used further;
 *   - what a call lends is read before the next call with the document, and never written;
 *   - one call at a time uses a document, a look-up too; another thread may go on with it once the call has returned and the
 *     two are ordered (a lock, a thread's start or join). Different documents may be used at the same time;
 *   - every pointer points to as many items as are named (`counts` to so many size_t, the others to so many bytes), also where
 *     that is 0 (never NULL). Memory that a call writes is the caller's, holds some value, and overlaps no other argument's;
 *   - a bool is 0 or 1; no call is made from a signal handler, nor in the child of a fork of a program with threads;
 *   - malloc, realloc and free are one allocator's, and align a block to each power of two up to 16 that divides its size.
 *
 * What was compiled with this header works with each later library whose version has the same first number (the soname,
 * libbigrosk_ini.so.0, has it too): the calls, numbers and structs below keep their meaning and their layout. What comes
 * later has a name of its own: a further option comes in a new struct, whose first field is its size, which its macro sets
 * and by which the library knows what the caller has, and in new calls that take it. Such a struct may grow at its end.
 */
#ifndef BIGROSK_INI_H
#define BIGROSK_INI_H

#include <stdbool.h>
#include <stddef.h>
#include <stdint.h>
#include <string.h>
#ifndef BIGROSK_INI_BARE /* defined, the header has neither typed look-ups nor buffer nor files, and takes nothing but these four */
#include <errno.h>
#include <locale.h>
#include <stdio.h>
#include <stdlib.h>
#endif

#ifdef __cplusplus
extern "C" {
#endif

/* The version of this header; bigrosk_ini_version() has that of the library. */
#define BIGROSK_INI_VERSION "0.3.0"

/* What a call answers. */
enum bigrosk_ini_status {
    BIGROSK_INI_OK = 0,
    BIGROSK_INI_ABSENT = 1,     /* no such pair, section or dialect */
    BIGROSK_INI_NO_ROOM = 2,    /* the buffer is too small: it takes as many bytes as the count says, and 1 more */
    BIGROSK_INI_BROKEN = 3,     /* the text breaks the grammar: struct bigrosk_ini_fault says where and why */
    BIGROSK_INI_NOT_UTF8 = 4,   /* a text, a name, a key or a value is no UTF-8 */
    BIGROSK_INI_NO_MEMORY = 5,
    BIGROSK_INI_NO_DOCUMENT = 6,   /* nothing is loaded */
    BIGROSK_INI_UNPLAIN_VALUE = 7, /* the value of an edit of a text, written, is not read back */
    BIGROSK_INI_UNPLAIN_KEY = 8,   /* the same of its key */
    BIGROSK_INI_NO_PLACE = 9,      /* a new line can be put into the text nowhere */
    BIGROSK_INI_UNPLAIN_NAME = 10, /* the same of the name of a section, which an edit of a text would open or rename */
    BIGROSK_INI_THERE = 11,        /* a section that would be new is there */
    BIGROSK_INI_UNKNOWN_OPTION = 12 /* a number of a struct bigrosk_ini_reading or bigrosk_ini_lookup stands for no option */
};

/* What only the functions of this header answer. */
enum bigrosk_ini_plain_status {
    BIGROSK_INI_MISTYPED = 100,  /* a value is none of the type that is asked for */
    BIGROSK_INI_NO_FILE = 101,   /* a file can't be read or written: errno says why */
    BIGROSK_INI_NO_DIALECT = 102 /* no dialect has the name */
};

/* The status in words, as for a message. Plain C. */
static inline const char *bigrosk_ini_status_text(uint32_t status)
{
    switch (status) {
    case BIGROSK_INI_OK: return "done";
    case BIGROSK_INI_ABSENT: return "no such pair or section";
    case BIGROSK_INI_NO_ROOM: return "the buffer is too small";
    case BIGROSK_INI_BROKEN: return "the text breaks the grammar";
    case BIGROSK_INI_NOT_UTF8: return "not UTF-8";
    case BIGROSK_INI_NO_MEMORY: return "out of memory";
    case BIGROSK_INI_NO_DOCUMENT: return "no document is loaded";
    case BIGROSK_INI_UNPLAIN_VALUE: return "the value, written, is not read back";
    case BIGROSK_INI_UNPLAIN_KEY: return "the key, written, is not read back";
    case BIGROSK_INI_NO_PLACE: return "the text has no place for a new line";
    case BIGROSK_INI_UNPLAIN_NAME: return "the section's name, written, is not read back";
    case BIGROSK_INI_THERE: return "the section is there";
    case BIGROSK_INI_UNKNOWN_OPTION: return "a number stands for no option";
    case BIGROSK_INI_MISTYPED: return "the value is none of this type";
    case BIGROSK_INI_NO_FILE: return "the file can't be read or written";
    case BIGROSK_INI_NO_DIALECT: return "no dialect has this name";
    default: return "no status of this library";
    }
}

/* What is wrong where reading a text stops. */
enum bigrosk_ini_kind {
    BIGROSK_INI_END_OF_TEXT = 1,       /* within a name, a key, quotes or an escape */
    BIGROSK_INI_BROKEN_ESCAPE = 2,     /* among the four units of \x stands a backslash, and no LF after it */
    BIGROSK_INI_UNKNOWN_CHARACTER = 3, /* the four units of \x spell no character */
    BIGROSK_INI_INLINE_COMMENT = 4,    /* ; or # where an item may begin, but no comment */
    BIGROSK_INI_MISSING_KEY = 5,       /* a separator follows an empty key, or where lone lines are keys a line end */
    BIGROSK_INI_CR_ALONE = 6,          /* in a multiline value, CR without LF in the place of an empty line */
    BIGROSK_INI_HEADER_END = 7,        /* with brackets in names, a header's line does not end in ] */
    BIGROSK_INI_NO_SEPARATOR = 8       /* where lone lines are refused, no separator follows the key in its line */
};

/* A document, or none. */
struct bigrosk_ini_document {
    bool is_open;
    void *inner;
};
#define BIGROSK_INI_EMPTY { false, NULL }

/* A text in pieces, or none. */
struct bigrosk_ini_text {
    bool is_open;
    void *inner;
};
#define BIGROSK_INI_TEXT_EMPTY { false, NULL }

/* Where a value stands: from 1, in characters. */
struct bigrosk_ini_place {
    size_t line;
    size_t column;
};
#define BIGROSK_INI_NO_PLACE_YET { 0, 0 }

/* How a text is read. */
struct bigrosk_ini_read_option {
    bool quotes;           /* a part of a value may stand in quotes */
    bool escapes;          /* a backslash begins an escape */
    bool multiline;        /* a value goes on over indented lines */
    bool keep_indentation; /* blanks before a key belong to it */
    bool brackets;         /* brackets may stand in names of sections */
};
#define BIGROSK_INI_READ_DEFAULT { true, true, false, false, false }

/* What becomes of a line in which no separator follows the key. */
enum bigrosk_ini_lone_lines {
    BIGROSK_INI_LONE_LINES_RUN_ON = 0,  /* the key runs on over the line end, up to a separator */
    BIGROSK_INI_LONE_LINES_REFUSED = 1, /* the text is refused: NO_SEPARATOR */
    BIGROSK_INI_LONE_LINES_KEYS = 2     /* the key has the empty value */
};

/* The same with the options that came later. It begins as BIGROSK_INI_READING_DEFAULT; the calls whose names end in _by take it. */
struct bigrosk_ini_reading {
    uint8_t size;          /* of this struct, as the macro sets it: an option that it doesn't reach is off, or 0 */
    bool quotes;
    bool escapes;
    bool multiline;
    bool keep_indentation;
    bool brackets;
    bool raw_backslash;    /* where escapes are off, a backslash is a character like any other, before a line feed too */
    uint8_t lone_lines;    /* enum bigrosk_ini_lone_lines; any other number is refused */
    uint8_t indented_comments; /* with 1, blanks and ; or # begin a comment where a line starts; 0 without; no other number */
    uint8_t inline_comments;   /* with 1, a blank and ; or # begin a comment in a value, and after a name; 0, no other number */
};
#define BIGROSK_INI_READING_DEFAULT \
    { sizeof(struct bigrosk_ini_reading), true, true, false, false, false, false, BIGROSK_INI_LONE_LINES_RUN_ON, 0, 0 }

/* Which sections of a name are looked at, and which value of a key counts, or that all of them do. */
enum bigrosk_ini_section_rule {
    BIGROSK_INI_SECTIONS_FIRST = 0, /* the first one alone */
    BIGROSK_INI_SECTIONS_JOINED = 1 /* all of them, as if they were one */
};
enum bigrosk_ini_value_rule {
    BIGROSK_INI_VALUES_FIRST = 0,
    BIGROSK_INI_VALUES_LAST = 1,
    BIGROSK_INI_VALUES_LIST = 2 /* all of them, as a list */
};

/* By which rule settings are looked up. It begins as BIGROSK_INI_LOOKUP_DEFAULT, the rule of all calls that take none; the calls
 * whose names end in _under take it. With BIGROSK_INI_VALUES_LIST a setting's value is the list of all values of its key, as one
 * text: a line feed between two, and in each value \n for a line feed and \\ for a backslash. */
struct bigrosk_ini_lookup {
    uint8_t size;        /* of this struct, as the macro sets it: by it a later library knows what the caller has */
    uint8_t sections;    /* enum bigrosk_ini_section_rule; any other number is refused */
    uint8_t values;      /* enum bigrosk_ini_value_rule; any other number is refused */
    uint8_t ignore_case; /* with 1, the case of A to Z tells neither keys nor names apart; 0 where it does; no other number */
};
#define BIGROSK_INI_LOOKUP_DEFAULT \
    { sizeof(struct bigrosk_ini_lookup), BIGROSK_INI_SECTIONS_FIRST, BIGROSK_INI_VALUES_FIRST, 0 }

/* Which characters of names, keys and values are escaped. */
enum bigrosk_ini_policy {
    BIGROSK_INI_NOTHING = 0,
    BIGROSK_INI_BASICS = 1,
    BIGROSK_INI_BASICS_UNICODE = 2,
    BIGROSK_INI_BASICS_UNICODE_EXTENDED = 3,
    BIGROSK_INI_RESERVED = 4,
    BIGROSK_INI_RESERVED_UNICODE = 5,
    BIGROSK_INI_RESERVED_UNICODE_EXTENDED = 6,
    BIGROSK_INI_EVERYTHING = 7
};

/* How a document is written. */
struct bigrosk_ini_write_option {
    uint32_t policy;    /* enum bigrosk_ini_policy; any greater number is EVERYTHING */
    bool crlf;          /* lines end in CR LF */
    uint32_t separator; /* 0 "=", 1 " = ", 2 ":", any other number ": " */
};
#define BIGROSK_INI_WRITE_DEFAULT { BIGROSK_INI_BASICS, false, 0 }

/* Where and why reading a text stopped. */
struct bigrosk_ini_fault {
    uint32_t kind;    /* enum bigrosk_ini_kind */
    size_t line;      /* from 1 */
    size_t column;    /* from 1, in characters: the place after the character that was looked at */
    char message[64]; /* ends in 0 */
};

/* How much a listing takes: so many bytes, and so many counts. */
struct bigrosk_ini_sizes {
    size_t bytes;
    size_t counts;
};
#define BIGROSK_INI_NO_SIZES { 0, 0 }

/* Bytes that are lent, with no 0 after them. */
struct bigrosk_ini_borrowed {
    const uint8_t *bytes;
    size_t count;
};
#define BIGROSK_INI_NOTHING_BORROWED { (const uint8_t *)"", 0 }

/* In what is listed, the count of the general section's name, which is none, and of a value that is not there. */
#define BIGROSK_INI_UNNAMED SIZE_MAX

/* 10000 * major + 100 * minor */
uint32_t bigrosk_ini_version(void);

/* Loads the document of a text, in place of the one that is there; with drop_mark without one mark (the bytes EF BB BF) at the
 * text's front.
 * OK; NOT_UTF8; BROKEN, and only then is the fault written; NO_MEMORY. Where it isn't OK, the document that was there stays. */
uint32_t bigrosk_ini_load(const uint8_t *text, size_t text_count, bool drop_mark,
                          const struct bigrosk_ini_read_option *option, struct bigrosk_ini_document *document,
                          struct bigrosk_ini_fault *fault);

/* The same by a struct bigrosk_ini_reading: also UNKNOWN_OPTION, after NOT_UTF8. */
uint32_t bigrosk_ini_load_by(const uint8_t *text, size_t text_count, bool drop_mark,
                             const struct bigrosk_ini_reading *reading, struct bigrosk_ini_document *document,
                             struct bigrosk_ini_fault *fault);

/* Frees the document, which leaves none. */
void bigrosk_ini_free(struct bigrosk_ini_document *document);

/* In the calls below, `named` false means the general section, which stands before the first header; its name is then passed
 * over, but must be a text. The first section of a name counts, and in it the first pair of a key. */

/* Copies the value of the key out, and a 0 after it; count says how many bytes it has, with OK and with NO_ROOM, and means
 * nothing with any other status.
 * OK; ABSENT; NO_ROOM where the buffer has room for no more than count bytes: it is then as it was; NOT_UTF8; NO_DOCUMENT. */
uint32_t bigrosk_ini_get(struct bigrosk_ini_document *document, bool named, const uint8_t *section, size_t section_count,
                         const uint8_t *key, size_t key_count, uint8_t *value, size_t room, size_t *count);

/* Lends the value of the key, without a copy: `value` then points to the document's own bytes, until the next call with the document,
 * whichever that is. The struct is BIGROSK_INI_NOTHING_BORROWED before the call.
 * OK; ABSENT, NOT_UTF8 or NO_DOCUMENT, and the struct is then as it was. It takes no memory. */
uint32_t bigrosk_ini_borrow(struct bigrosk_ini_document *document, bool named, const uint8_t *section, size_t section_count,
                            const uint8_t *key, size_t key_count, struct bigrosk_ini_borrowed *value);

/* The next three list texts in order: in `bytes` one text after another, each with a 0 after it, and in `counts` how many bytes
 * each has, its 0 not counted. `sizes` says how much of both buffers that takes, with OK and with NO_ROOM; with anything but OK
 * the buffers are as they were. bigrosk_ini_text goes over a listing. */

/* Lists all values of the key: the number of its pairs is sizes->counts.
 * OK; ABSENT; NO_ROOM; NOT_UTF8; NO_MEMORY; NO_DOCUMENT. */
uint32_t bigrosk_ini_get_all(struct bigrosk_ini_document *document, bool named, const uint8_t *section,
                             size_t section_count, const uint8_t *key, size_t key_count, uint8_t *bytes, size_t bytes_room,
                             size_t *counts, size_t counts_room, struct bigrosk_ini_sizes *sizes);

/* Lists all pairs of the section: of each the key, and then the value.
 * OK; ABSENT where no section has the name; NO_ROOM; NOT_UTF8; NO_MEMORY; NO_DOCUMENT. */
uint32_t bigrosk_ini_pairs(struct bigrosk_ini_document *document, bool named, const uint8_t *section,
                           size_t section_count, uint8_t *bytes, size_t bytes_room, size_t *counts, size_t counts_room,
                           struct bigrosk_ini_sizes *sizes);

/* Lists the whole document, in which two sections may have one name: of each section the name, among `counts` the number of its pairs (a number
 * without a text), and then its pairs. The general section has no text there, and BIGROSK_INI_UNNAMED in place of a count.
 * OK; NO_ROOM; NO_MEMORY; NO_DOCUMENT. */
uint32_t bigrosk_ini_items(struct bigrosk_ini_document *document, uint8_t *bytes, size_t bytes_room, size_t *counts,
                           size_t counts_room, struct bigrosk_ini_sizes *sizes);

/* Whether the section has the key: OK, ABSENT, NOT_UTF8 or NO_DOCUMENT. */
uint32_t bigrosk_ini_has(struct bigrosk_ini_document *document, bool named, const uint8_t *section, size_t section_count,
                         const uint8_t *key, size_t key_count);

/* Whether a section has the name: OK, ABSENT, NOT_UTF8 or NO_DOCUMENT. */
uint32_t bigrosk_ini_has_section(struct bigrosk_ini_document *document, bool named, const uint8_t *section,
                                 size_t section_count);

/* Sets the value of the key. The key's later pairs in that section go; a new key, or a new section, comes last.
 * OK, NOT_UTF8, NO_MEMORY or NO_DOCUMENT. */
uint32_t bigrosk_ini_set(struct bigrosk_ini_document *document, bool named, const uint8_t *section, size_t section_count,
                         const uint8_t *key, size_t key_count, const uint8_t *value, size_t value_count);

/* Puts the pair last in the section, also where the key is there; a new section comes last.
 * OK, NOT_UTF8, NO_MEMORY or NO_DOCUMENT. */
uint32_t bigrosk_ini_add(struct bigrosk_ini_document *document, bool named, const uint8_t *section, size_t section_count,
                         const uint8_t *key, size_t key_count, const uint8_t *value, size_t value_count);

/* Takes the pair out: OK, ABSENT, NOT_UTF8 or NO_DOCUMENT. */
uint32_t bigrosk_ini_delete(struct bigrosk_ini_document *document, bool named, const uint8_t *section,
                            size_t section_count, const uint8_t *key, size_t key_count);

/* Takes the section out: OK, ABSENT, NOT_UTF8 or NO_DOCUMENT. */
uint32_t bigrosk_ini_delete_section(struct bigrosk_ini_document *document, bool named, const uint8_t *section,
                                    size_t section_count);

/* Copies the document's text out, and a 0 after it; count says how many bytes it has, with OK and with NO_ROOM alone.
 * OK; NO_ROOM, and the buffer is as it was; NO_MEMORY; NO_DOCUMENT. */
uint32_t bigrosk_ini_write(struct bigrosk_ini_document *document, const struct bigrosk_ini_write_option *option,
                           uint8_t *text, size_t room, size_t *count);

/* Whether the document, written by one option, loads by the other as it is: to be asked before it is saved. Of no document
 * it is not so, nor by an unknown option. */
bool bigrosk_ini_is_plain(struct bigrosk_ini_document *document, const struct bigrosk_ini_write_option *write,
                          const struct bigrosk_ini_read_option *read);
bool bigrosk_ini_is_plain_by(struct bigrosk_ini_document *document, const struct bigrosk_ini_write_option *write,
                             const struct bigrosk_ini_reading *reading);

/* Fills the options in by the name of a dialect: how its programs read their files, and how a line is written that they read
 * back. The names: crate (the default options), strict (these, and lone lines are refused), aws, desktop, editorconfig,
 * fail2ban, freetds, git, hg, kde, mysql, npm, odbc, openssl, openttd, php, pulseaudio, python, qt, samba, sssd, supervisor,
 * systemd, uwsgi, windows, xrdp. The calls look up as ever: the first section and the first pair count, and case tells names
 * apart, whatever the dialect's programs do, but for those that end in _under. OK; ABSENT where no dialect has the name; NOT_UTF8. With anything but OK the
 * options are as they were. The first call knows of no option that came later; the second one leaves the size as it is, and
 * what that doesn't reach. */
uint32_t bigrosk_ini_dialect(const uint8_t *name, size_t name_count, struct bigrosk_ini_read_option *read,
                             struct bigrosk_ini_write_option *write);
uint32_t bigrosk_ini_dialect_by(const uint8_t *name, size_t name_count, struct bigrosk_ini_reading *reading,
                                struct bigrosk_ini_write_option *write);

/* Fills the rule in by the name of a dialect: how its programs look up, never with BIGROSK_INI_VALUES_LIST, which the caller may put
 * there then. The size stays.
 * OK; ABSENT where no dialect has the name; NOT_UTF8. With anything but OK the rule is as it was. */
uint32_t bigrosk_ini_dialect_lookup(const uint8_t *name, size_t name_count, struct bigrosk_ini_lookup *lookup);

/* The next six edit a text itself, and keep every byte that the edit is not about: comments, blank lines, alignment, line ends.
 * No document is used: the text comes in as bytes, and the new one is copied into `out`, and a 0 after it; count says how many
 * bytes it has, with OK and with NO_ROOM alone. The text that comes in stays as it is. The options say how it is read, and how what is put
 * in is written. A mark at its front (the bytes EF BB BF) is a character like others: bigrosk_ini_mark says how many bytes to leave
 * out before the call, and to keep.
 * Each answers NOT_UTF8 before anything else, and BROKEN, and only then is the fault written, where reading the text stops,
 * also after the place that the edit is about; NO_MEMORY; NO_ROOM where the buffer has room for no more than count bytes. With
 * anything but OK the buffer is as it was. */

/* Sets the key's value: in the place of that of its first pair, and the key's later pairs in that section go; where the section
 * lacks the key, in a new line directly after its last pair, which looks like that; and where no section has the name (the general
 * one is always there), in a new one at the text's end, after an empty line. The value is written in the first form that is read
 * back: in the quotes of the old one where it hasn't their mark, bare, in double quotes, in single ones. Every other byte stays.
 * The new text loads as the document in which the key is set.
 * OK; UNPLAIN_VALUE, before the text is read; where the key is not there UNPLAIN_KEY, UNPLAIN_NAME where no section has the name, and
 * NO_PLACE, with multiline values alone, before an indented key that the text's end cuts short; and those above. */
uint32_t bigrosk_ini_edit_set(const uint8_t *text, size_t text_count, const struct bigrosk_ini_read_option *read,
                              const struct bigrosk_ini_write_option *write, bool named, const uint8_t *section,
                              size_t section_count, const uint8_t *key, size_t key_count, const uint8_t *value,
                              size_t value_count, uint8_t *out, size_t room, size_t *count,
                              struct bigrosk_ini_fault *fault);

/* Adds a further pair, whatever pairs of the key are there: in a new line directly after the section's last pair; and where no section
 * has the name, in a new one at the text's end, after an empty line. Every byte stays. The new text loads as the
 * document to which the pair is added.
 * OK; UNPLAIN_VALUE and UNPLAIN_KEY, in this order, before the text is read; UNPLAIN_NAME where no section has the name; NO_PLACE,
 * as above; and those above. */
uint32_t bigrosk_ini_edit_add(const uint8_t *text, size_t text_count, const struct bigrosk_ini_read_option *read,
                              const struct bigrosk_ini_write_option *write, bool named, const uint8_t *section,
                              size_t section_count, const uint8_t *key, size_t key_count, const uint8_t *value,
                              size_t value_count, uint8_t *out, size_t room, size_t *count,
                              struct bigrosk_ini_fault *fault);

/* Takes the key's first pair out, with its line end where what follows is read as before. The new text loads as the document
 * without the pair.
 * OK; ABSENT where the key is not there; and those above. */
uint32_t bigrosk_ini_edit_delete(const uint8_t *text, size_t text_count, const struct bigrosk_ini_read_option *read,
                                 bool named, const uint8_t *section, size_t section_count, const uint8_t *key,
                                 size_t key_count, uint8_t *out, size_t room, size_t *count,
                                 struct bigrosk_ini_fault *fault);

/* Gives the key's first pair another key: the key alone changes. Other pairs, of either key, stay.
 * OK; ABSENT where the key is not there; UNPLAIN_KEY where the new key, written in any pair's place, is not read back, before the
 * text is read; and those above. */
uint32_t bigrosk_ini_edit_rename_key(const uint8_t *text, size_t text_count, const struct bigrosk_ini_read_option *read,
                                     const struct bigrosk_ini_write_option *write, bool named, const uint8_t *section,
                                     size_t section_count, const uint8_t *key, size_t key_count,
                                     const uint8_t *new_key, size_t new_key_count, uint8_t *out, size_t room,
                                     size_t *count, struct bigrosk_ini_fault *fault);

/* Takes the first section of the name out, with all that follows it but the comments directly above the next header, and what
 * indents that. The general section has no name and does not go.
 * OK; ABSENT where no section has the name; and those above. */
uint32_t bigrosk_ini_edit_delete_section(const uint8_t *text, size_t text_count,
                                         const struct bigrosk_ini_read_option *read, const uint8_t *section,
                                         size_t section_count, uint8_t *out, size_t room, size_t *count,
                                         struct bigrosk_ini_fault *fault);

/* Puts another name into the header of the first section of the name: the header alone changes.
 * OK; ABSENT where no section has the name; UNPLAIN_NAME where the new name, written, is not read back, before the text is read; and
 * those above. */
uint32_t bigrosk_ini_edit_rename_section(const uint8_t *text, size_t text_count,
                                         const struct bigrosk_ini_read_option *read,
                                         const struct bigrosk_ini_write_option *write, const uint8_t *section,
                                         size_t section_count, const uint8_t *new_name, size_t new_name_count,
                                         uint8_t *out, size_t room, size_t *count, struct bigrosk_ini_fault *fault);

/* ---- A text in pieces, which stays open: parsed once, looked up and edited many times. Every byte that an edit is not about
 * stays: comments, blank lines, alignment, line ends. ----
 *
 * A struct bigrosk_ini_text begins as BIGROSK_INI_TEXT_EMPTY; bigrosk_ini_text_open puts a text in, bigrosk_ini_text_close takes
 * it out. All that is said of a document holds of it, and NO_DOCUMENT means that no text is open. A call that is refused changes
 * nothing. A mark at a text's front (the bytes EF BB BF) is a character like others: bigrosk_ini_mark says how many bytes to
 * leave out, and to keep; the calls bigrosk_ini_file_.. below do that. */

/* Opens a text, in place of the one that is open. It is copied: the bytes may go after the call.
 * OK; NOT_UTF8; BROKEN, and only then is the fault written; NO_MEMORY. Where it isn't OK, the text that was open stays. */
uint32_t bigrosk_ini_text_open(const uint8_t *bytes, size_t bytes_count, const struct bigrosk_ini_read_option *option,
                               struct bigrosk_ini_text *text, struct bigrosk_ini_fault *fault);

/* The same by a struct bigrosk_ini_reading: also UNKNOWN_OPTION, after NOT_UTF8. */
uint32_t bigrosk_ini_text_open_by(const uint8_t *bytes, size_t bytes_count, const struct bigrosk_ini_reading *reading,
                                  struct bigrosk_ini_text *text, struct bigrosk_ini_fault *fault);

/* Closes the text, which leaves none. */
void bigrosk_ini_text_close(struct bigrosk_ini_text *text);

/* Copies the text out as it now is, and a 0 after it; count says how many bytes it has, with OK and with NO_ROOM alone.
 * OK; NO_ROOM, and the buffer is as it was; NO_MEMORY; NO_DOCUMENT. */
uint32_t bigrosk_ini_text_write(struct bigrosk_ini_text *text, uint8_t *out, size_t room, size_t *count);

/* The next eight look up, list and tell as the calls of a document do that are named alike. */
uint32_t bigrosk_ini_text_get(struct bigrosk_ini_text *text, bool named, const uint8_t *section, size_t section_count,
                              const uint8_t *key, size_t key_count, uint8_t *value, size_t room, size_t *count);
uint32_t bigrosk_ini_text_borrow(struct bigrosk_ini_text *text, bool named, const uint8_t *section, size_t section_count,
                                 const uint8_t *key, size_t key_count, struct bigrosk_ini_borrowed *value);
uint32_t bigrosk_ini_text_get_all(struct bigrosk_ini_text *text, bool named, const uint8_t *section, size_t section_count,
                                  const uint8_t *key, size_t key_count, uint8_t *bytes, size_t bytes_room, size_t *counts,
                                  size_t counts_room, struct bigrosk_ini_sizes *sizes);
uint32_t bigrosk_ini_text_pairs(struct bigrosk_ini_text *text, bool named, const uint8_t *section, size_t section_count,
                                uint8_t *bytes, size_t bytes_room, size_t *counts, size_t counts_room,
                                struct bigrosk_ini_sizes *sizes);
uint32_t bigrosk_ini_text_items(struct bigrosk_ini_text *text, uint8_t *bytes, size_t bytes_room, size_t *counts,
                                size_t counts_room, struct bigrosk_ini_sizes *sizes);
uint32_t bigrosk_ini_text_has(struct bigrosk_ini_text *text, bool named, const uint8_t *section, size_t section_count,
                              const uint8_t *key, size_t key_count);
uint32_t bigrosk_ini_text_has_section(struct bigrosk_ini_text *text, bool named, const uint8_t *section,
                                      size_t section_count);

/* Tells where the key's value begins in the text as it now is, with its quotes. It walks the text up to there.
 * OK; ABSENT, NOT_UTF8 or NO_DOCUMENT, and the struct is then as it was. */
uint32_t bigrosk_ini_text_place(struct bigrosk_ini_text *text, bool named, const uint8_t *section, size_t section_count,
                                const uint8_t *key, size_t key_count, struct bigrosk_ini_place *place);

/* Sets the key's value: in the place of that of its first pair, and the key's later pairs in that section go; where the section
 * lacks the key, in a new line directly after its last pair, which looks like that; and where no section has the name, in a new
 * one at the text's end, after an empty line. The value is written in the first form that is read back: in the quotes of the old
 * one where it hasn't their mark, bare, in double quotes, in single ones. A value that is there already stays as it is written.
 * OK; UNPLAIN_VALUE, UNPLAIN_KEY, UNPLAIN_NAME and NO_PLACE as bigrosk_ini_edit_set has them; NOT_UTF8; NO_MEMORY; NO_DOCUMENT. */
uint32_t bigrosk_ini_text_set(struct bigrosk_ini_text *text, const struct bigrosk_ini_write_option *write, bool named,
                              const uint8_t *section, size_t section_count, const uint8_t *key, size_t key_count,
                              const uint8_t *value, size_t value_count);

/* Adds a further pair, whatever pairs of the key are there, in a line as bigrosk_ini_text_set writes a new one.
 * The same. */
uint32_t bigrosk_ini_text_add(struct bigrosk_ini_text *text, const struct bigrosk_ini_write_option *write, bool named,
                              const uint8_t *section, size_t section_count, const uint8_t *key, size_t key_count,
                              const uint8_t *value, size_t value_count);

/* Takes the key's first pair out, with its line end where what follows is read as before.
 * OK; ABSENT where the key is not there; NOT_UTF8; NO_MEMORY; NO_DOCUMENT. */
uint32_t bigrosk_ini_text_delete(struct bigrosk_ini_text *text, bool named, const uint8_t *section, size_t section_count,
                                 const uint8_t *key, size_t key_count);

/* Of a repeated key: sets the pair before which n others of it stand, takes that out, takes all of them out. Other pairs stay.
 * OK; ABSENT where there is no such pair; UNPLAIN_VALUE where a value is set; NOT_UTF8; NO_MEMORY; NO_DOCUMENT. */
uint32_t bigrosk_ini_text_set_nth(struct bigrosk_ini_text *text, const struct bigrosk_ini_write_option *write, bool named,
                                  const uint8_t *section, size_t section_count, const uint8_t *key, size_t key_count,
                                  size_t n, const uint8_t *value, size_t value_count);
uint32_t bigrosk_ini_text_delete_nth(struct bigrosk_ini_text *text, bool named, const uint8_t *section,
                                     size_t section_count, const uint8_t *key, size_t key_count, size_t n);
uint32_t bigrosk_ini_text_delete_all(struct bigrosk_ini_text *text, bool named, const uint8_t *section,
                                     size_t section_count, const uint8_t *key, size_t key_count);

/* Gives the key these values, in order: its pairs get them one after another, each value more stands in a new pair, and each pair
 * more is taken out. The values stand as a listing has them: one after another in `bytes`, each with one byte after it, and
 * `counts` says how many bytes each has, that one not counted.
 * What bigrosk_ini_text_set answers; NOT_UTF8 also where there are fewer bytes than counted. */
uint32_t bigrosk_ini_text_set_all(struct bigrosk_ini_text *text, const struct bigrosk_ini_write_option *write, bool named,
                                  const uint8_t *section, size_t section_count, const uint8_t *key, size_t key_count,
                                  const uint8_t *bytes, size_t bytes_count, const size_t *counts, size_t counts_count);

/* Gives the key's first pair another key; puts another name into the section's header; takes the section out, with all that
 * follows it but the comments directly above the next header, and what indents that. The general section has no name.
 * OK; ABSENT; UNPLAIN_KEY or UNPLAIN_NAME where the new one, written, is not read back; NOT_UTF8; NO_MEMORY; NO_DOCUMENT. */
uint32_t bigrosk_ini_text_rename_key(struct bigrosk_ini_text *text, const struct bigrosk_ini_write_option *write, bool named,
                                     const uint8_t *section, size_t section_count, const uint8_t *key, size_t key_count,
                                     const uint8_t *new_key, size_t new_key_count);
uint32_t bigrosk_ini_text_rename_section(struct bigrosk_ini_text *text, const struct bigrosk_ini_write_option *write,
                                         const uint8_t *section, size_t section_count, const uint8_t *new_name,
                                         size_t new_name_count);
uint32_t bigrosk_ini_text_delete_section(struct bigrosk_ini_text *text, const uint8_t *section, size_t section_count);

/* Puts a section without pairs in at the text's end, after an empty line.
 * OK; THERE where a section has the name; UNPLAIN_NAME; NOT_UTF8; NO_MEMORY; NO_DOCUMENT. */
uint32_t bigrosk_ini_text_add_section(struct bigrosk_ini_text *text, const struct bigrosk_ini_write_option *write,
                                      const uint8_t *section, size_t section_count);

/* Copies the comment lines out that stand directly above the key's first pair, with their marks and line ends, and a 0 after them;
 * no bytes where none stand there. OK; ABSENT where the key is not there; NO_ROOM; NOT_UTF8; NO_DOCUMENT. */
uint32_t bigrosk_ini_text_comment(struct bigrosk_ini_text *text, bool named, const uint8_t *section, size_t section_count,
                                  const uint8_t *key, size_t key_count, uint8_t *out, size_t room, size_t *count);

/* Puts comment lines there, in place of those that stand there. Each begins with ; or # and ends with LF; the last one gets a line
 * end where it has none. No bytes take the comments out.
 * OK; ABSENT where the key is not there; UNPLAIN_VALUE where a line is no comment; NO_PLACE where, with multiline values, the pair
 * would go on with the value before it; NOT_UTF8; NO_MEMORY; NO_DOCUMENT. */
uint32_t bigrosk_ini_text_set_comment(struct bigrosk_ini_text *text, const struct bigrosk_ini_write_option *write, bool named,
                                      const uint8_t *section, size_t section_count, const uint8_t *key, size_t key_count,
                                      const uint8_t *comment, size_t comment_count);

/* Makes the key's first pair a comment, each of its lines after "; ".
 * OK; ABSENT; NO_PLACE where the pair is not in column one, or a CR alone ends its line; NOT_UTF8; NO_MEMORY; NO_DOCUMENT. */
uint32_t bigrosk_ini_text_comment_out(struct bigrosk_ini_text *text, bool named, const uint8_t *section,
                                      size_t section_count, const uint8_t *key, size_t key_count);

/* ---- What differs between texts, setting by setting: comments, order and spelling are none. The texts are different structs. ---- */

/* Lists the settings whose values differ, each once: four texts of each, the name of its section, its key, its value in `from`, and
 * its value in `to`. In place of the general section's name, and of a value that is not there, there is no text, and
 * BIGROSK_INI_UNNAMED as its count. Those of `to` come in their order, and then those that it lacks.
 * OK; NO_ROOM; NO_MEMORY; NO_DOCUMENT. */
uint32_t bigrosk_ini_text_diff(struct bigrosk_ini_text *from, struct bigrosk_ini_text *to, uint8_t *bytes,
                               size_t bytes_room, size_t *counts, size_t counts_room, struct bigrosk_ini_sizes *sizes);

/* Makes changes that stand as they are listed, all or none, whatever values the settings have: one with a value to have is set, and
 * one without loses all pairs of its key in its section.
 * What bigrosk_ini_text_set answers of the first change that is refused, whose number, from 0, is in `refused` then; NOT_UTF8 where
 * these are no changes. */
uint32_t bigrosk_ini_text_apply(struct bigrosk_ini_text *text, const struct bigrosk_ini_write_option *write,
                                const uint8_t *bytes, size_t bytes_count, const size_t *counts, size_t counts_count,
                                size_t *refused);

/* Lists the settings that ours and theirs both changed in `base`, to different values: five texts of each, those of the change from
 * `base` to ours, and the value of theirs.
 * OK; NO_ROOM; NO_MEMORY; NO_DOCUMENT. */
uint32_t bigrosk_ini_text_conflicts(struct bigrosk_ini_text *base, struct bigrosk_ini_text *ours,
                                    struct bigrosk_ini_text *theirs, uint8_t *bytes, size_t bytes_room, size_t *counts,
                                    size_t counts_room, struct bigrosk_ini_sizes *sizes);

/* Makes what ours changed in `base` in theirs, all or none. A setting that one side changed has that side's value, and one in
 * conflict that of ours with take_ours, and else that of theirs.
 * What bigrosk_ini_text_apply answers of the changes that it makes. */
uint32_t bigrosk_ini_text_merge3(struct bigrosk_ini_text *base, struct bigrosk_ini_text *ours,
                                 struct bigrosk_ini_text *theirs, const struct bigrosk_ini_write_option *write,
                                 bool take_ours, size_t *refused);

/* The same four under a rule: also UNKNOWN_OPTION, before anything else. A setting has the value that a look-up under the rule
 * finds. What is listed has each name and each key where it first comes, in small letters where case is ignored. A change sets
 * the pair that counts, and where the rule is not the default one other pairs of the key stay; a change without a value to have takes out
 * all pairs of the key that are looked at. With BIGROSK_INI_VALUES_LIST lists are compared and merged as a whole, and a change gives
 * the key the values of its list, as bigrosk_ini_text_set_all does, in the pairs that are looked at. */
uint32_t bigrosk_ini_text_diff_under(struct bigrosk_ini_text *from, struct bigrosk_ini_text *to,
                                     const struct bigrosk_ini_lookup *lookup, uint8_t *bytes, size_t bytes_room,
                                     size_t *counts, size_t counts_room, struct bigrosk_ini_sizes *sizes);
uint32_t bigrosk_ini_text_apply_under(struct bigrosk_ini_text *text, const struct bigrosk_ini_lookup *lookup,
                                      const struct bigrosk_ini_write_option *write, const uint8_t *bytes,
                                      size_t bytes_count, const size_t *counts, size_t counts_count, size_t *refused);
uint32_t bigrosk_ini_text_conflicts_under(struct bigrosk_ini_text *base, struct bigrosk_ini_text *ours,
                                          struct bigrosk_ini_text *theirs, const struct bigrosk_ini_lookup *lookup,
                                          uint8_t *bytes, size_t bytes_room, size_t *counts, size_t counts_room,
                                          struct bigrosk_ini_sizes *sizes);
uint32_t bigrosk_ini_text_merge3_under(struct bigrosk_ini_text *base, struct bigrosk_ini_text *ours,
                                       struct bigrosk_ini_text *theirs, const struct bigrosk_ini_lookup *lookup,
                                       const struct bigrosk_ini_write_option *write, bool take_ours, size_t *refused);

/* How many bytes of the text are a mark at its front: 3 or 0. Plain C. */
static inline size_t bigrosk_ini_mark(const uint8_t *text, size_t text_count)
{
    return text_count >= 3 && memcmp(text, "\xef\xbb\xbf", 3) == 0 ? 3 : 0;
}

/* ---- The same for strings that end in 0; a section of NULL is the general one. Plain C, proved by nobody. ---- */

static inline const uint8_t *bigrosk_ini_bytes(const char *s) { return (const uint8_t *)(s ? s : ""); }
static inline size_t bigrosk_ini_count(const char *s) { return s ? strlen(s) : 0; }

/* What a section and a key are to a call. */
#define BIGROSK_INI_AT(section, key)                                                                                    \
    (section) != NULL, bigrosk_ini_bytes(section), bigrosk_ini_count(section), bigrosk_ini_bytes(key), bigrosk_ini_count(key)

static inline uint32_t bigrosk_ini_load_str(const char *text, struct bigrosk_ini_document *document,
                                            struct bigrosk_ini_fault *fault)
{
    struct bigrosk_ini_read_option option = BIGROSK_INI_READ_DEFAULT;
    return bigrosk_ini_load(bigrosk_ini_bytes(text), bigrosk_ini_count(text), true, &option, document, fault);
}

static inline uint32_t bigrosk_ini_dialect_str(const char *name, struct bigrosk_ini_read_option *read,
                                               struct bigrosk_ini_write_option *write)
{
    return bigrosk_ini_dialect(bigrosk_ini_bytes(name), bigrosk_ini_count(name), read, write);
}

static inline uint32_t bigrosk_ini_dialect_by_str(const char *name, struct bigrosk_ini_reading *reading,
                                                  struct bigrosk_ini_write_option *write)
{
    return bigrosk_ini_dialect_by(bigrosk_ini_bytes(name), bigrosk_ini_count(name), reading, write);
}

static inline uint32_t bigrosk_ini_dialect_lookup_str(const char *name, struct bigrosk_ini_lookup *lookup)
{
    return bigrosk_ini_dialect_lookup(bigrosk_ini_bytes(name), bigrosk_ini_count(name), lookup);
}

static inline uint32_t bigrosk_ini_get_str(struct bigrosk_ini_document *document, const char *section, const char *key,
                                           char *value, size_t room, size_t *count)
{
    size_t unused = 0;
    return bigrosk_ini_get(document, BIGROSK_INI_AT(section, key), (uint8_t *)value, room, count ? count : &unused);
}

/* Whatever stood in the struct, it is BIGROSK_INI_NOTHING_BORROWED where nothing is lent. */
static inline uint32_t bigrosk_ini_borrow_str(struct bigrosk_ini_document *document, const char *section, const char *key,
                                              struct bigrosk_ini_borrowed *value)
{
    struct bigrosk_ini_borrowed nothing = BIGROSK_INI_NOTHING_BORROWED;
    *value = nothing;
    return bigrosk_ini_borrow(document, BIGROSK_INI_AT(section, key), value);
}

static inline uint32_t bigrosk_ini_get_all_str(struct bigrosk_ini_document *document, const char *section,
                                               const char *key, uint8_t *bytes, size_t bytes_room, size_t *counts,
                                               size_t counts_room, struct bigrosk_ini_sizes *sizes)
{
    return bigrosk_ini_get_all(document, BIGROSK_INI_AT(section, key), bytes, bytes_room, counts, counts_room, sizes);
}

static inline uint32_t bigrosk_ini_pairs_str(struct bigrosk_ini_document *document, const char *section, uint8_t *bytes,
                                             size_t bytes_room, size_t *counts, size_t counts_room,
                                             struct bigrosk_ini_sizes *sizes)
{
    return bigrosk_ini_pairs(document, section != NULL, bigrosk_ini_bytes(section), bigrosk_ini_count(section), bytes,
                             bytes_room, counts, counts_room, sizes);
}

static inline uint32_t bigrosk_ini_has_str(struct bigrosk_ini_document *document, const char *section, const char *key)
{
    return bigrosk_ini_has(document, BIGROSK_INI_AT(section, key));
}

static inline uint32_t bigrosk_ini_has_section_str(struct bigrosk_ini_document *document, const char *section)
{
    return bigrosk_ini_has_section(document, section != NULL, bigrosk_ini_bytes(section), bigrosk_ini_count(section));
}

static inline uint32_t bigrosk_ini_set_str(struct bigrosk_ini_document *document, const char *section, const char *key,
                                           const char *value)
{
    return bigrosk_ini_set(document, BIGROSK_INI_AT(section, key), bigrosk_ini_bytes(value), bigrosk_ini_count(value));
}

static inline uint32_t bigrosk_ini_add_str(struct bigrosk_ini_document *document, const char *section, const char *key,
                                           const char *value)
{
    return bigrosk_ini_add(document, BIGROSK_INI_AT(section, key), bigrosk_ini_bytes(value), bigrosk_ini_count(value));
}

static inline uint32_t bigrosk_ini_delete_str(struct bigrosk_ini_document *document, const char *section,
                                              const char *key)
{
    return bigrosk_ini_delete(document, BIGROSK_INI_AT(section, key));
}

static inline uint32_t bigrosk_ini_delete_section_str(struct bigrosk_ini_document *document, const char *section)
{
    return bigrosk_ini_delete_section(document, section != NULL, bigrosk_ini_bytes(section),
                                      bigrosk_ini_count(section));
}

static inline uint32_t bigrosk_ini_edit_set_str(const char *text, const char *section, const char *key, const char *value,
                                                char *out, size_t room, size_t *count, struct bigrosk_ini_fault *fault)
{
    struct bigrosk_ini_read_option read = BIGROSK_INI_READ_DEFAULT;
    struct bigrosk_ini_write_option write = BIGROSK_INI_WRITE_DEFAULT;
    return bigrosk_ini_edit_set(bigrosk_ini_bytes(text), bigrosk_ini_count(text), &read, &write,
                                BIGROSK_INI_AT(section, key), bigrosk_ini_bytes(value), bigrosk_ini_count(value),
                                (uint8_t *)out, room, count, fault);
}

static inline uint32_t bigrosk_ini_edit_add_str(const char *text, const char *section, const char *key, const char *value,
                                                char *out, size_t room, size_t *count, struct bigrosk_ini_fault *fault)
{
    struct bigrosk_ini_read_option read = BIGROSK_INI_READ_DEFAULT;
    struct bigrosk_ini_write_option write = BIGROSK_INI_WRITE_DEFAULT;
    return bigrosk_ini_edit_add(bigrosk_ini_bytes(text), bigrosk_ini_count(text), &read, &write,
                                BIGROSK_INI_AT(section, key), bigrosk_ini_bytes(value), bigrosk_ini_count(value),
                                (uint8_t *)out, room, count, fault);
}

static inline uint32_t bigrosk_ini_edit_delete_str(const char *text, const char *section, const char *key, char *out,
                                                   size_t room, size_t *count, struct bigrosk_ini_fault *fault)
{
    struct bigrosk_ini_read_option read = BIGROSK_INI_READ_DEFAULT;
    return bigrosk_ini_edit_delete(bigrosk_ini_bytes(text), bigrosk_ini_count(text), &read,
                                   BIGROSK_INI_AT(section, key), (uint8_t *)out, room, count, fault);
}

static inline uint32_t bigrosk_ini_edit_rename_key_str(const char *text, const char *section, const char *key,
                                                       const char *new_key, char *out, size_t room, size_t *count,
                                                       struct bigrosk_ini_fault *fault)
{
    struct bigrosk_ini_read_option read = BIGROSK_INI_READ_DEFAULT;
    struct bigrosk_ini_write_option write = BIGROSK_INI_WRITE_DEFAULT;
    return bigrosk_ini_edit_rename_key(bigrosk_ini_bytes(text), bigrosk_ini_count(text), &read, &write,
                                       BIGROSK_INI_AT(section, key), bigrosk_ini_bytes(new_key),
                                       bigrosk_ini_count(new_key), (uint8_t *)out, room, count, fault);
}

static inline uint32_t bigrosk_ini_edit_delete_section_str(const char *text, const char *section, char *out,
                                                           size_t room, size_t *count, struct bigrosk_ini_fault *fault)
{
    struct bigrosk_ini_read_option read = BIGROSK_INI_READ_DEFAULT;
    if (!section) return BIGROSK_INI_ABSENT; /* the general section does not go */
    return bigrosk_ini_edit_delete_section(bigrosk_ini_bytes(text), bigrosk_ini_count(text), &read,
                                           bigrosk_ini_bytes(section), bigrosk_ini_count(section), (uint8_t *)out, room,
                                           count, fault);
}

static inline uint32_t bigrosk_ini_edit_rename_section_str(const char *text, const char *section, const char *new_name,
                                                           char *out, size_t room, size_t *count,
                                                           struct bigrosk_ini_fault *fault)
{
    struct bigrosk_ini_read_option read = BIGROSK_INI_READ_DEFAULT;
    struct bigrosk_ini_write_option write = BIGROSK_INI_WRITE_DEFAULT;
    if (!section) return BIGROSK_INI_ABSENT; /* the general section has no header */
    return bigrosk_ini_edit_rename_section(bigrosk_ini_bytes(text), bigrosk_ini_count(text), &read, &write,
                                           bigrosk_ini_bytes(section), bigrosk_ini_count(section),
                                           bigrosk_ini_bytes(new_name), bigrosk_ini_count(new_name), (uint8_t *)out,
                                           room, count, fault);
}

/* ---- A text in pieces, by strings that end in 0; a section of NULL is the general one. Plain C, proved by nobody. ---- */

static inline uint32_t bigrosk_ini_text_open_str(const char *bytes, struct bigrosk_ini_text *text,
                                                 struct bigrosk_ini_fault *fault)
{
    struct bigrosk_ini_read_option option = BIGROSK_INI_READ_DEFAULT;
    return bigrosk_ini_text_open(bigrosk_ini_bytes(bytes), bigrosk_ini_count(bytes), &option, text, fault);
}

static inline uint32_t bigrosk_ini_text_get_str(struct bigrosk_ini_text *text, const char *section, const char *key,
                                                char *value, size_t room, size_t *count)
{
    size_t unused = 0;
    return bigrosk_ini_text_get(text, BIGROSK_INI_AT(section, key), (uint8_t *)value, room, count ? count : &unused);
}

static inline uint32_t bigrosk_ini_text_has_str(struct bigrosk_ini_text *text, const char *section, const char *key)
{
    return bigrosk_ini_text_has(text, BIGROSK_INI_AT(section, key));
}

static inline uint32_t bigrosk_ini_text_place_str(struct bigrosk_ini_text *text, const char *section, const char *key,
                                                  struct bigrosk_ini_place *place)
{
    return bigrosk_ini_text_place(text, BIGROSK_INI_AT(section, key), place);
}

static inline uint32_t bigrosk_ini_text_set_str(struct bigrosk_ini_text *text, const char *section, const char *key,
                                                const char *value)
{
    struct bigrosk_ini_write_option write = BIGROSK_INI_WRITE_DEFAULT;
    return bigrosk_ini_text_set(text, &write, BIGROSK_INI_AT(section, key), bigrosk_ini_bytes(value),
                                bigrosk_ini_count(value));
}

static inline uint32_t bigrosk_ini_text_add_str(struct bigrosk_ini_text *text, const char *section, const char *key,
                                                const char *value)
{
    struct bigrosk_ini_write_option write = BIGROSK_INI_WRITE_DEFAULT;
    return bigrosk_ini_text_add(text, &write, BIGROSK_INI_AT(section, key), bigrosk_ini_bytes(value),
                                bigrosk_ini_count(value));
}

static inline uint32_t bigrosk_ini_text_delete_str(struct bigrosk_ini_text *text, const char *section, const char *key)
{
    return bigrosk_ini_text_delete(text, BIGROSK_INI_AT(section, key));
}

static inline uint32_t bigrosk_ini_text_set_comment_str(struct bigrosk_ini_text *text, const char *section, const char *key,
                                                        const char *comment)
{
    struct bigrosk_ini_write_option write = BIGROSK_INI_WRITE_DEFAULT;
    return bigrosk_ini_text_set_comment(text, &write, BIGROSK_INI_AT(section, key), bigrosk_ini_bytes(comment),
                                        bigrosk_ini_count(comment));
}

#ifndef BIGROSK_INI_BARE

/* ---- Typed look-ups. Each answers OK, and the value is written then alone; ABSENT; MISTYPED, and the place says where the value
 * stands that is none of the type; NOT_UTF8; NO_DOCUMENT. A value is looked at as a whole. ---- */

/* The value, copied into room for 128 bytes. MISTYPED where it is longer, or has a 0 in it. */
static inline uint32_t bigrosk_ini_short_value(struct bigrosk_ini_text *text, const char *section, const char *key,
                                               char *value, struct bigrosk_ini_place *place)
{
    size_t count = 0;
    uint32_t status = bigrosk_ini_text_get_str(text, section, key, value, 128, &count);
    if (status == BIGROSK_INI_NO_ROOM) status = BIGROSK_INI_MISTYPED;
    if (status == BIGROSK_INI_OK && strlen(value) != count) status = BIGROSK_INI_MISTYPED;
    if (status == BIGROSK_INI_MISTYPED) bigrosk_ini_text_place_str(text, section, key, place);
    return status;
}

static inline uint32_t bigrosk_ini_mistyped(struct bigrosk_ini_text *text, const char *section, const char *key,
                                            struct bigrosk_ini_place *place)
{
    bigrosk_ini_text_place_str(text, section, key, place);
    return BIGROSK_INI_MISTYPED;
}

/* A whole number: a sign or none, and decimal digits, in the range of long long. */
static inline uint32_t bigrosk_ini_text_get_int(struct bigrosk_ini_text *text, const char *section, const char *key,
                                                long long *value, struct bigrosk_ini_place *place)
{
    char word[128] = "", *end = word;
    uint32_t status = bigrosk_ini_short_value(text, section, key, word, place);
    if (status != BIGROSK_INI_OK) return status;
    const char *digits = word + (word[0] == '-' || word[0] == '+');
    if (*digits == 0 || digits[strspn(digits, "0123456789")] != 0)
        return bigrosk_ini_mistyped(text, section, key, place);
    errno = 0;
    long long found = strtoll(word, &end, 10);
    if (errno == ERANGE) return bigrosk_ini_mistyped(text, section, key, place);
    *value = found;
    return status;
}

/* A number: a sign or none, decimal digits with at most one point among them, an exponent or none; whatever the locale is. */
static inline uint32_t bigrosk_ini_text_get_double(struct bigrosk_ini_text *text, const char *section, const char *key,
                                                   double *value, struct bigrosk_ini_place *place)
{
    char word[128] = "", local[192] = "", *end = local;
    uint32_t status = bigrosk_ini_short_value(text, section, key, word, place);
    if (status != BIGROSK_INI_OK) return status;
    const char *mark = localeconv()->decimal_point, *at = strchr(word, '.');
    size_t front = at ? (size_t)(at - word) : strlen(word);
    if (word[strspn(word, "+-.0123456789eE")] != 0 || word[strcspn(word, "0123456789")] == 0 || strlen(mark) > 32)
        return bigrosk_ini_mistyped(text, section, key, place);
    memcpy(local, word, front);
    if (at) {
        strcpy(local + front, mark);
        strcat(local, at + 1);
    }
    errno = 0;
    double found = strtod(local, &end);
    if (*end != 0 || (errno == ERANGE && (found > 1 || found < -1)))
        return bigrosk_ini_mistyped(text, section, key, place);
    *value = found;
    return status;
}

/* Whether a word is one of those between the bars, whatever the case of its letters from a to z. */
static inline bool bigrosk_ini_is_word(const char *word, const char *among)
{
    for (const char *it = among; *it == '|' && it[1]; it += 1 + strcspn(it + 1, "|")) {
        size_t count = strcspn(it + 1, "|"), same = 0;
        while (same < count && (word[same] | (word[same] >= 'A' && word[same] <= 'Z' ? 32 : 0)) == it[1 + same]) same++;
        if (same == count && word[count] == 0) return true;
    }
    return false;
}

/* yes, true, on and 1; no, false, off and 0; whatever the case. */
static inline uint32_t bigrosk_ini_text_get_bool(struct bigrosk_ini_text *text, const char *section, const char *key,
                                                 bool *value, struct bigrosk_ini_place *place)
{
    char word[128] = "";
    uint32_t status = bigrosk_ini_short_value(text, section, key, word, place);
    if (status != BIGROSK_INI_OK) return status;
    bool is_yes = bigrosk_ini_is_word(word, "|1|yes|true|on|");
    if (!is_yes && !bigrosk_ini_is_word(word, "|0|no|false|off|"))
        return bigrosk_ini_mistyped(text, section, key, place);
    *value = is_yes;
    return status;
}

/* ---- A buffer that grows, by realloc. It begins as BIGROSK_INI_BUFFER_EMPTY. ---- */

struct bigrosk_ini_buffer {
    uint8_t *bytes; /* a 0 follows them, where they are not NULL */
    size_t count, room;
};
#define BIGROSK_INI_BUFFER_EMPTY { NULL, 0, 0 }

static inline void bigrosk_ini_buffer_free(struct bigrosk_ini_buffer *buffer)
{
    free(buffer->bytes);
    buffer->bytes = NULL;
    buffer->count = buffer->room = 0;
}

/* Room for so many bytes; the buffer stays where there is none. */
static inline bool bigrosk_ini_buffer_room(struct bigrosk_ini_buffer *buffer, size_t room)
{
    uint8_t *more = NULL;
    if (room <= buffer->room) return true;
    if (room < 2 * buffer->room) room = 2 * buffer->room;
    more = (uint8_t *)realloc(buffer->bytes, room);
    if (!more) return false;
    memset(more + buffer->room, 0, room - buffer->room);
    buffer->bytes = more;
    buffer->room = room;
    return true;
}

/* The text as it now is, in the buffer: OK; NO_MEMORY; NO_DOCUMENT. */
static inline uint32_t bigrosk_ini_text_to_buffer(struct bigrosk_ini_text *text, struct bigrosk_ini_buffer *buffer)
{
    for (size_t room = 256;; room = buffer->count + 1) {
        if (!bigrosk_ini_buffer_room(buffer, room)) return BIGROSK_INI_NO_MEMORY;
        uint32_t status = bigrosk_ini_text_write(text, buffer->bytes, buffer->room, &buffer->count);
        if (status != BIGROSK_INI_NO_ROOM) return status;
    }
}

/* The value of the key, with a 0 after it, in the buffer: what bigrosk_ini_text_get answers, and NO_MEMORY for NO_ROOM. */
static inline uint32_t bigrosk_ini_text_get_buffer(struct bigrosk_ini_text *text, const char *section, const char *key,
                                                   struct bigrosk_ini_buffer *buffer)
{
    for (size_t room = 64;; room = buffer->count + 1) {
        if (!bigrosk_ini_buffer_room(buffer, room)) return BIGROSK_INI_NO_MEMORY;
        uint32_t status =
            bigrosk_ini_text_get_str(text, section, key, (char *)buffer->bytes, buffer->room, &buffer->count);
        if (status != BIGROSK_INI_NO_ROOM) return status;
    }
}

/* ---- A file's text, whose first refusal is kept, so that one look at `status` after many calls is enough. ---- */

/* It begins as BIGROSK_INI_FILE_EMPTY. `text` may be passed to every call above. */
struct bigrosk_ini_file {
    struct bigrosk_ini_text text;
    const char *path;               /* the caller's, until the file is closed */
    size_t mark;                    /* how many bytes of the file are a mark at its front */
    uint32_t status;                /* of the first call below that was refused, or OK */
    const char *section, *key;      /* and what that call named, or NULL */
    struct bigrosk_ini_place place; /* BROKEN and MISTYPED: where; else 0 and 0 */
    char message[64];               /* BROKEN: why */
    struct bigrosk_ini_write_option write; /* how what is set is written: by default BIGROSK_INI_WRITE_DEFAULT */
};
#define BIGROSK_INI_FILE_EMPTY                                                                                          \
    { BIGROSK_INI_TEXT_EMPTY, NULL, 0, BIGROSK_INI_OK, NULL, NULL, { 0, 0 }, "", BIGROSK_INI_WRITE_DEFAULT }

/* Keeps a refusal, unless one is kept. What it is. */
static inline uint32_t bigrosk_ini_file_keep(struct bigrosk_ini_file *file, uint32_t status, const char *section,
                                             const char *key, struct bigrosk_ini_place place)
{
    if (status != BIGROSK_INI_OK && file->status == BIGROSK_INI_OK) {
        file->status = status;
        file->section = section;
        file->key = key;
        file->place = place;
    }
    return status;
}

static inline void bigrosk_ini_file_close(struct bigrosk_ini_file *file) { bigrosk_ini_text_close(&file->text); }

/* Reads the file and opens its text so: OK; NO_FILE, and errno says why; BROKEN; NOT_UTF8; NO_MEMORY. */
static inline uint32_t bigrosk_ini_file_read_by(struct bigrosk_ini_file *file, const char *path,
                                                const struct bigrosk_ini_reading *reading)
{
    struct bigrosk_ini_fault fault = { 0, 0, 0, "" };
    struct bigrosk_ini_buffer buffer = BIGROSK_INI_BUFFER_EMPTY;
    struct bigrosk_ini_place place = BIGROSK_INI_NO_PLACE_YET;
    uint32_t status = BIGROSK_INI_OK;
    FILE *it = fopen(path, "rb");
    file->path = path;
    if (!it) return bigrosk_ini_file_keep(file, BIGROSK_INI_NO_FILE, NULL, NULL, place);
    for (size_t got = 1; got > 0 && status == BIGROSK_INI_OK; buffer.count += got) {
        got = 0;
        if (!bigrosk_ini_buffer_room(&buffer, buffer.count + 4096)) status = BIGROSK_INI_NO_MEMORY;
        else got = fread(buffer.bytes + buffer.count, 1, buffer.room - buffer.count, it);
    }
    if (ferror(it)) status = BIGROSK_INI_NO_FILE;
    fclose(it);
    if (status == BIGROSK_INI_OK) {
        file->mark = bigrosk_ini_mark(buffer.bytes, buffer.count);
        status =
            bigrosk_ini_text_open_by(buffer.bytes + file->mark, buffer.count - file->mark, reading, &file->text, &fault);
        place.line = fault.line;
        place.column = fault.column;
        if (file->status == BIGROSK_INI_OK) memcpy(file->message, fault.message, sizeof fault.message);
    }
    bigrosk_ini_buffer_free(&buffer);
    return bigrosk_ini_file_keep(file, status, NULL, NULL, place);
}

/* The same by the first five options. */
static inline uint32_t bigrosk_ini_file_read(struct bigrosk_ini_file *file, const char *path,
                                             const struct bigrosk_ini_read_option *option)
{
    struct bigrosk_ini_reading reading = BIGROSK_INI_READING_DEFAULT;
    reading.quotes = option->quotes;
    reading.escapes = option->escapes;
    reading.multiline = option->multiline;
    reading.keep_indentation = option->keep_indentation;
    reading.brackets = option->brackets;
    return bigrosk_ini_file_read_by(file, path, &reading);
}

/* The same by the default options. */
static inline uint32_t bigrosk_ini_file_open(struct bigrosk_ini_file *file, const char *path)
{
    struct bigrosk_ini_reading reading = BIGROSK_INI_READING_DEFAULT;
    return bigrosk_ini_file_read_by(file, path, &reading);
}

/* The same by the options of a dialect, which what is set is written by too: also NO_DIALECT. */
static inline uint32_t bigrosk_ini_file_open_as(struct bigrosk_ini_file *file, const char *path, const char *dialect)
{
    struct bigrosk_ini_reading reading = BIGROSK_INI_READING_DEFAULT;
    struct bigrosk_ini_place place = BIGROSK_INI_NO_PLACE_YET;
    file->path = path;
    if (bigrosk_ini_dialect_by_str(dialect, &reading, &file->write) != BIGROSK_INI_OK)
        return bigrosk_ini_file_keep(file, BIGROSK_INI_NO_DIALECT, NULL, NULL, place);
    return bigrosk_ini_file_read_by(file, path, &reading);
}

/* Saves the text beside the file (PATH.new), and renames: OK; NO_FILE, and errno says why; NO_MEMORY; NO_DOCUMENT. After a refusal
 * of any call it saves nothing, and answers that. ini_file is more careful: it keeps the mode, and waits for the disk. */
static inline uint32_t bigrosk_ini_file_save(struct bigrosk_ini_file *file)
{
    struct bigrosk_ini_buffer buffer = BIGROSK_INI_BUFFER_EMPTY;
    struct bigrosk_ini_place place = BIGROSK_INI_NO_PLACE_YET;
    uint32_t status = file->status;
    if (status != BIGROSK_INI_OK) return status;
    status = bigrosk_ini_text_to_buffer(&file->text, &buffer);
    char *beside = status == BIGROSK_INI_OK ? (char *)malloc(strlen(file->path) + 5) : NULL;
    if (status == BIGROSK_INI_OK && !beside) status = BIGROSK_INI_NO_MEMORY;
    if (status == BIGROSK_INI_OK) {
        strcat(strcpy(beside, file->path), ".new");
        FILE *it = fopen(beside, "wb");
        bool done = it && fwrite("\xef\xbb\xbf", 1, file->mark, it) == file->mark
            && fwrite(buffer.bytes, 1, buffer.count, it) == buffer.count;
        done = it && fclose(it) == 0 && done;
        if (!done || rename(beside, file->path) != 0) status = BIGROSK_INI_NO_FILE;
    }
    free(beside);
    bigrosk_ini_buffer_free(&buffer);
    return bigrosk_ini_file_keep(file, status, NULL, NULL, place);
}

/* The key's value, or the other one where the key is absent; a value of another type is a refusal. */
static inline long long bigrosk_ini_file_int(struct bigrosk_ini_file *file, const char *section, const char *key,
                                             long long other)
{
    struct bigrosk_ini_place place = BIGROSK_INI_NO_PLACE_YET;
    uint32_t status = bigrosk_ini_text_get_int(&file->text, section, key, &other, &place);
    if (status != BIGROSK_INI_ABSENT) bigrosk_ini_file_keep(file, status, section, key, place);
    return other;
}

static inline double bigrosk_ini_file_double(struct bigrosk_ini_file *file, const char *section, const char *key,
                                             double other)
{
    struct bigrosk_ini_place place = BIGROSK_INI_NO_PLACE_YET;
    uint32_t status = bigrosk_ini_text_get_double(&file->text, section, key, &other, &place);
    if (status != BIGROSK_INI_ABSENT) bigrosk_ini_file_keep(file, status, section, key, place);
    return other;
}

static inline bool bigrosk_ini_file_bool(struct bigrosk_ini_file *file, const char *section, const char *key, bool other)
{
    struct bigrosk_ini_place place = BIGROSK_INI_NO_PLACE_YET;
    uint32_t status = bigrosk_ini_text_get_bool(&file->text, section, key, &other, &place);
    if (status != BIGROSK_INI_ABSENT) bigrosk_ini_file_keep(file, status, section, key, place);
    return other;
}

/* The same of a value that is copied out: where it does not fit with a 0 after it, that is a refusal (NO_ROOM). */
static inline const char *bigrosk_ini_file_string(struct bigrosk_ini_file *file, const char *section, const char *key,
                                                  char *value, size_t room, const char *other)
{
    struct bigrosk_ini_place place = BIGROSK_INI_NO_PLACE_YET;
    uint32_t status = bigrosk_ini_text_get_str(&file->text, section, key, value, room, NULL);
    if (status == BIGROSK_INI_OK) return value;
    if (status != BIGROSK_INI_ABSENT) bigrosk_ini_file_keep(file, status, section, key, place);
    return other;
}

/* Sets the key's value, and takes the key out, if it is there. */
static inline uint32_t bigrosk_ini_file_set(struct bigrosk_ini_file *file, const char *section, const char *key,
                                            const char *value)
{
    struct bigrosk_ini_place place = BIGROSK_INI_NO_PLACE_YET;
    uint32_t status = bigrosk_ini_text_set(&file->text, &file->write, BIGROSK_INI_AT(section, key), bigrosk_ini_bytes(value),
                                           bigrosk_ini_count(value));
    return bigrosk_ini_file_keep(file, status, section, key, place);
}

static inline uint32_t bigrosk_ini_file_delete(struct bigrosk_ini_file *file, const char *section, const char *key)
{
    struct bigrosk_ini_place place = BIGROSK_INI_NO_PLACE_YET;
    uint32_t status = bigrosk_ini_text_delete_str(&file->text, section, key);
    return status == BIGROSK_INI_ABSENT ? status : bigrosk_ini_file_keep(file, status, section, key, place);
}

/* Prints the refusal that is kept in a line, as PATH:LINE:COLUMN: words. */
static inline void bigrosk_ini_file_print(const struct bigrosk_ini_file *file, FILE *to)
{
    fprintf(to, "%s:", file->path ? file->path : "");
    if (file->place.line) fprintf(to, "%lu:%lu:", (unsigned long)file->place.line, (unsigned long)file->place.column);
    if (file->key) fprintf(to, " %s%s%s:", file->section ? file->section : "", file->section ? "." : "", file->key);
    fprintf(to, " %s\n", file->status == BIGROSK_INI_BROKEN ? file->message
        : file->status == BIGROSK_INI_NO_FILE && errno ? strerror(errno) : bigrosk_ini_status_text(file->status));
}

#endif

/* A walk over what a call has listed. */
struct bigrosk_ini_walk {
    const uint8_t *at;
    const size_t *counts, *end;
};

static inline struct bigrosk_ini_walk bigrosk_ini_walk_over(const uint8_t *bytes, const size_t *counts,
                                                            struct bigrosk_ini_sizes sizes)
{
    struct bigrosk_ini_walk walk = { bytes, counts, counts + sizes.counts };
    return walk;
}

/* Whether nothing is left. */
static inline bool bigrosk_ini_is_over(const struct bigrosk_ini_walk *walk) { return walk->counts == walk->end; }

/* The next number; something must be left. */
static inline size_t bigrosk_ini_number(struct bigrosk_ini_walk *walk) { return *walk->counts++; }

/* The next text, which ends in 0, or NULL where there is none, as of the general section's name; count, where it isn't NULL, is
 * how many bytes it has. Something must be left. */
static inline const char *bigrosk_ini_text(struct bigrosk_ini_walk *walk, size_t *count)
{
    const char *text = (const char *)walk->at;
    size_t bytes = bigrosk_ini_number(walk);
    if (count) *count = bytes;
    if (bytes == BIGROSK_INI_UNNAMED) return NULL;
    walk->at += bytes + 1;
    return text;
}

#ifdef __cplusplus
}
#endif
#endif
