/* Prints the numbers that a program of version 0.3.0 was compiled with: sizes and offsets of the structs,
 * and statuses. The two headers must give the same. */
#include <stdio.h>
#include "bigrosk_ini.h"

#define SIZE(it) printf("sizeof %s %zu\n", #it, sizeof(struct it))
#define FIELD(it, field) printf("%s.%s %zu %zu\n", #it, #field, offsetof(struct it, field), sizeof(((struct it *)0)->field))
#define NUMBER(it) printf("%s %ld\n", #it, (long)(it))

static void structs(void)
{
    SIZE(bigrosk_ini_document);
    FIELD(bigrosk_ini_document, is_open);
    FIELD(bigrosk_ini_document, inner);
    SIZE(bigrosk_ini_read_option);
    FIELD(bigrosk_ini_read_option, quotes);
    FIELD(bigrosk_ini_read_option, escapes);
    FIELD(bigrosk_ini_read_option, multiline);
    FIELD(bigrosk_ini_read_option, keep_indentation);
    FIELD(bigrosk_ini_read_option, brackets);
    SIZE(bigrosk_ini_write_option);
    FIELD(bigrosk_ini_write_option, policy);
    FIELD(bigrosk_ini_write_option, crlf);
    FIELD(bigrosk_ini_write_option, separator);
    SIZE(bigrosk_ini_fault);
    FIELD(bigrosk_ini_fault, kind);
    FIELD(bigrosk_ini_fault, line);
    FIELD(bigrosk_ini_fault, column);
    FIELD(bigrosk_ini_fault, message);
    SIZE(bigrosk_ini_sizes);
    FIELD(bigrosk_ini_sizes, bytes);
    FIELD(bigrosk_ini_sizes, counts);
    SIZE(bigrosk_ini_borrowed);
    FIELD(bigrosk_ini_borrowed, bytes);
    FIELD(bigrosk_ini_borrowed, count);
}

static void numbers(void)
{
    NUMBER(BIGROSK_INI_OK);
    NUMBER(BIGROSK_INI_ABSENT);
    NUMBER(BIGROSK_INI_NO_ROOM);
    NUMBER(BIGROSK_INI_BROKEN);
    NUMBER(BIGROSK_INI_NOT_UTF8);
    NUMBER(BIGROSK_INI_NO_MEMORY);
    NUMBER(BIGROSK_INI_NO_DOCUMENT);
    NUMBER(BIGROSK_INI_UNPLAIN_VALUE);
    NUMBER(BIGROSK_INI_UNPLAIN_KEY);
    NUMBER(BIGROSK_INI_NO_PLACE);
    NUMBER(BIGROSK_INI_UNPLAIN_NAME);
    NUMBER(BIGROSK_INI_END_OF_TEXT);
    NUMBER(BIGROSK_INI_BROKEN_ESCAPE);
    NUMBER(BIGROSK_INI_UNKNOWN_CHARACTER);
    NUMBER(BIGROSK_INI_INLINE_COMMENT);
    NUMBER(BIGROSK_INI_MISSING_KEY);
    NUMBER(BIGROSK_INI_CR_ALONE);
    NUMBER(BIGROSK_INI_HEADER_END);
    NUMBER(BIGROSK_INI_NOTHING);
    NUMBER(BIGROSK_INI_BASICS);
    NUMBER(BIGROSK_INI_BASICS_UNICODE);
    NUMBER(BIGROSK_INI_BASICS_UNICODE_EXTENDED);
    NUMBER(BIGROSK_INI_RESERVED);
    NUMBER(BIGROSK_INI_RESERVED_UNICODE);
    NUMBER(BIGROSK_INI_RESERVED_UNICODE_EXTENDED);
    NUMBER(BIGROSK_INI_EVERYTHING);
    NUMBER(BIGROSK_INI_UNNAMED);
}

int main(void)
{
    structs();
    numbers();
    return 0;
}
