/* What the clients share: checks that are counted, and whether a document has a value or is written so. */
#include <stdio.h>
#include <stdlib.h>
#include "bigrosk_ini.h"

static int checks, failed;
#define CHECK(e) do { checks++; if (!(e)) { printf("FAILED %s:%d: %s\n", __FILE__, __LINE__, #e); failed++; } } while (0)

typedef struct bigrosk_ini_document document;
typedef struct bigrosk_ini_fault fault;
static const struct bigrosk_ini_write_option plain = BIGROSK_INI_WRITE_DEFAULT;
static const struct bigrosk_ini_read_option usual = BIGROSK_INI_READ_DEFAULT;

/* whether the document, written by the option, is this text */
static inline bool is_written(document *d, const struct bigrosk_ini_write_option *option, const char *want)
{
    size_t count = 0;
    uint8_t none[1] = { 'x' };
    bool told = bigrosk_ini_write(d, option, none, 0, &count) == BIGROSK_INI_NO_ROOM && none[0] == 'x';
    char *text = malloc(count + 1);
    memset(text, 'y', count + 1);
    told = told && bigrosk_ini_write(d, option, (uint8_t *)text, count, &count) == BIGROSK_INI_NO_ROOM;
    told = told && (count == 0 || text[0] == 'y');
    told = told && bigrosk_ini_write(d, option, (uint8_t *)text, count + 1, &count) == BIGROSK_INI_OK;
    bool same = told && !strcmp(text, want) && count == strlen(want);
    if (!same) printf("written:\n%s", told ? text : "nothing\n");
    free(text);
    return same;
}

/* whether the value is this text */
static inline bool is_value(document *d, const char *section, const char *key, const char *want)
{
    char value[256];
    size_t count = 0;
    return bigrosk_ini_get_str(d, section, key, value, sizeof value, &count) == BIGROSK_INI_OK && !strcmp(value, want)
        && count == strlen(want);
}
