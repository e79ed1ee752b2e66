/* look_ups SECTIONS CALLS: loads so many sections, and looks a value up in as many calls, each by its copy, its loan and whether
 * it is there. tests/c_library.sh counts what the calls cost. */
#include "checks.h"

int main(int argc, char **argv)
{
    document d = BIGROSK_INI_EMPTY;
    fault f;
    char name[32], value[32];
    struct bigrosk_ini_borrowed lent;
    if (argc != 3) return 2;
    unsigned long sections = strtoul(argv[1], NULL, 10), calls = strtoul(argv[2], NULL, 10);
    char *text = malloc(48 * sections), *end = text;
    if (!text || !sections) return 2;
    for (unsigned long i = 0; i < sections; i++) end += sprintf(end, "[section %lu]\nkey=%lu\n", i, i);
    CHECK(bigrosk_ini_load((const uint8_t *)text, (size_t)(end - text), true, &usual, &d, &f) == BIGROSK_INI_OK);
    for (unsigned long i = 0; i < calls; i++) {
        unsigned long at = i * 7919 % sections;
        sprintf(name, "section %lu", at);
        sprintf(value, "%lu", at);
        CHECK(is_value(&d, name, "key", value) && bigrosk_ini_has_str(&d, name, "key") == BIGROSK_INI_OK);
        CHECK(bigrosk_ini_borrow_str(&d, name, "key", &lent) == BIGROSK_INI_OK && lent.count == strlen(value));
        CHECK(bigrosk_ini_has_section_str(&d, name) == BIGROSK_INI_OK);
        CHECK(bigrosk_ini_has_str(&d, name, "none") == BIGROSK_INI_ABSENT);
    }
    bigrosk_ini_free(&d);
    free(text);
    return failed != 0;
}
