/* A program of version 0.3.0, compiled with the header of that version, which uses each call once. Its
 * object file is linked with the library as it is now. The last line is 'N checks, M failed'. */
#include "../checks.h"

static const char text[] = "; c\na = 1\n[s]\nk = x\nk = y\n";

static void document_calls(void)
{
    document d = BIGROSK_INI_EMPTY;
    fault f = { 0, 0, 0, "" };
    struct bigrosk_ini_borrowed lent;
    struct bigrosk_ini_sizes sizes = BIGROSK_INI_NO_SIZES;
    uint8_t bytes[64] = { 0 };
    size_t counts[16] = { 0 };
    CHECK(bigrosk_ini_load_str("a = 1\n = 2\n", &d, &f) == BIGROSK_INI_BROKEN);
    CHECK(f.kind == BIGROSK_INI_MISSING_KEY && f.line == 2 && f.column == 3
        && !strcmp(f.message, "missing key"));
    CHECK(bigrosk_ini_load_str(text, &d, &f) == BIGROSK_INI_OK);
    CHECK(is_value(&d, NULL, "a", "1") && is_value(&d, "s", "k", "x"));
    CHECK(bigrosk_ini_borrow_str(&d, "s", "k", &lent) == BIGROSK_INI_OK && lent.count == 1
        && lent.bytes[0] == 'x');
    CHECK(bigrosk_ini_has_str(&d, "s", "j") == BIGROSK_INI_ABSENT);
    CHECK(bigrosk_ini_has_section_str(&d, "s") == BIGROSK_INI_OK);
    CHECK(bigrosk_ini_get_all_str(&d, "s", "k", bytes, 64, counts, 16, &sizes) == BIGROSK_INI_OK);
    CHECK(sizes.bytes == 4 && sizes.counts == 2 && !memcmp(bytes, "x\0y", 4) && counts[0] == 1
        && counts[1] == 1);
    CHECK(bigrosk_ini_pairs_str(&d, NULL, bytes, 64, counts, 16, &sizes) == BIGROSK_INI_OK
        && !memcmp(bytes, "a\0001", 4));
    CHECK(bigrosk_ini_items(&d, bytes, 64, counts, 16, &sizes) == BIGROSK_INI_OK && sizes.counts == 10);
    CHECK(counts[0] == BIGROSK_INI_UNNAMED && counts[1] == 1 && counts[4] == 1 && counts[5] == 2);
    CHECK(bigrosk_ini_set_str(&d, "s", "k", "z") == BIGROSK_INI_OK);
    CHECK(bigrosk_ini_add_str(&d, "t", "k", "1") == BIGROSK_INI_OK);
    CHECK(bigrosk_ini_delete_str(&d, NULL, "a") == BIGROSK_INI_OK);
    CHECK(bigrosk_ini_is_plain(&d, &plain, &usual) && is_written(&d, &plain, "[s]\nk=z\n\n[t]\nk=1\n"));
    CHECK(bigrosk_ini_delete_section_str(&d, "s") == BIGROSK_INI_OK && is_written(&d, &plain, "[t]\nk=1\n"));
    bigrosk_ini_free(&d);
    CHECK(!d.is_open);
}

/* each option of both structs, where it tells */
static void options(void)
{
    static const struct bigrosk_ini_write_option written = { BIGROSK_INI_RESERVED_UNICODE, true, 3 };
    static const struct bigrosk_ini_read_option read = { false, false, true, true, true };
    static const char source[] = "[[x]]\n  k = '\\t\n w\n";
    document d = BIGROSK_INI_EMPTY;
    fault f = { 0, 0, 0, "" };
    CHECK(bigrosk_ini_load((const uint8_t *)source, strlen(source), true, &read, &d, &f) == BIGROSK_INI_OK);
    CHECK(is_value(&d, "[x]", "  k", "'\\t\nw"));
    CHECK(bigrosk_ini_set_str(&d, "[x]", "  k", "\xc3\xbc") == BIGROSK_INI_OK);
    CHECK(is_written(&d, &written, "[[x]]\r\n  k: \\x00fc\r\n"));
    /* an option that this version lacks is off: a backslash without escapes takes the line feed along */
    static const struct bigrosk_ini_read_option bare = { true, false, false, false, false };
    static const char path[] = "p=C:\\x\\\nk=v\n";
    CHECK(bigrosk_ini_load((const uint8_t *)path, strlen(path), true, &bare, &d, &f) == BIGROSK_INI_OK);
    CHECK(is_value(&d, NULL, "p", "C:\\xk=v") && bigrosk_ini_has_str(&d, NULL, "k") == BIGROSK_INI_ABSENT);
    bigrosk_ini_free(&d);
}

static void edits_of_a_text(void)
{
    char out[64];
    size_t count = 0;
    fault f = { 0, 0, 0, "" };
    CHECK(bigrosk_ini_edit_set_str(text, NULL, "a", "2", out, sizeof out, &count, &f) == BIGROSK_INI_OK);
    CHECK(!strcmp(out, "; c\na = 2\n[s]\nk = x\nk = y\n") && count == strlen(out));
    CHECK(bigrosk_ini_edit_add_str(text, NULL, "b", "2", out, sizeof out, &count, &f) == BIGROSK_INI_OK);
    CHECK(!strcmp(out, "; c\na = 1\nb = 2\n[s]\nk = x\nk = y\n"));
    CHECK(bigrosk_ini_edit_delete_str(text, "s", "k", out, sizeof out, &count, &f) == BIGROSK_INI_OK);
    CHECK(!strcmp(out, "; c\na = 1\n[s]\nk = y\n"));
    CHECK(bigrosk_ini_edit_rename_key_str(text, "s", "k", "j", out, sizeof out, &count,
        &f) == BIGROSK_INI_OK);
    CHECK(!strcmp(out, "; c\na = 1\n[s]\nj = x\nk = y\n"));
    CHECK(bigrosk_ini_edit_rename_section_str(text, "s", "t", out, sizeof out, &count,
        &f) == BIGROSK_INI_OK);
    CHECK(!strcmp(out, "; c\na = 1\n[t]\nk = x\nk = y\n"));
    CHECK(bigrosk_ini_edit_delete_section_str(text, "s", out, sizeof out, &count, &f) == BIGROSK_INI_OK);
    CHECK(!strcmp(out, "; c\na = 1\n"));
    CHECK(bigrosk_ini_edit_set_str(text, NULL, "a", " \"'", out, 5, &count, &f) == BIGROSK_INI_UNPLAIN_VALUE);
    CHECK(bigrosk_ini_edit_set_str(text, NULL, "a", "2", out, 5, &count, &f) == BIGROSK_INI_NO_ROOM
        && count == 26);
}

int main(void)
{
    document_calls();
    options();
    edits_of_a_text();
    CHECK(bigrosk_ini_version() >= 300);
    printf("%d checks, %d failed\n", checks, failed);
    return failed != 0;
}
