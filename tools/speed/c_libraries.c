/* One library at one task, for tools/speed/c_libraries.sh, which compiles this once for each with -DBIGROSK (and -DBORROWED, where
 * values are lent and not copied), -DGLIB, -DINIH or -DINIPARSER:
 *
 *     PROGRAM FILE [RUNS [SECTIONS]]    loads the file, of 40,000 or so many sections, looks up 1,000,000 values in them, whose
 *                                       names and keys are made before, and writes the text; each five times, or so many, of
 *                                       which the best counts. Values are looked up once the first load is done, and again after
 *                                       the last: a heap that was used before lies otherwise
 *
 * It prints a row of a table: the name, seconds of loading, of look-ups after the first load and after the last, of writing, and
 * the peak of memory in MB; - where the library has no such call, REFUSED after it where one failed or found no value. */
#include "measured.h"

#if defined BIGROSK
#include "bigrosk_ini.h"
#ifdef BORROWED
static const char *name = "bigrosk_ini, values lent";
#else
static const char *name = "bigrosk_ini";
#endif
static struct bigrosk_ini_document kept = BIGROSK_INI_EMPTY;
static int load(void)
{
    struct bigrosk_ini_fault fault;
    return bigrosk_ini_load_str(text, &kept, &fault) == BIGROSK_INI_OK;
}
static int look_up(const char *section, const char *key)
{
#ifdef BORROWED
    struct bigrosk_ini_borrowed value;
    return bigrosk_ini_borrow_str(&kept, section, key, &value) == BIGROSK_INI_OK;
#else
    char value[256];
    return bigrosk_ini_get_str(&kept, section, key, value, sizeof value, NULL) == BIGROSK_INI_OK;
#endif
}
static int put(void)
{
    struct bigrosk_ini_write_option option = BIGROSK_INI_WRITE_DEFAULT;
    size_t count;
    uint8_t *out = malloc(2 * text_count);
    int done = bigrosk_ini_write(&kept, &option, out, 2 * text_count, &count) == BIGROSK_INI_OK;
    free(out);
    return done;
}
#elif defined GLIB
#include <glib.h>
static const char *name = "GKeyFile";
static GKeyFile *kept;
static int load(void)
{
    if (kept) g_key_file_free(kept);
    kept = g_key_file_new();
    return g_key_file_load_from_data(kept, text, text_count, G_KEY_FILE_NONE, NULL);
}
static int look_up(const char *section, const char *key)
{
    gchar *value = g_key_file_get_value(kept, section, key, NULL);
    int found = value != NULL;
    g_free(value);
    return found;
}
static int put(void)
{
    gsize count;
    gchar *out = g_key_file_to_data(kept, &count, NULL);
    g_free(out);
    return out != NULL;
}
#elif defined INIH
#include <ini.h>
static const char *name = "inih, which calls back and keeps nothing";
static size_t seen;
static int handle(void *user, const char *section, const char *key, const char *value)
{
    (void)user, (void)section, (void)key, (void)value;
    seen++;
    return 1;
}
static int load(void) { return ini_parse_string(text, handle, NULL) == 0; }
static int look_up(const char *section, const char *key) { (void)section, (void)key; return -1; }
static int put(void) { return -1; }
#elif defined INIPARSER
#include <iniparser/iniparser.h>
static const char *name = "iniparser";
static dictionary *kept;
static const char *path;
static int load(void)
{
    if (kept) iniparser_freedict(kept);
    kept = iniparser_load(path);
    return kept != NULL;
}
/* its look-ups go over all pairs */
static int look_up(const char *section, const char *key) { (void)section, (void)key; return -1; }
static int put(void) { return -1; }
#endif

static int sections_count;
static char (*sections)[16], keys[10][8];

/* The least of what a million look-ups take, of so many rounds. Each must find its value. */
static double look_up_often(int runs, int *done)
{
    double least = 1e9;
    for (int run = 0; run < runs; run++) {
        long found = 0;
        double start = now();
        for (int i = 0; i < 1000000; i++) found += look_up(sections[i % sections_count], keys[i % 10]);
        if (now() - start < least) least = now() - start;
        *done = *done && found == 1000000;
    }
    return least;
}

int main(int argc, char **argv)
{
    int runs = argc > 2 ? atoi(argv[2]) : 5, done = 1;
    sections_count = argc > 3 ? atoi(argv[3]) : 40000;
    sections = calloc(sections_count > 0 ? sections_count : 1, sizeof *sections);
    if (argc < 2 || !read_text(argv[1]) || !sections || sections_count < 1) return 2;
#ifdef INIPARSER
    path = argv[1];
#endif
    for (int i = 0; i < sections_count; i++) sprintf(sections[i], "section%d", i);
    for (int i = 0; i < 10; i++) sprintf(keys[i], "key%d", i);
    double loaded = 1e9, first = 0, looked = 0, written = 1e9;
    bool looks_up = false;
    for (int run = 0; run < runs; run++) {
        double start = now();
        done = load() && done;
        if (now() - start < loaded) loaded = now() - start;
        if (run == 0) {
            looks_up = look_up(sections[0], keys[0]) >= 0;
            if (looks_up) first = look_up_often(runs, &done);
        }
    }
    if (looks_up) looked = look_up_often(runs, &done);
    for (int run = 0; looks_up && run < runs; run++) {
        double start = now();
        done = put() && done;
        if (now() - start < written) written = now() - start;
    }
    printf("| %s | %.3f s", name, loaded);
    if (!looks_up) printf(" | - | - | -"); else printf(" | %.2f s | %.2f s | %.3f s", first, looked, written);
    printf(" | %ld MB |%s\n", peak() / 1024, done ? "" : " REFUSED");
    return !done;
}
