/* One library at texts that are edited and keep their comments, for tools/speed/texts.sh, which compiles
 * this once for each with -DBIGROSK (and -DPASSES, where each edit reads the text and copies a new one), -DGLIB,
 * -DINIH or -DINI_CONFIG:
 *
 *     PROGRAM FILE SECTIONS
 *
 * It opens the file's text, of so many sections of ten pairs, looks values up all over it, sets one of them
 * and takes the text, and sets a hundred and takes it; each until a tenth of a second is over, the best of
 * five.
 *
 * It prints a row of a table: the name, milliseconds of opening, of a thousand look-ups, of one edit and of a
 * hundred, each with the text taken; by how many MB opening the text once raised the peak of memory; and the
 * peak. - stands where the library has no such call, REFUSED at the end where a call failed or the text that
 * was taken lacks an edit. */
#include "measured.h"

static char *taken; /* the text that was taken last */

#if defined BIGROSK
#include "bigrosk_ini.h"
static struct bigrosk_ini_text kept = BIGROSK_INI_TEXT_EMPTY;
static struct bigrosk_ini_buffer buffer = BIGROSK_INI_BUFFER_EMPTY;
static bool open_it(void)
{
    struct bigrosk_ini_fault fault;
    return bigrosk_ini_text_open_str(text, &kept, &fault) == BIGROSK_INI_OK;
}
static int look_up(const char *section, const char *key)
{
    char value[64];
    return bigrosk_ini_text_get_str(&kept, section, key, value, sizeof value, NULL) == BIGROSK_INI_OK;
}
#ifdef PASSES
static const char *name = "bigrosk_ini, a pass for each edit";
static char *passed; /* the text as the edits before have left it, or NULL */
static int set(const char *section, const char *key, const char *value)
{
    struct bigrosk_ini_fault fault;
    size_t room = 2 * text_count + 4096, count = 0;
    char *out = calloc(room, 1), *from = passed ? passed : text;
    bool done = out
        && bigrosk_ini_edit_set_str(from, section, key, value, out, room, &count, &fault) == BIGROSK_INI_OK;
    free(passed);
    passed = out;
    return done;
}
static bool take(void)
{
    taken = passed;
    return passed != NULL;
}
#else
static const char *name = "bigrosk_ini";
static int set(const char *section, const char *key, const char *value)
{
    return bigrosk_ini_text_set_str(&kept, section, key, value) == BIGROSK_INI_OK;
}
static bool take(void)
{
    bool done = bigrosk_ini_text_to_buffer(&kept, &buffer) == BIGROSK_INI_OK;
    taken = (char *)buffer.bytes;
    return done;
}
#endif
#elif defined GLIB
#include <glib.h>
static const char *name = "GKeyFile";
static GKeyFile *kept;
static bool open_it(void)
{
    if (kept) g_key_file_free(kept);
    kept = g_key_file_new();
    return g_key_file_load_from_data(kept, text, text_count, G_KEY_FILE_KEEP_COMMENTS, NULL);
}
static int look_up(const char *section, const char *key)
{
    gchar *value = g_key_file_get_value(kept, section, key, NULL);
    bool found = value != NULL;
    g_free(value);
    return found;
}
static int set(const char *section, const char *key, const char *value)
{
    g_key_file_set_value(kept, section, key, value);
    return true;
}
static bool take(void)
{
    gsize count;
    g_free(taken);
    taken = g_key_file_to_data(kept, &count, NULL);
    return taken != NULL;
}
#elif defined INIH
#include <ini.h>
static const char *name = "inih, which calls back and keeps nothing";
static int handle(void *user, const char *section, const char *key, const char *value)
{
    (void)user, (void)section, (void)key, (void)value;
    return 1;
}
static bool open_it(void) { return ini_parse_string(text, handle, NULL) == 0; }
static int look_up(const char *section, const char *key)
{
    (void)section, (void)key;
    return -1;
}
#elif defined INI_CONFIG
#include <ini_configobj.h>
static const char *name = "libini-config, which sets nothing";
static struct ini_cfgobj *kept;
static bool open_it(void)
{
    struct ini_cfgfile *file = NULL;
    if (kept) ini_config_destroy(kept);
    kept = NULL;
    bool done = ini_config_create(&kept) == 0
        && ini_config_file_from_mem(text, (uint32_t)text_count, &file) == 0
        && ini_config_parse(file, INI_STOP_ON_ANY, 0, 0, kept) == 0;
    if (file) ini_config_file_destroy(file);
    return done;
}
static int look_up(const char *section, const char *key)
{
    struct value_obj *value = NULL;
    return ini_get_config_valueobj(section, key, kept, INI_GET_FIRST_VALUE, &value) == 0 && value;
}
#endif
#if defined INIH || defined INI_CONFIG
static int set(const char *section, const char *key, const char *value)
{
    (void)section, (void)key, (void)value;
    return -1;
}
static bool take(void) { return false; }
#endif

static int sections_count;

/* Section and key that come as the number of that, from all over the text. */
static void pick(int number, char *section, char *key)
{
    sprintf(section, "section%d", (int)((long)number * 7919 % sections_count));
    sprintf(key, "key%d", number % 10);
}

/* The four tasks; what each answers is whether it was done, or -1 where the library can't. */
static int opens(void) { return open_it(); }
static int looks_up(void)
{
    char section[32], key[16];
    int found = 1;
    for (int i = 0; i < 1000 && found == 1; i++) {
        pick(i, section, key);
        found = look_up(section, key);
    }
    return found;
}
static int sets(int count)
{
    static int value;
    char section[32], key[16], to[32];
    int done = 1;
    for (int i = 0; i < count && done == 1; i++) {
        pick(i, section, key);
        sprintf(to, "set to %d", ++value);
        done = set(section, key, to);
    }
    return done == 1 ? take() && strstr(taken, to) != NULL : done;
}
static int sets_one(void) { return sets(1); }
static int sets_many(void) { return sets(100); }

/* The milliseconds of a task, the best of five, each of as many as a tenth of a second takes. */
static double best(int (*task)(void), int *done)
{
    double least = 1e9;
    for (int run = 0; run < 5; run++) {
        double start = now();
        int count = 0;
        do *done = task(), count++;
        while (*done == 1 && now() - start < 0.1);
        if ((now() - start) / count < least) least = (now() - start) / count;
        if (*done != 1) break;
    }
    return least * 1000;
}

int main(int argc, char **argv)
{
    int (*const tasks[])(void) = { opens, looks_up, sets_one, sets_many };
    sections_count = argc > 2 ? atoi(argv[2]) : 0;
    if (sections_count < 1 || !read_text(argv[1])) return 2;
    long before = peak();
    bool done = open_it();
    long opened = peak();
    printf("| %s", name);
    for (size_t i = 0; i < sizeof tasks / sizeof *tasks; i++) {
        int answer = 0;
        double took = best(tasks[i], &answer);
        done = done && answer != 0;
        if (answer < 0) printf(" | -"); else printf(" | %.3g", took);
    }
    printf(" | %.1f | %.1f |", (double)(opened - before) / 1024, (double)peak() / 1024);
    puts(done ? "" : " REFUSED");
    return !done;
}
