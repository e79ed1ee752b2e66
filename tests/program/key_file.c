/* Writes each group, key and value of a key file, each with a NUL after it; after the word `raw` a value's escapes stay.
   The status is 1 where it is none. */
#include <glib.h>
#include <stdio.h>

int main(int argc, char **argv)
{
    GKeyFile *file = g_key_file_new();
    if (argc < 2 || !g_key_file_load_from_file(file, argv[1], G_KEY_FILE_KEEP_TRANSLATIONS, NULL)) return 1;
    gchar **groups = g_key_file_get_groups(file, NULL);
    for (gchar **group = groups; *group; group++) {
        gchar **keys = g_key_file_get_keys(file, *group, NULL, NULL);
        for (gchar **key = keys; key && *key; key++) {
            gchar *value = (argc > 2 ? g_key_file_get_value : g_key_file_get_string)(file, *group, *key, NULL);
            printf("%s%c%s%c%s%c", *group, 0, *key, 0, value ? value : "", 0);
            g_free(value);
        }
        g_strfreev(keys);
    }
    g_strfreev(groups);
    g_key_file_free(file);
    return 0;
}
