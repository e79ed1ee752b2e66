/* What `ini_tool get no.such.key` does, over GKeyFile: loads standard input and looks up a key. Where GKeyFile refuses the text
 * (a pair before the first group, a comment after `;`), a group stands in front and each `;` that begins a line is a `#`.
 *
 *     cc -O3 -o glib_get tools/speed/glib_get.c $(pkg-config --cflags --libs glib-2.0) */
#include <glib.h>
#include <stdio.h>
#include <stdlib.h>
#include <string.h>

int main(void)
{
    size_t room = 1 << 16, count = 4, read;
    char *text = malloc(room);
    memcpy(text, "[g]\n", 4);
    while ((read = fread(text + count, 1, room - count, stdin)) > 0) {
        count += read;
        if (count == room) text = realloc(text, room *= 2);
    }
    for (size_t i = 1; i < count; i++)
        if (text[i] == ';' && text[i - 1] == '\n') text[i] = '#';
    GKeyFile *file = g_key_file_new();
    GError *error = NULL;
    if (!g_key_file_load_from_data(file, text, count, G_KEY_FILE_NONE, &error)) {
        fprintf(stderr, "%s\n", error->message);
        return 2;
    }
    return g_key_file_get_value(file, "g", "no.such.key", NULL) == NULL;
}
