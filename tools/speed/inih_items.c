/* Parses standard input with inih and writes the number of its pairs. As `ini_replay items` it reads the text whole first.
 *
 *     cc -O3 -DINI_USE_STACK=0 -DINI_MAX_LINE=4096 -o inih_items inih_items.c INIH/ini.c -I INIH
 *
 * where INIH is the folder of inih's source; a line of INI_MAX_LINE bytes and more would be cut.
 */
#include <ini.h>
#include <stdio.h>
#include <stdlib.h>
#include <unistd.h>

static int count(void *seen, const char *section, const char *name, const char *value)
{
    (void)section, (void)name, (void)value;
    ++*(size_t *)seen;
    return 1;
}

int main(void)
{
    size_t len = 0, room = 1 << 16, pairs = 0;
    char *text = malloc(room);
    ssize_t taken;
    while (text && (taken = read(0, text + len, room - len - 1)) > 0) {
        len += taken;
        if (room - len < 1 << 15)
            text = realloc(text, room *= 2);
    }
    if (!text)
        return 4;
    text[len] = 0;
    /* the number of the first line that is wrong, as the end of one that was cut, is no failure here */
    int status = ini_parse_string(text, count, &pairs);
    printf("%zu\n", pairs);
    return status < 0;
}
