/* The floor of this layout: reads standard input whole, splits it into lines, keeps each name, key and value in an
 * allocation of its own, and writes them out. No quotes, no escapes, no look-ups, no check of anything.
 *
 *     cc -O3 -o floor floor.c
 */
#include <stdio.h>
#include <stdlib.h>
#include <string.h>
#include <unistd.h>

struct text { char *bytes; size_t len; };
struct pair { struct text key, value; };
struct section { struct text name; struct pair *pairs; size_t len, room; };

static char out[1 << 16];
static size_t held;

/* Room for one more element of a list. */
static void *grown(void *list, size_t len, size_t *room, size_t size)
{
    if (len < *room)
        return list;
    *room = *room ? 2 * *room : 4;
    list = realloc(list, *room * size);
    if (!list)
        exit(4);
    return list;
}

/* A trimmed copy. */
static struct text copy(const char *from, const char *to)
{
    while (from < to && (unsigned char)*from <= ' ')
        from++;
    while (from < to && (unsigned char)to[-1] <= ' ')
        to--;
    struct text made = { malloc(to - from + 1), to - from };
    if (!made.bytes)
        exit(4);
    memcpy(made.bytes, from, made.len);
    return made;
}

static void flush(void)
{
    if (write(1, out, held) != (ssize_t)held)
        exit(4);
    held = 0;
}

static void put(const char *bytes, size_t len)
{
    if (len > sizeof out - held)
        flush();
    if (len > sizeof out) {
        if (write(1, bytes, len) != (ssize_t)len)
            exit(4);
        return;
    }
    memcpy(out + held, bytes, len);
    held += len;
}

static char *read_all(size_t *len)
{
    size_t room = 0;
    char *text = NULL;
    for (;;) {
        text = grown(text, *len + (1 << 16), &room, 1);
        while (room < *len + (1 << 16))
            text = grown(text, room, &room, 1);
        ssize_t count = read(0, text + *len, 1 << 16);
        if (count < 0)
            exit(4);
        if (count == 0)
            return text;
        *len += count;
    }
}

static void write_section(const struct section *section)
{
    if (section->name.len) {
        put("[", 1);
        put(section->name.bytes, section->name.len);
        put("]\n", 2);
    }
    for (size_t i = 0; i < section->len; i++) {
        put(section->pairs[i].key.bytes, section->pairs[i].key.len);
        put("=", 1);
        put(section->pairs[i].value.bytes, section->pairs[i].value.len);
        put("\n", 1);
    }
}

int main(void)
{
    size_t len = 0, count = 1, room = 0;
    char *at = read_all(&len), *end = at + len;
    struct section *sections = grown(NULL, 0, &room, sizeof *sections);
    memset(sections, 0, sizeof *sections);
    while (at < end) {
        char *line_end = memchr(at, '\n', end - at);
        if (!line_end)
            line_end = end;
        if (*at == '[') {
            sections = grown(sections, count, &room, sizeof *sections);
            char *close = memchr(at, ']', line_end - at);
            sections[count++] = (struct section){ copy(at + 1, close ? close : line_end), NULL, 0, 0 };
        } else if (at < line_end && *at != ';' && *at != '#') {
            struct section *last = &sections[count - 1];
            char *mark = memchr(at, '=', line_end - at);
            if (!mark)
                return 3;
            last->pairs = grown(last->pairs, last->len, &last->room, sizeof *last->pairs);
            struct text key = copy(at, mark);
            last->pairs[last->len++] = (struct pair){ key, copy(mark + 1, line_end) };
        }
        at = line_end + 1;
    }
    for (size_t i = 0; i < count; i++)
        write_section(&sections[i]);
    flush();
    return 0;
}
