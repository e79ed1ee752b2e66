/* Look-ups in a document beside its list: the first section of a name counts, and in it the first pair of a
 * key. */
#include "promises.h"

/* The pairs of a section, as a walk. */
struct section {
    struct bigrosk_ini_walk walk;
    size_t number;
    bool is_there;
};

static struct bytes next_text(struct bigrosk_ini_walk *walk)
{
    struct bytes text = { NULL, 0 };
    text.at = (const uint8_t *)bigrosk_ini_text(walk, &text.count);
    return text;
}

/* The first section of the name. */
static struct section section_of(const struct listing *listing, struct bytes name)
{
    struct section section = { bigrosk_ini_walk_over(listing->bytes, listing->counts, listing->sizes), 0,
        false };
    while (!section.is_there && !bigrosk_ini_is_over(&section.walk)) {
        section.is_there = is_same(next_text(&section.walk), name);
        section.number = bigrosk_ini_number(&section.walk);
        for (size_t i = 0; !section.is_there && i < 2 * section.number; i++) next_text(&section.walk);
    }
    return section;
}

/* The first value of the key in the section, and how many there are; `at` is NULL where there is none. */
static struct bytes value_of(struct section section, struct bytes key, size_t *number)
{
    struct bytes found = { NULL, 0 };
    *number = 0;
    for (size_t i = 0; section.is_there && i < section.number; i++) {
        struct bytes other = next_text(&section.walk), value = next_text(&section.walk);
        if (!is_same(other, key)) continue;
        if (!found.at) found = value;
        ++*number;
    }
    return found;
}

/* what the calls take of a name and a key */
#define NAME named, name.at, name.count
#define KEY key.at, key.count

/* The value is copied out and lent, and has as many bytes as are said. */
static void copy_and_borrow(document *it, bool named, struct bytes name, struct bytes key,
                            struct bytes value)
{
    struct bigrosk_ini_borrowed lent = BIGROSK_INI_NOTHING_BORROWED;
    size_t count = 0;
    uint8_t *out = filled(value.count + 1);
    PROMISE(bigrosk_ini_get(it, NAME, KEY, out, value.count, &count) == BIGROSK_INI_NO_ROOM);
    PROMISE(count == value.count && out[0] == 0x5a);
    PROMISE(bigrosk_ini_get(it, NAME, KEY, out, value.count + 1, &count) == BIGROSK_INI_OK);
    PROMISE(count == value.count && memcmp(out, value.at, count) == 0);
    PROMISE(out[count] == 0 && out[count + 1] == 0x5a);
    PROMISE(bigrosk_ini_borrow(it, NAME, KEY, &lent) == BIGROSK_INI_OK);
    PROMISE(lent.count == count && memcmp(lent.bytes, out, count) == 0);
    free(out);
}

/* All values of the key are listed, the first one first. */
static void list_values(document *it, bool named, struct bytes name, struct bytes key, struct bytes value,
                        size_t number)
{
    struct bigrosk_ini_sizes sizes = BIGROSK_INI_NO_SIZES;
    uint8_t *bytes = filled(0);
    size_t *counts = filled(sizeof *counts);
    PROMISE(bigrosk_ini_get_all(it, NAME, KEY, bytes, 0, counts, 0, &sizes) == BIGROSK_INI_NO_ROOM);
    PROMISE(sizes.counts == number && sizes.bytes >= value.count + number);
    free(bytes);
    free(counts);
    bytes = filled(sizes.bytes);
    counts = filled(sizes.counts * sizeof *counts);
    PROMISE(bigrosk_ini_get_all(it, NAME, KEY, bytes, sizes.bytes, counts, sizes.counts, &sizes)
            == BIGROSK_INI_OK);
    PROMISE(counts[0] == value.count && memcmp(bytes, value.at, value.count) == 0);
    PROMISE(bytes[value.count] == 0);
    free(bytes);
    free(counts);
}

/* What is asked of a key in a section, beside the list. */
static void look_up_one(document *it, const struct listing *listing, bool named, struct bytes name,
                        struct bytes key)
{
    struct bytes asked = { named ? name.at : NULL, name.count };
    struct section section = section_of(listing, asked);
    size_t number = 0, count = 0;
    struct bytes value = value_of(section, key, &number);
    uint8_t none = 0x5a;
    uint32_t wanted = value.at ? BIGROSK_INI_OK : BIGROSK_INI_ABSENT;
    if (!is_utf8(name) || !is_utf8(key)) wanted = BIGROSK_INI_NOT_UTF8;
    PROMISE(bigrosk_ini_has(it, NAME, KEY) == wanted);
    note(3, wanted);
    if (wanted == BIGROSK_INI_OK) {
        copy_and_borrow(it, named, name, key, value);
        list_values(it, named, name, key, value, number);
    } else {
        PROMISE(bigrosk_ini_get(it, NAME, KEY, &none, 1, &count) == wanted && none == 0x5a);
    }
    wanted = section.is_there ? BIGROSK_INI_OK : BIGROSK_INI_ABSENT;
    if (!is_utf8(name)) wanted = BIGROSK_INI_NOT_UTF8;
    PROMISE(bigrosk_ini_has_section(it, NAME) == wanted);
}

/* The pair that is asked for, and each pair that is listed, up to the sixteenth. */
void look_up(document *it, const struct listing *listing, const struct input *input)
{
    struct bigrosk_ini_walk walk = bigrosk_ini_walk_over(listing->bytes, listing->counts, listing->sizes);
    look_up_one(it, listing, input->named, input->section, input->key);
    for (unsigned looked = 0; looked < 16 && !bigrosk_ini_is_over(&walk);) {
        struct bytes name = next_text(&walk), none = { (const uint8_t *)"", 0 };
        size_t number = bigrosk_ini_number(&walk);
        for (size_t i = 0; i < number; i++, looked++) {
            struct bytes key = next_text(&walk);
            next_text(&walk);
            if (looked < 16) look_up_one(it, listing, name.at != NULL, name.at ? name : none, key);
        }
        note(4, number);
    }
}
