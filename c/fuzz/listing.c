/* Documents as lists of sections and pairs, as bigrosk_ini_items lists them, and what edits make of such a
 * list. This file is written apart from the library: what an edit means stands here anew. */
#include "promises.h"

struct listing listing_of(document *it)
{
    struct listing l = { filled(0), filled(0), BIGROSK_INI_NO_SIZES, BIGROSK_INI_NO_SIZES };
    uint32_t status = bigrosk_ini_items(it, l.bytes, 0, l.counts, 0, &l.sizes);
    l.rooms = l.sizes;
    if (status == BIGROSK_INI_OK) {
        PROMISE(l.sizes.bytes == 0 && l.sizes.counts == 0);
        return l;
    }
    PROMISE(status == BIGROSK_INI_NO_ROOM && l.bytes[0] == 0x5a);
    free(l.bytes);
    free(l.counts);
    l.bytes = filled(l.sizes.bytes);
    l.counts = filled(l.sizes.counts * sizeof *l.counts);
    PROMISE(bigrosk_ini_items(it, l.bytes, l.sizes.bytes, l.counts, l.sizes.counts - 1,
        &l.rooms) == BIGROSK_INI_NO_ROOM);
    PROMISE(l.bytes[0] == 0x5a && l.rooms.bytes == l.sizes.bytes && l.rooms.counts == l.sizes.counts);
    PROMISE(bigrosk_ini_items(it, l.bytes, l.sizes.bytes, l.counts, l.sizes.counts,
        &l.rooms) == BIGROSK_INI_OK);
    PROMISE(l.rooms.bytes == l.sizes.bytes && l.rooms.counts == l.sizes.counts
        && l.bytes[l.sizes.bytes] == 0x5a);
    return l;
}

void free_listing(struct listing *it)
{
    free(it->bytes);
    free(it->counts);
}

bool is_same_listing(const struct listing *one, const struct listing *other)
{
    return one->sizes.bytes == other->sizes.bytes && one->sizes.counts == other->sizes.counts
        && memcmp(one->bytes, other->bytes, one->sizes.bytes) == 0
        && memcmp(one->counts, other->counts, one->sizes.counts * sizeof *one->counts) == 0;
}

bool has_listing(document *it, const struct listing *wanted)
{
    struct listing had = listing_of(it);
    bool is_same = is_same_listing(&had, wanted);
    free_listing(&had);
    return is_same;
}

static void put_number(struct listing *l, size_t number)
{
    PROMISE(l->sizes.counts < l->rooms.counts);
    l->counts[l->sizes.counts++] = number;
}

static void put_text(struct listing *l, struct bytes text)
{
    put_number(l, text.at ? text.count : BIGROSK_INI_UNNAMED);
    if (!text.at) return;
    PROMISE(l->sizes.bytes + text.count < l->rooms.bytes);
    memcpy(l->bytes + l->sizes.bytes, text.at, text.count);
    l->sizes.bytes += text.count;
    l->bytes[l->sizes.bytes++] = 0;
}

static struct bytes next_text(struct bigrosk_ini_walk *walk)
{
    struct bytes text = { NULL, 0 };
    text.at = (const uint8_t *)bigrosk_ini_text(walk, &text.count);
    PROMISE(!text.at || text.at[text.count] == 0);
    return text;
}

/* A pair of the section that the edit is about: what becomes of it. */
static void edit_pair(struct listing *l, enum edit_kind kind, const struct input *input, struct bytes key,
    struct bytes value,
                      bool *is_there)
{
    bool is_first = !*is_there && is_same(key, input->key);
    if (kind == SET && *is_there && is_same(key, input->key)) return;
    *is_there = *is_there || is_first;
    if (is_first && kind == DELETE) return;
    put_text(l, is_first && kind == RENAME_KEY ? input->value : key);
    put_text(l, is_first && kind == SET ? input->value : value);
}

/* The next section of the walk, with the edit made in it; is_there: whether it has what the edit is about.
 * */
static void edit_section(struct listing *l, enum edit_kind kind, const struct input *input,
    struct bigrosk_ini_walk *walk,
                         struct bytes name, bool *is_there)
{
    size_t number = bigrosk_ini_number(walk), place = l->sizes.counts + 1, before;
    put_text(l, kind == RENAME_SECTION ? input->value : name);
    put_number(l, 0);
    before = l->sizes.counts;
    for (size_t i = 0; i < number; i++) {
        struct bytes key = next_text(walk), value = next_text(walk);
        edit_pair(l, kind, input, key, value, is_there);
    }
    if (kind == ADD || (kind == SET && !*is_there)) {
        put_text(l, input->key);
        put_text(l, input->value);
    }
    l->counts[place] = (l->sizes.counts - before) / 2;
}

/* The list with the edit made; is_there: whether what it is about is there (of a section's edit, the
 * section). */
struct listing edited_listing(const struct listing *old, enum edit_kind kind, const struct input *input,
    bool *is_there)
{
    struct bytes asked = { input->named ? input->section.at : NULL, input->section.count };
    size_t more = asked.count + input->key.count + input->value.count + 4;
    struct bigrosk_ini_sizes room = { old->sizes.bytes + more, old->sizes.counts + 5 };
    struct listing l = { filled(room.bytes), filled(room.counts * sizeof(size_t)), BIGROSK_INI_NO_SIZES,
        room };
    struct bigrosk_ini_walk walk = bigrosk_ini_walk_over(old->bytes, old->counts, old->sizes);
    bool found = false;
    *is_there = false;
    while (!bigrosk_ini_is_over(&walk)) {
        struct bytes name = next_text(&walk);
        struct bigrosk_ini_sizes before = l.sizes;
        bool is_it = !found && is_same(name, asked), unused = true;
        /* with nothing asked of it, a section stays: a key is deleted that was found before */
        edit_section(&l, is_it ? kind : DELETE, input, &walk, name, is_it ? is_there : &unused);
        if (is_it && kind == DELETE_SECTION) l.sizes = before;
        found = found || is_it;
    }
    if (!found && (kind == SET || kind == ADD)) {
        put_text(&l, asked);
        put_number(&l, 1);
        put_text(&l, input->key);
        put_text(&l, input->value);
    }
    if (kind == DELETE_SECTION || kind == RENAME_SECTION) *is_there = found;
    return l;
}
