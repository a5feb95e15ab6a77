/* Address memory: the search, what a frame marks and learns there, and the calls age, static and remove. */
#include "foretold_parts.h"

/* Bits of a number. */
enum { USED = 1, STATIC = 2, PORT_AT = 2, IN_USE = 2048, KEY_AT = 12, LOW_BITS = 2047, LOW_LIMIT = 20 };

static bool is_in_use(uint64_t number) { return (number & IN_USE) != 0; }

static bool match_in_range(uint64_t number) { return (number & LOW_BITS) < LOW_LIMIT; }

static bool place_in_range(uint64_t number) { return number == 0 || (is_in_use(number) && match_in_range(number)); }

/* Of a place that has not the key, only bit 11 is asked. */
struct search search(const struct lent *l, uint32_t gid, uint64_t address)
{
    struct search s = {(uint64_t)gid << 48 | address, NULL, NULL, false};
    for (uint32_t turn = 0; turn < 20 && s.match == NULL; turn++) {
        uint64_t *place = &l->addresses[place_of(s.key, turn)];
        if (!is_in_use(*place)) {
            if (s.empty == NULL)
                s.empty = place;
        } else if (*place >> KEY_AT == s.key) {
            s.match = place;
            s.damaged = !match_in_range(*place);
        }
    }
    return s;
}

static uint64_t entry(uint64_t key, uint32_t port, uint32_t marks)
{
    return key << KEY_AT | IN_USE | (uint64_t)port << PORT_AT | marks;
}

void mark(const struct search *s)
{
    if (s->match != NULL)
        *s->match |= USED;
}

bool learn(const struct search *s, uint32_t port)
{
    uint64_t *place = s->match != NULL ? s->match : s->empty;
    if (place == NULL)
        return false;
    if (s->match == NULL || (*s->match & STATIC) == 0)
        *place = entry(s->key, port, USED);
    return true;
}

gufhrandi_answer foretell_static(const struct lent *l, uint32_t gid, uint32_t port, uint64_t address)
{
    struct search s = search(l, gid, address);
    if (s.damaged)
        return refused(10);
    uint64_t *place = s.match != NULL ? s.match : s.empty;
    if (place == NULL)
        return refused(8);
    *place = entry(s.key, port, STATIC | USED);
    return done(0, 0);
}

gufhrandi_answer foretell_remove(const struct lent *l, uint32_t gid, uint64_t address)
{
    struct search s = search(l, gid, address);
    if (s.damaged)
        return refused(10);
    if (s.match == NULL)
        return refused(9);
    *s.match = 0;
    return done(0, 0);
}

gufhrandi_answer foretell_age(const struct lent *l)
{
    uint32_t removed = 0;
    for (uint32_t place = 0; place < GUFHRANDI_PLACES; place++)
        if (!place_in_range(l->addresses[place]))
            return refused(10);
    for (uint64_t *place = l->addresses; place < l->addresses + GUFHRANDI_PLACES; place++) {
        if (!is_in_use(*place) || (*place & STATIC) != 0)
            continue;
        if ((*place & USED) != 0) {
            *place -= USED;
        } else {
            *place = 0;
            removed++;
        }
    }
    return done(removed, 0);
}
