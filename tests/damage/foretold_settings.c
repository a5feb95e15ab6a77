/* The calls that set a port, a VLAN, the map, a queue switch and BPDU handling. */
#include "foretold_parts.h"

/* The layout paper's word of an operation, from the seven numbers of a request: kind, type, sources of VID and PCP, VID, PCP, DEI. */
static uint32_t operation_word(const uint32_t *o)
{
    return o[0] | o[1] << 3 | o[2] << 4 | o[3] << 6 | o[6] << 8 | o[5] << 9 | o[4] << 12;
}

/* "Disabled 1, Blocking 0, Listening 2, Learning 4, Forwarding 5, with bit p worth 1, 8 + p worth 2, 16 + p worth 4" */
static void set_state(const struct lent *l, uint32_t port, uint32_t state)
{
    static const uint32_t bits_of[] = {1, 0, 2, 4, 5};
    uint32_t bits = bits_of[state], all = 1u | 1u << 8 | 1u << 16;
    uint32_t set = (bits & 1) | (bits >> 1 & 1) << 8 | (bits >> 2 & 1) << 16;
    l->links[STATES_WORD] = (l->links[STATES_WORD] & ~(all << port)) | set << port;
}

gufhrandi_answer foretell_port(const struct lent *l, const struct request *r)
{
    if (!states_in_range(l))
        return refused(10);
    set_state(l, r->port, r->state);
    uint32_t *record = port_record(l, r->port);
    record[PORT_WORD] = r->assignment | r->flags << 2 | r->dei << 5 | r->pcp << 6 | r->vid << 9;
    record[PORT_OPERATION] = operation_word(r->operation);
    return done(0, 0);
}

uint32_t find_vlan(const struct lent *l, uint32_t vid)
{
    if (l->links[VLANS_IN_USE] > MOST_VLANS)
        return VLANS_DAMAGED;
    for (uint32_t v = 0; v < l->links[VLANS_IN_USE]; v++) {
        uint32_t word = l->links[VLAN_ENTRY + 2 * v];
        if (!vid_word_in_range(word))
            return VLANS_DAMAGED;
        if (word >> 9 == vid)
            return v;
    }
    return VLAN_MISSING;
}

gufhrandi_answer foretell_vlan(const struct lent *l, const struct request *r)
{
    uint32_t v = find_vlan(l, r->vid);
    if (v == VLANS_DAMAGED)
        return refused(10);
    if (v == VLAN_MISSING && l->links[VLANS_IN_USE] == MOST_VLANS)
        return refused(6);
    if (v == VLAN_MISSING)
        v = l->links[VLANS_IN_USE]++;
    l->links[VLAN_ENTRY + 2 * v] = r->members | r->gid << 5 | r->vid << 9;
    l->links[VLAN_ENTRY + 2 * v + 1] = operation_word(r->operation);
    return done(0, 0);
}

/* Each later entry moves one down as it stands, in range or not, and the entry that was last is filled with zeros. */
gufhrandi_answer foretell_clear_vlan(const struct lent *l, uint32_t vid)
{
    uint32_t v = find_vlan(l, vid);
    if (v == VLANS_DAMAGED)
        return refused(10);
    if (v == VLAN_MISSING)
        return refused(7);
    uint32_t *entries = l->links + VLAN_ENTRY, last = --l->links[VLANS_IN_USE];
    for (; v < last; v++) {
        entries[2 * v] = entries[2 * v + 2];
        entries[2 * v + 1] = entries[2 * v + 3];
    }
    entries[2 * last] = 0;
    entries[2 * last + 1] = 0;
    return done(0, 0);
}

static void set_bits(uint32_t *word, uint32_t from, uint32_t mask, uint32_t value)
{
    *word = (*word & ~(mask << from)) | value << from;
}

gufhrandi_answer foretell_map(const struct lent *l, uint32_t pcp, uint32_t queue)
{
    if (!map_in_range(l))
        return refused(10);
    set_bits(&l->links[MAP_WORD], 2 * pcp, 3, queue);
    return done(0, 0);
}

gufhrandi_answer foretell_bpdu(const struct lent *l, uint32_t on)
{
    if (!map_in_range(l))
        return refused(10);
    set_bits(&l->links[MAP_WORD], 16, 1, on);
    return done(0, 0);
}

gufhrandi_answer foretell_queue_switch(const struct lent *l, uint32_t port, uint32_t queue, uint32_t on)
{
    if (!switches_in_range(l))
        return refused(10);
    set_bits(&l->links[SWITCHES_WORD], 8 * queue + port, 1, on);
    return done(0, 0);
}
