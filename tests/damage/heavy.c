/* Whole kinds of fields written at once, mostly with values in range: calls then go on over chains, lists and tables that no switch
 * has. A value out of range stands here and there. */
#include "heavy.h"

#include "fields.h"
#include "random.h"
#include "request.h"

static struct lent l;

/* Cells from few, so that chains and lists meet; now and then a number that stands for 0. */
static uint32_t some_cell(void)
{
    if (one_in(20))
        return one_in(2) ? l.n + below(3) : (uint32_t)random_number();
    return below(one_in(2) ? 12 : l.n);
}

/* 0, now and then a bit that may or may not have a field. */
static uint32_t stray_bit(void) { return one_in(8) ? 1u << below(32) : 0; }

static uint32_t some_operation(void)
{
    if (one_in(60))
        return one_in(2) ? (uint32_t)random_number() : NO_TAG_OPERATION + below(3);
    return below(NO_TAG_OPERATION);
}

static uint32_t some_vid_word(uint32_t low_bits)
{
    return one_in(80) ? (uint32_t)random_number() : few_vids() << 9 | low_bits;
}

static void damage_chains(void)
{
    for (uint32_t cell = 0; cell < l.n; cell++)
        if (one_in(2))
            cell_record(&l, cell)[NEXT] = some_cell();
    l.links[FREE_CELLS] = one_in(3) ? l.n + 1 - below(8) : below(l.n * 3 / 4);
    l.links[FIRST_FREE] = one_in(10) ? some_cell() : below(l.n);
}

static void write_low_first(uint8_t *at, uint64_t value, uint32_t bytes)
{
    for (uint32_t i = 0; i < bytes; i++)
        at[i] = (uint8_t)(value >> 8 * i);
}

/* A stored header, and tags where the frame's are. */
static void damage_first_cell(uint8_t *cell, uint32_t length)
{
    uint32_t default_header = one_in(40) ? below(32) : 16 + below(4095 * 16 - 16);
    uint32_t operation = one_in(8) ? NO_TAG_OPERATION : some_operation();
    write_low_first(cell, length | (uint64_t)default_header << 16 | (uint64_t)operation << 32, STORED_BYTES);
    for (uint32_t tag = 0, tags = below(4); tag < tags; tag++)
        write_low_first(cell + 20 + 4 * tag, (one_in(2) ? 0x0081u : 0xA888u) | below(65536) << 16, 4);
}

static uint32_t some_length(uint32_t longest)
{
    static const uint32_t edges[] = {0, 59, 60, 72, 73, 4083, 4084, 65535};
    return one_in(30) ? edges[below(8)] : 60 + below(longest - 59);
}

/* Every cell is a frame's first: of frames that wait at all ports or at one, of which some cannot leave. */
static void damage_frames(void)
{
    uint32_t longest = one_in(3) ? 4083 : 200, usual = one_in(2) ? 31 : 1u << below(5), some = one_in(2) ? 3 : 60;
    for (uint32_t cell = 0; cell < l.n; cell++) {
        uint32_t length = some_length(longest), ports = one_in(some) ? below(32) : usual;
        uint32_t size = one_in(40) ? 53 * below(2) : cells_of(length);
        cell_record(&l, cell)[FRAME_WORD] = ports + 32 * size;
        damage_first_cell(l.cells + CELL_BYTES * cell, length);
    }
}

static void damage_queues(void)
{
    for (uint32_t port = 0; port < 5; port++) {
        uint32_t *record = port_record(&l, port);
        record[WAITING] = one_in(40) ? (uint32_t)random_number() : below(16);
        for (uint32_t queue = 0; queue < 4; queue++) {
            record[OLDEST + 2 * queue] = some_cell();
            record[YOUNGEST + 2 * queue] = one_in(6) ? l.n : some_cell();
        }
        for (uint32_t cell = 0; cell < l.n; cell++)
            cell_record(&l, cell)[BEHIND + port] = some_cell();
    }
}

/* VIDs from few, so that one stands in several entries. */
static void damage_vlans(void)
{
    l.links[VLANS_IN_USE] = below(18);
    for (uint32_t v = 0; v < MOST_VLANS; v++) {
        l.links[VLAN_ENTRY + 2 * v] = some_vid_word(one_in(2) ? 31 : below(512));
        l.links[VLAN_ENTRY + 2 * v + 1] = some_operation();
    }
}

/* Also addresses that no call writes there. */
static uint64_t some_address(void)
{
    static const uint64_t groups[] = {0xFFFFFFFFFFFFu, 0x0180C2000000u};
    return one_in(8) ? groups[below(2)] : few_addresses();
}

/* Keys from few in any of their places, several times, and empty places that are not 0. */
static void damage_addresses(void)
{
    for (uint32_t i = 0; i < 400; i++) {
        uint64_t key = (uint64_t)(one_in(2) ? 0 : below(16)) << 48 | some_address();
        uint64_t in_use = one_in(8) ? 0 : 2048, low_bits = one_in(20) ? (one_in(2) ? 20 : below(2048)) : below(20);
        l.addresses[place_of(key, below(20))] = key << 12 | in_use | low_bits;
    }
}

static uint32_t some_states(void)
{
    static const uint32_t states[] = {1, 0, 1u << 8, 1u << 16, 1u << 16 | 1};
    uint32_t word = stray_bit();
    for (uint32_t port = 0; port < 5; port++)
        word |= states[one_in(2) ? 4 : below(5)] << port;
    return word;
}

static void damage_settings(void)
{
    l.links[MAP_WORD] = below(1u << 17) | stray_bit();
    l.links[SWITCHES_WORD] = ((uint32_t)random_number() & 0x1F1F1F1Fu) | stray_bit();
    l.links[STATES_WORD] = some_states();
    for (uint32_t port = 0; port < 5; port++) {
        uint32_t *record = port_record(&l, port);
        record[PORT_WORD] = some_vid_word(below(16) << 5 | (one_in(8) ? below(8) << 2 : 0) | below(4));
        record[PORT_OPERATION] = some_operation() | (one_in(8) ? 1u << 24 : 0);
        for (uint32_t number = 0; number <= 20; number++)
            if (one_in(20))
                record[number] = 0xFFFFFFFFu - below(3);
    }
}

/* A memory that is lent with the lengths of one cell fewer finds its count in what is word 20 of the whole. */
static void damage_counts(void) { l.links[CELL_WORDS] = l.n - 1; }

/* Any contents, but for the cell count. */
static void damage_everything(void)
{
    for (int i = CELLS; i <= ADDRESSES; i++)
        scramble(&memories[i]);
    l.links[CELL_COUNT] = l.n;
}

void damage_heavily(void)
{
    static void (*const kinds[])(void) = {damage_chains, damage_frames, damage_queues, damage_vlans, damage_addresses,
                                          damage_settings, damage_counts};
    enum { KINDS = sizeof kinds / sizeof *kinds };
    l = own_memories();
    if (one_in(8))
        damage_everything();
    uint32_t chosen = 1 + below((1u << KINDS) - 1);
    for (uint32_t kind = 0; kind < KINDS; kind++)
        if ((chosen >> kind & 1) != 0)
            kinds[kind]();
    for (int i = CELLS; i <= ADDRESSES; i++)
        remember(&memories[i], memories[i].length);
}
