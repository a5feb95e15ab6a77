/* Ranges and chains of docs/LAYOUT.md. */
#include "layout.h"

bool vid_word_in_range(uint32_t word) { return within(512, word, 4095 * 512 - 1); }

bool operation_in_range(uint32_t word) { return word < 4095 * 4096; }

bool map_in_range(const struct lent *l) { return l->links[MAP_WORD] < 1u << 17; }

bool switches_in_range(const struct lent *l) { return (l->links[SWITCHES_WORD] & ~0x1F1F1F1Fu) == 0; }

uint32_t state_bits(const struct lent *l, uint32_t port)
{
    uint32_t word = l->links[STATES_WORD] >> port;
    return (word & 1) + 2 * (word >> 8 & 1) + 4 * (word >> 16 & 1);
}

bool states_in_range(const struct lent *l)
{
    if ((l->links[STATES_WORD] & ~0x1F1F1Fu) != 0)
        return false;
    for (uint32_t port = 0; port < 5; port++)
        if ((state_bits(l, port) & 3) == 3 || (state_bits(l, port) & 6) == 6)
            return false;
    return true;
}

void follow_chain(const struct lent *l, uint32_t first, uint32_t size, uint32_t *chain)
{
    chain[0] = first;
    for (uint32_t i = 1; i < size; i++)
        chain[i] = cell_of(l, cell_record(l, chain[i - 1])[NEXT]);
}

/* Groups of ten bits from the low end, joined by exclusive or. */
static uint32_t bucket_of(uint64_t key)
{
    uint32_t bucket = 0;
    for (; key != 0; key >>= 10)
        bucket ^= key & 1023;
    return bucket;
}

uint32_t place_of(uint64_t key, uint32_t turn) { return turn < 4 ? 4 * bucket_of(key) + turn : 4096 + turn - 4; }
