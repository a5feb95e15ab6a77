/* Places, ranges and chains of docs/LAYOUT.md. */
#ifndef LAYOUT_H
#define LAYOUT_H

#include <stdbool.h>
#include <stdint.h>

/* Link memory, the fixed part. */
enum {
    CELL_COUNT = 0, MAP_WORD = 1, SWITCHES_WORD = 2, FREE_CELLS = 3, FIRST_FREE = 4, VLANS_IN_USE = 5, STATES_WORD = 8,
    VLAN_ENTRY = 32, PORT_RECORD = 384, FIXED_WORDS = 1024
};

/* A port's record. */
enum { PORT_WORDS = 128, PORT_WORD = 32, PORT_OPERATION = 33, WAITING = 34, OLDEST = 40, YOUNGEST = 41 };

/* A cell's record. */
enum { CELL_WORDS = 20, NEXT = 0, FRAME_WORD = 1, BEHIND = 2 };

enum { CELL_BYTES = 80, STORED_BYTES = 8, MOST_SIZE = 52, MOST_VLANS = 16, MANAGEMENT_PORT = 4 };

/* The operation that is stored with a frame on which no tag operation acts. */
enum { NO_TAG_OPERATION = 4095 * 4096 };

/* The memories that one call got; those that it did not get are not looked at. */
struct lent {
    uint8_t *cells;
    uint32_t *links;
    uint64_t *addresses;
    uint32_t n;                  /* the cell count */
};

static inline bool within(uint32_t low, uint32_t value, uint32_t high) { return low <= value && value <= high; }

static inline uint32_t *port_record(const struct lent *l, uint32_t port)
{
    return l->links + PORT_RECORD + PORT_WORDS * port;
}

static inline uint32_t *cell_record(const struct lent *l, uint32_t cell)
{
    return l->links + FIXED_WORDS + CELL_WORDS * cell;
}

/* "n or more stands for 0" */
static inline uint32_t cell_of(const struct lent *l, uint32_t word) { return word < l->n ? word : 0; }

/* The cells of a frame of this many bytes. */
static inline uint32_t cells_of(uint32_t length) { return (length + 8 + 79) / 80; }

/* Words of several fields: a port's or a VLAN's, and an operation's. */
bool vid_word_in_range(uint32_t word);
bool operation_in_range(uint32_t word);

bool map_in_range(const struct lent *);
bool switches_in_range(const struct lent *);
bool states_in_range(const struct lent *);

/* A port's three bits: open 1, Listening 2, Learning or Forwarding 4. */
uint32_t state_bits(const struct lent *, uint32_t port);

/* The first cell and the next ones, `size` in all and 52 at most. */
void follow_chain(const struct lent *, uint32_t first, uint32_t size, uint32_t *chain);

/* Turn 0 to 19 of the search for a key: its place. */
uint32_t place_of(uint64_t key, uint32_t turn);

#endif
