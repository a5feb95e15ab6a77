/* The classes of fields of docs/LAYOUT.md, and values at the edges of their ranges, beyond them, and any. */
#include "fields.h"

#include "random.h"
#include "request.h"

#include <stdio.h>
#include <string.h>

/* Ends of ranges that depend on the cell count n. */
enum { UP_TO_N = 0xFFFFFFF0u, UP_TO_LAST, ANY };

enum sort { IN_FIXED_PART, IN_QUEUES, IN_CELL_RECORD, IN_FRAME_RECORD, IN_STORED_HEADER, IN_FRAME_BYTES, IN_ADDRESS };

/* Words of link memory: first, first + step, .. `count` times, each with the `width` words from there on; of them the `bits` bits from bit
 * `bit` on (0 bits: the whole word). Queues: words of the record of a port where something waits. Cell and frame records: words of a cell's
 * record, of a cell in use or of a frame's first cell. Stored header: `width` bytes from byte `first` on. Addresses: `width` bits from bit
 * `first` on. */
static struct field_class {
    const char *name;
    enum sort sort;
    uint32_t first, step, count, width;
    uint32_t bit, bits;
    uint32_t low, high;
    unsigned long written;
} classes[] = {
    {"cell count", IN_FIXED_PART, 0, 0, 1, 1, 0, 0, 64, 2048, 0},
    {"map: queue of a PCP", IN_FIXED_PART, 1, 0, 1, 1, 0, 16, 0, 65535, 0},
    {"map: BPDU handling", IN_FIXED_PART, 1, 0, 1, 1, 16, 1, 0, 1, 0},
    {"map: whole word", IN_FIXED_PART, 1, 0, 1, 1, 0, 0, 0, 131071, 0},
    {"queue switches: those of a queue", IN_FIXED_PART, 2, 0, 1, 1, 8, 8, 0, 31, 0},
    {"queue switches: whole word", IN_FIXED_PART, 2, 0, 1, 1, 0, 0, 0, ANY, 0},
    {"free cells", IN_FIXED_PART, 3, 0, 1, 1, 0, 0, 0, UP_TO_N, 0},
    {"first free cell", IN_FIXED_PART, FIRST_FREE, 0, 1, 1, 0, 0, 0, UP_TO_LAST, 0},
    {"VLANs in use", IN_FIXED_PART, 5, 0, 1, 1, 0, 0, 0, 16, 0},
    {"unused words 6 and 7", IN_FIXED_PART, 6, 0, 1, 2, 0, 0, 0, ANY, 0},
    {"states: open", IN_FIXED_PART, 8, 0, 1, 1, 0, 5, 0, 31, 0},
    {"states: Listening", IN_FIXED_PART, 8, 0, 1, 1, 8, 5, 0, 31, 0},
    {"states: Learning or Forwarding", IN_FIXED_PART, 8, 0, 1, 1, 16, 5, 0, 31, 0},
    {"states: whole word", IN_FIXED_PART, 8, 0, 1, 1, 0, 0, 0, ANY, 0},
    {"unused words 9 to 31", IN_FIXED_PART, 9, 0, 1, 23, 0, 0, 0, ANY, 0},
    {"VLAN: members", IN_FIXED_PART, 32, 2, 16, 1, 0, 5, 0, 31, 0},
    {"VLAN: GID", IN_FIXED_PART, 32, 2, 16, 1, 5, 4, 0, 15, 0},
    {"VLAN: VID", IN_FIXED_PART, 32, 2, 16, 1, 9, 23, 1, 4094, 0},
    {"VLAN: whole word", IN_FIXED_PART, 32, 2, 16, 1, 0, 0, 512, 4095 * 512 - 1, 0},
    {"VLAN: operation's kind, type, sources", IN_FIXED_PART, 33, 2, 16, 1, 0, 8, 0, 255, 0},
    {"VLAN: operation's header", IN_FIXED_PART, 33, 2, 16, 1, 8, 24, 0, 65535, 0},
    {"VLAN: operation, whole word", IN_FIXED_PART, 33, 2, 16, 1, 0, 0, 0, 4095 * 4096 - 1, 0},
    {"unused words 64 to 383", IN_FIXED_PART, 64, 0, 1, 320, 0, 0, 0, ANY, 0},
    {"counter", IN_FIXED_PART, PORT_RECORD, PORT_WORDS, 5, 21, 0, 0, 0, ANY, 0},
    {"counter: unused", IN_FIXED_PART, PORT_RECORD + 21, PORT_WORDS, 5, 11, 0, 0, 0, ANY, 0},
    {"port: assignment", IN_FIXED_PART, PORT_RECORD + 32, PORT_WORDS, 5, 1, 0, 2, 0, 2, 0},
    {"port: flags", IN_FIXED_PART, PORT_RECORD + 32, PORT_WORDS, 5, 1, 2, 3, 0, 7, 0},
    {"port: default DEI and PCP", IN_FIXED_PART, PORT_RECORD + 32, PORT_WORDS, 5, 1, 5, 4, 0, 15, 0},
    {"port: default VID", IN_FIXED_PART, PORT_RECORD + 32, PORT_WORDS, 5, 1, 9, 23, 1, 4094, 0},
    {"port: whole word", IN_FIXED_PART, PORT_RECORD + 32, PORT_WORDS, 5, 1, 0, 0, 512, 4095 * 512 - 1, 0},
    {"port: operation's kind, type, sources", IN_FIXED_PART, PORT_RECORD + 33, PORT_WORDS, 5, 1, 0, 8, 0, 255, 0},
    {"port: operation's header", IN_FIXED_PART, PORT_RECORD + 33, PORT_WORDS, 5, 1, 8, 24, 0, 65535, 0},
    {"port: operation, whole word", IN_FIXED_PART, PORT_RECORD + 33, PORT_WORDS, 5, 1, 0, 0, 0, 4095 * 4096 - 1, 0},
    {"queues that wait", IN_FIXED_PART, PORT_RECORD + WAITING, PORT_WORDS, 5, 1, 0, 0, 0, 15, 0},
    {"port: unused words 35 to 39", IN_FIXED_PART, PORT_RECORD + 35, PORT_WORDS, 5, 5, 0, 0, 0, ANY, 0},
    {"queue: oldest", IN_QUEUES, OLDEST, 2, 4, 1, 0, 0, 0, UP_TO_LAST, 0},
    {"queue: youngest", IN_QUEUES, OLDEST + 1, 2, 4, 1, 0, 0, 0, UP_TO_LAST, 0},
    {"port: unused words 48 to 127", IN_FIXED_PART, PORT_RECORD + 48, PORT_WORDS, 5, 80, 0, 0, 0, ANY, 0},
    {"cell: next", IN_CELL_RECORD, 0, 0, 1, 1, 0, 0, 0, UP_TO_LAST, 0},
    {"frame word: ports", IN_FRAME_RECORD, 1, 0, 1, 1, 0, 5, 1, 31, 0},
    {"frame word: size", IN_FRAME_RECORD, 1, 0, 1, 1, 5, 27, 1, 52, 0},
    {"frame word: whole", IN_FRAME_RECORD, 1, 0, 1, 1, 0, 0, 32, 1695, 0},
    {"frame behind, at a port", IN_FRAME_RECORD, 2, 0, 1, 5, 0, 0, 0, UP_TO_LAST, 0},
    {"cell: unused", IN_CELL_RECORD, 7, 0, 1, 13, 0, 0, 0, ANY, 0},
    {"stored: length", IN_STORED_HEADER, 0, 0, 1, 2, 0, 0, 60, 4083, 0},
    {"stored: default header", IN_STORED_HEADER, 2, 0, 1, 2, 0, 0, 16, 4095 * 16 - 1, 0},
    {"stored: operation's kind, type, sources", IN_STORED_HEADER, 4, 0, 1, 1, 0, 0, 0, 255, 0},
    {"stored: operation", IN_STORED_HEADER, 4, 0, 1, 4, 0, 0, 0, 4095 * 4096, 0},
    {"bytes of a frame", IN_FRAME_BYTES, 8, 0, 1, 72, 0, 0, 0, 255, 0},
    {"address: mark", IN_ADDRESS, 0, 0, 1, 1, 0, 0, 0, 1, 0},
    {"address: static", IN_ADDRESS, 1, 0, 1, 1, 0, 0, 0, 1, 0},
    {"address: port", IN_ADDRESS, 2, 0, 1, 3, 0, 0, 0, 4, 0},
    {"address: unused bits", IN_ADDRESS, 5, 0, 1, 6, 0, 0, 0, 1, 0},
    {"address: in use", IN_ADDRESS, 11, 0, 1, 1, 0, 0, 0, 1, 0},
    {"address: key", IN_ADDRESS, 12, 0, 1, 52, 0, 0, 0, ANY, 0},
    {"address: whole number", IN_ADDRESS, 0, 0, 1, 64, 0, 0, 0, ANY, 0},
};

enum { CLASSES = sizeof classes / sizeof *classes };

static struct lent l;

struct lent own_memories(void)
{
    return (struct lent){memories[CELLS].end - memories[CELLS].length,
                         (uint32_t *)memories[LINKS].end - memories[LINKS].length,
                         (uint64_t *)memories[ADDRESSES].end - memories[ADDRESSES].length,
                         (uint32_t)(memories[CELLS].length / CELL_BYTES)};
}

static uint32_t value_for(const struct field_class *c, uint32_t old)
{
    uint32_t high = c->high == UP_TO_N ? l.n : c->high == UP_TO_LAST ? l.n - 1 : c->high == ANY ? 0xFFFFFFFFu : c->high;
    const uint32_t values[] = {c->low - 1, c->low, c->low + 1, high - 1, high, high + 1, 0, 1, old - 1, old + 1, old ^ 1,
                               0xFFFFFFFFu, 0x80000000u, 0x7FFFFFFFu, 65535, 65536, (uint32_t)random_number()};
    /* A good value that is not the right one makes cycles, chains with shared cells and entries that come twice. */
    if (one_in(3))
        return c->low + (uint32_t)(random_number() % ((uint64_t)high - c->low + 1));
    return values[below(sizeof values / sizeof *values)];
}

/* Mostly a port where something waits, and one of the queues that do. */
static void waiting_queue(uint32_t *port, uint32_t *queue)
{
    *port = below(5);
    *queue = below(4);
    for (uint32_t tries = 0; tries < 20 && !one_in(8); tries++) {
        if ((port_record(&l, *port)[WAITING] >> *queue & 1) != 0)
            return;
        *queue = (*queue + 1) % 4;
        *port = (*port + (*queue == 0)) % 5;
    }
}

/* Mostly the first cell of a waiting frame, some steps behind the oldest of its queue. */
static uint32_t first_cell(uint32_t steps)
{
    uint32_t port, queue;
    waiting_queue(&port, &queue);
    uint32_t cell = port_record(&l, port)[OLDEST + 2 * queue];
    for (; steps > 0 && cell < l.n; steps--)
        cell = cell_record(&l, cell)[2 + port];
    return cell < l.n ? cell : below(l.n);
}

/* Mostly a cell of a waiting frame or of the free list's beginning. */
static uint32_t cell_in_use(uint32_t steps)
{
    uint32_t cell = one_in(4) ? l.links[FIRST_FREE] : first_cell(one_in(2) ? 0 : below(3));
    for (; steps > 0 && cell < l.n; steps--)
        cell = cell_record(&l, cell)[0];
    return cell < l.n ? cell : below(l.n);
}

static void overwrite(uint64_t *number, const struct field_class *c, uint64_t key)
{
    uint64_t mask = (c->width == 64 ? ~0ull : (1ull << c->width) - 1) << c->first;
    uint64_t value = c->width > 32 ? (one_in(2) ? key : random_number()) : value_for(c, 0);
    *number = (*number & ~mask) | (value << c->first & mask);
}

static void damage_address(const struct field_class *c)
{
    uint64_t key = (uint64_t)(one_in(2) ? 0 : below(16)) << 48 | few_addresses();
    if (c->width == 64 && one_in(4)) {
        /* every place in use */
        for (uint32_t place = 0; place < 4112; place++)
            if (l.addresses[place] == 0)
                l.addresses[place] = random_number() << 12 | 2048 | below(5) << 2 | below(4);
        return;
    }
    if (c->width < 32 && one_in(4)) {
        /* every entry: a search meets its match alone */
        for (uint32_t place = 0; place < 4112; place++)
            if (l.addresses[place] != 0)
                overwrite(&l.addresses[place], c, key);
        return;
    }
    uint32_t turn = below(20);
    for (uint32_t tries = 0; tries < 20 && l.addresses[place_of(key, turn)] == 0 && !one_in(40); tries++)
        turn = (turn + 1) % 20;
    overwrite(&l.addresses[one_in(8) ? below(4112) : place_of(key, turn)], c, key);
}

static void damage_cells(const struct field_class *c)
{
    uint8_t *at = l.cells + 80 * (c->sort == IN_FRAME_BYTES ? cell_in_use(below(3)) : first_cell(below(2))) + c->first;
    if (c->sort == IN_FRAME_BYTES)
        at += below(c->width);
    uint32_t count = c->sort == IN_FRAME_BYTES ? 1 : c->width, value = 0;
    for (uint32_t i = 0; i < count; i++)
        value |= (uint32_t)at[i] << 8 * i;
    value = value_for(c, value);
    for (uint32_t i = 0; i < count; i++)
        at[i] = (uint8_t)(value >> 8 * i);
}

static void damage_links(const struct field_class *c)
{
    uint32_t port, queue;
    uint32_t at = c->first + c->step * below(c->count) + below(c->width);
    waiting_queue(&port, &queue);
    if (c->sort == IN_QUEUES)
        at = PORT_RECORD + PORT_WORDS * port + c->first + c->step * queue;
    if (c->sort == IN_CELL_RECORD)
        at += FIXED_WORDS + CELL_WORDS * cell_in_use(below(3));
    if (c->sort == IN_FRAME_RECORD)
        at += FIXED_WORDS + CELL_WORDS * first_cell(below(3));
    uint32_t mask = c->bits == 0 ? 0xFFFFFFFFu : ((1u << c->bits) - 1) << c->bit;
    uint32_t value = value_for(c, (l.links[at] & mask) >> c->bit);
    l.links[at] = (l.links[at] & ~mask) | (value << c->bit & mask);
}

void damage_a_field(void)
{
    struct field_class *c = &classes[below(CLASSES)];
    /* Fields of waiting frames are few among the classes, and a call meets few of them. */
    while (one_in(2) && c->sort == IN_FIXED_PART)
        c = &classes[below(CLASSES)];
    l = own_memories();
    c->written++;
    if (c->sort == IN_ADDRESS) {
        damage_address(c);
        remember(&memories[ADDRESSES], memories[ADDRESSES].length);
    } else if (c->sort == IN_STORED_HEADER || c->sort == IN_FRAME_BYTES) {
        damage_cells(c);
        remember(&memories[CELLS], memories[CELLS].length);
    } else {
        damage_links(c);
        remember(&memories[LINKS], memories[LINKS].length);
    }
}

int report_fields(void)
{
    int never = 0;
    printf("values written into each class of field:\n");
    for (int i = 0; i < CLASSES; i++) {
        printf("  %6lu  %s\n", classes[i].written, classes[i].name);
        never += classes[i].written == 0;
    }
    return never;
}
