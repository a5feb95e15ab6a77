/* A take: the oldest frame of the highest queue that waits is read, leaves its port and is written with other tags. */
#include "foretold_parts.h"

enum { SENT = 19 };

static uint32_t low_first(const uint8_t *b, uint32_t bytes)
{
    uint32_t value = 0;
    for (uint32_t i = 0; i < bytes; i++)
        value |= (uint32_t)b[i] << 8 * i;
    return value;
}

static struct stored stored_header(const struct lent *l, uint32_t cell)
{
    const uint8_t *b = l->cells + CELL_BYTES * cell;
    return (struct stored){low_first(b, 2), low_first(b + 2, 2), low_first(b + 4, 4)};
}

static bool stored_in_range(const struct stored *s)
{
    return within(60, s->length, 4083) && within(16, s->default_header, 4095 * 16 - 1)
        && s->operation <= NO_TAG_OPERATION;
}

/* All that a take of this frame meets. */
static bool take_in_range(const struct lent *l, uint32_t cell, uint32_t port)
{
    if (cell >= l->n || !leaving_in_range(l, cell, port))
        return false;
    struct stored s = stored_header(l, cell);
    if (!stored_in_range(&s) || cell_record(l, cell)[FRAME_WORD] >> 5 != cells_of(s.length))
        return false;
    return s.operation == NO_TAG_OPERATION || operation_in_range(port_record(l, port)[PORT_OPERATION]);
}

static void read_frame(const struct lent *l, uint32_t cell, uint32_t length, uint8_t *frame)
{
    uint32_t chain[MOST_SIZE];
    follow_chain(l, cell, cells_of(length), chain);
    for (uint32_t i = 0; i < length; i++) {
        uint32_t at = STORED_BYTES + i;
        frame[i] = l->cells[CELL_BYTES * chain[at / CELL_BYTES] + at % CELL_BYTES];
    }
}

gufhrandi_answer foretell_take(const struct lent *l, uint32_t port, uint8_t *out)
{
    const uint32_t *record = port_record(l, port);
    uint8_t frame[4083];
    uint32_t queue = 3;
    if (record[WAITING] > 15)
        return refused(10);
    if (record[WAITING] == 0)
        return done(0, 0);
    while ((record[WAITING] >> queue & 1) == 0)
        queue--;
    uint32_t cell = record[OLDEST + 2 * queue];
    if (!take_in_range(l, cell, port))
        return refused(10);
    struct stored s = stored_header(l, cell);
    read_frame(l, cell, s.length, frame);
    uint32_t written = write_leaving(frame, &s, record[PORT_OPERATION], out);
    leave_cells(l, cell, port);
    leave_queue(l, cell, port, queue);
    count(l, port, SENT);
    return done(written, queue);
}
