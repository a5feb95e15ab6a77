/* A copy leaves its port, and the drain, in which all copies of a port do. */
#include "foretold_parts.h"

enum { DRAINED = 20 };

/* The frame word, which must have this port's bit. If its ports are this bit alone, the cells go back: also the first free cell, and
 * free cells, which with the frame's size may not exceed n. */
bool leaving_in_range(const struct lent *l, uint32_t cell, uint32_t port)
{
    uint32_t word = cell_record(l, cell)[FRAME_WORD], ports = word & 31, size = word >> 5;
    if (!within(32, word, 1695) || (ports >> port & 1) == 0)
        return false;
    if (ports != 1u << port)
        return true;
    return l->links[FIRST_FREE] < l->n && l->links[FREE_CELLS] <= l->n && l->links[FREE_CELLS] + size <= l->n;
}

static void give_back(const struct lent *l, uint32_t cell, uint32_t size)
{
    uint32_t chain[MOST_SIZE];
    follow_chain(l, cell, size, chain);
    cell_record(l, chain[size - 1])[NEXT] = l->links[FIRST_FREE];
    l->links[FIRST_FREE] = cell;
    l->links[FREE_CELLS] += size;
}

void leave_cells(const struct lent *l, uint32_t cell, uint32_t port)
{
    uint32_t *word = &cell_record(l, cell)[FRAME_WORD];
    *word &= ~(1u << port);
    if ((*word & 31) == 0)
        give_back(l, cell, *word >> 5);
}

void leave_queue(const struct lent *l, uint32_t cell, uint32_t port, uint32_t queue)
{
    uint32_t *record = port_record(l, port);
    if (record[YOUNGEST + 2 * queue] == cell)
        record[WAITING] &= ~(1u << queue);
    else
        record[OLDEST + 2 * queue] = cell_record(l, cell)[BEHIND + port];
}

/* "A list as it is read", on memory as it came. */
static bool list_in_range(const struct lent *l, uint32_t port, uint32_t queue)
{
    const uint32_t *record = port_record(l, port);
    if ((record[WAITING] >> queue & 1) == 0)
        return true;
    uint32_t cell = cell_of(l, record[OLDEST + 2 * queue]);
    for (uint32_t met = 0; met < l->n; met++) {
        if (!leaving_in_range(l, cell, port))
            return false;
        if (cell == record[YOUNGEST + 2 * queue])
            return true;
        cell = cell_of(l, cell_record(l, cell)[BEHIND + port]);
    }
    return true;
}

/* Once for each frame and at most n times: how often. Fields that an earlier leaving put out of range stay as they are. */
static uint32_t drain_queue(const struct lent *l, uint32_t port, uint32_t queue)
{
    const uint32_t *record = port_record(l, port);
    uint32_t times = 0;
    for (; times < l->n && (record[WAITING] >> queue & 1) != 0; times++) {
        uint32_t cell = cell_of(l, record[OLDEST + 2 * queue]);
        if (leaving_in_range(l, cell, port))
            leave_cells(l, cell, port);
        leave_queue(l, cell, port, queue);
        count(l, port, DRAINED);
    }
    return times;
}

gufhrandi_answer foretell_drain(const struct lent *l, uint32_t port)
{
    if (port_record(l, port)[WAITING] > 15)
        return refused(10);
    for (uint32_t queue = 0; queue < 4; queue++)
        if (!list_in_range(l, port, queue))
            return refused(10);
    uint32_t copies = 0;
    for (uint32_t queue = 4; queue-- > 0;)
        copies += drain_queue(l, port, queue);
    return done(copies, 0);
}
