/* The bench program's records over include/gufhrandi.h: reads records on standard input and prints the bench
 * program's lines; behind a take of length above 0 a space and the written bytes in hex. Each lent memory stands
 * between guard bytes, and the part of the take-out buffer behind the written one must keep its bytes: a fault of
 * that kind ends the run with status 3. */
#include <gufhrandi.h>
#include <stdio.h>
#include <stdlib.h>
#include <string.h>

enum { CELLS = 200, LINK_WORDS = GUFHRANDI_LINK_WORDS(CELLS), GUARD = 64, OUT = 5000, LONGEST = 5000 };

static struct { uint8_t before[GUARD], bytes[GUFHRANDI_CELL_BYTES(CELLS)], behind[GUARD]; } cells;
static struct { uint8_t before[GUARD]; uint32_t words[LINK_WORDS]; uint8_t behind[GUARD]; } links;
static struct { uint8_t before[GUARD]; uint64_t numbers[GUFHRANDI_PLACES]; uint8_t behind[GUARD]; } addresses;
static struct { uint8_t before[GUARD], bytes[OUT], behind[GUARD]; } out;
static uint8_t record[65536];

#define LENT cells.bytes, sizeof cells.bytes, links.words, LINK_WORDS, addresses.numbers, GUFHRANDI_PLACES
#define LINKS links.words, LINK_WORDS
#define ADDRESSES addresses.numbers, GUFHRANDI_PLACES

static int kept(const uint8_t *bytes, size_t count, uint8_t value)
{
    for (size_t i = 0; i < count; i++)
        if (bytes[i] != value)
            return 0;
    return 1;
}

static int guards_kept(void)
{
    return kept(cells.before, GUARD, 0xA5) && kept(cells.behind, GUARD, 0xA5) && kept(links.before, GUARD, 0xA5)
        && kept(links.behind, GUARD, 0xA5) && kept(addresses.before, GUARD, 0xA5) && kept(addresses.behind, GUARD, 0xA5)
        && kept(out.before, GUARD, 0xA5) && kept(out.behind, GUARD, 0xA5);
}

static uint32_t two(const uint8_t *b) { return b[0] + 256u * b[1]; }

/* the seven numbers of an operation of 8 bytes */
#define OPERATION(b) (b)[0], (b)[1], (b)[2], (b)[3], two((b) + 4), (b)[6], (b)[7]

/* "bench program only: bad record" */
enum { BAD_RECORD = 11 };

static gufhrandi_answer bad(void) { return (gufhrandi_answer){BAD_RECORD, 0, 0}; }

/* sizes of bodies by kind; frame-in has any from 1 on */
static const int size_of[14] = {-1, -1, 1, 0, 2, 16, 12, 2, 8, 7, 2, 3, 1, 1};

static gufhrandi_answer call(uint32_t kind, const uint8_t *b, size_t n)
{
    if (kind < 1 || kind > 13 || (kind == 1 ? n < 1 : n != (size_t)size_of[kind]))
        return bad();
    switch (kind) {
    case 1: return gufhrandi_frame_in(LENT, b[0], b + 1, n - 1);
    case 2: return gufhrandi_take(cells.bytes, sizeof cells.bytes, LINKS, b[0], out.bytes, OUT);
    case 3: return gufhrandi_age(ADDRESSES);
    case 4: return gufhrandi_counter(LINKS, b[0], b[1]);
    case 5: return gufhrandi_port(LINKS, b[0], b[1], b[2], two(b + 3), b[5], b[6], b[7], OPERATION(b + 8));
    case 6: return gufhrandi_vlan(LINKS, two(b), b[2], b[3], OPERATION(b + 4));
    case 7: return gufhrandi_clear_vlan(LINKS, two(b));
    case 8: return gufhrandi_set_static(ADDRESSES, b[0], b[1], gufhrandi_address(b + 2));
    case 9: return gufhrandi_remove(ADDRESSES, b[0], gufhrandi_address(b + 1));
    case 10: return gufhrandi_map(LINKS, b[0], b[1]);
    case 11: return gufhrandi_queue_switch(LINKS, b[0], b[1], b[2]);
    case 12: return gufhrandi_drain(LINKS, b[0]);
    default: return gufhrandi_bpdu(LINKS, b[0]);
    }
}

static int line(unsigned long number, uint32_t kind, gufhrandi_answer a)
{
    if (a.refusal != GUFHRANDI_DONE) {
        printf("%lu %u refused %u\n", number, kind, a.refusal);
        return 1;
    }
    printf("%lu %u ok %u %u", number, kind, a.x, a.y);
    if (kind == 2 && a.x > 0) {
        putchar(' ');
        for (uint32_t i = 0; i < a.x; i++)
            printf("%02x", out.bytes[i]);
        if (a.x > OUT || !kept(out.bytes + a.x, OUT - a.x, 0x5A))
            return 0;
    }
    putchar('\n');
    return 1;
}

int main(void)
{
    memset(&cells, 0xA5, sizeof cells);
    memset(&links, 0xA5, sizeof links);
    memset(&addresses, 0xA5, sizeof addresses);
    memset(&out, 0xA5, sizeof out);
    if (gufhrandi_link_words(CELLS) != LINK_WORDS || gufhrandi_fresh(LENT).refusal != GUFHRANDI_DONE)
        return 3;
    for (unsigned long number = 1;; number++) {
        uint8_t head[2];
        size_t got = fread(head, 1, 2, stdin);
        if (got == 0)
            return 0;
        size_t length = got == 2 ? two(head) : 0;
        if (length < 2 || fread(record, 1, length, stdin) != length) {
            line(number, 0, bad());
            return 0;
        }
        uint32_t kind = two(record);
        memset(out.bytes, 0x5A, OUT);
        if (!line(number, kind, length > LONGEST ? bad() : call(kind, record + 2, length - 2)) || !guards_kept()) {
            fflush(stdout);
            fprintf(stderr, "record %lu: memory outside what was lent has changed\n", number);
            return 3;
        }
    }
}
