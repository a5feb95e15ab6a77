/* speed MODE LENGTH PORTS ADDRESSES CELLS TURNS [KIND]: one turn is a frame in and its takes. MODE: `switch`, the library; `cells`, plain C
 * that copies a frame into 80-byte cells and out again for each port, without switching; `copy`, a memcpy in and out; `none`, the loop alone.
 * PORTS is 1 (a known address) or 2 to 4 (a broadcast in a VLAN of port 0 and that many others). CELLS is the switch's cell count.
 * KIND: `plain`, an untagged frame that leaves as it came; `tagged`, one tag of VID 1; `twice`, two tags; `push`, `pop`, `swap`: an untagged or
 * tagged frame that leaves by ports with that operation; `group`, a group address that is no broadcast; `dropped`, a tag of a VID without a
 * VLAN. bench/run counts the instructions of two lengths of run and divides the difference. */
#include <gufhrandi.h>
#include <stdio.h>
#include <stdlib.h>
#include <string.h>

enum { CELLS = GUFHRANDI_MOST_CELLS };

static uint8_t cells[GUFHRANDI_CELL_BYTES(CELLS)];
static uint32_t links[GUFHRANDI_LINK_WORDS(CELLS)];
static size_t cell_bytes, link_words;
static uint64_t addresses[GUFHRANDI_PLACES];
static uint8_t frame[4096], out[4096];
static unsigned long sum;

#define LENT cells, cell_bytes, links, link_words, addresses, GUFHRANDI_PLACES

/* ---- plain cells: a free list by next numbers, a count of ports in the first cell */

static uint16_t next_cell[CELLS], first_free;
static uint8_t left[CELLS];

static void start_cells(void)
{
    for (int c = 0; c < CELLS; c++)
        next_cell[c] = (uint16_t)(c + 1);
}

static uint16_t store_cells(const uint8_t *from, size_t length, uint32_t ports)
{
    uint16_t first = first_free, at = first;
    uint16_t header[4] = {(uint16_t)length, 0, 0, 0};
    size_t room = GUFHRANDI_CELL - sizeof header;
    memcpy(cells + GUFHRANDI_CELL * at, header, sizeof header);
    size_t part = length < room ? length : room;
    memcpy(cells + GUFHRANDI_CELL * at + sizeof header, from, part);
    for (size_t done = part; done < length; done += part) {
        at = next_cell[at];
        part = length - done < GUFHRANDI_CELL ? length - done : GUFHRANDI_CELL;
        memcpy(cells + GUFHRANDI_CELL * at, from + done, part);
    }
    first_free = next_cell[at];
    left[first] = (uint8_t)ports;
    return first;
}

static size_t load_cells(uint16_t first, uint8_t *to)
{
    uint16_t header[4], at = first;
    memcpy(header, cells + GUFHRANDI_CELL * at, sizeof header);
    size_t length = header[0], room = GUFHRANDI_CELL - sizeof header;
    size_t part = length < room ? length : room;
    memcpy(to, cells + GUFHRANDI_CELL * at + sizeof header, part);
    for (size_t done = part; done < length; done += part) {
        at = next_cell[at];
        part = length - done < GUFHRANDI_CELL ? length - done : GUFHRANDI_CELL;
        memcpy(to + done, cells + GUFHRANDI_CELL * at, part);
    }
    if (--left[first] == 0) {
        next_cell[at] = first_free;
        first_free = first;
    }
    return length;
}

/* ---- one turn of each mode */

static void by_switch(size_t length, uint32_t ports)
{
    sum += gufhrandi_frame_in(LENT, 0, frame, length).y;
    for (uint32_t port = 1; port <= ports; port++)
        sum += gufhrandi_take(cells, cell_bytes, links, link_words, port, out, sizeof out).x;
}

static void by_cells(size_t length, uint32_t ports)
{
    uint16_t first = store_cells(frame, length, ports);
    for (uint32_t port = 1; port <= ports; port++)
        sum += load_cells(first, out);
}

static void by_copy(size_t length, uint32_t ports)
{
    memcpy(cells, frame, length);
    __asm__ volatile("" ::: "memory");
    for (uint32_t port = 1; port <= ports; port++) {
        memcpy(out, cells, length);
        __asm__ volatile("" ::: "memory");
    }
    sum += length;
}

static void by_none(size_t length, uint32_t ports) { sum += length + ports; }

static void address(uint8_t *at, unsigned long number)
{
    memset(at, 0, 6);
    at[0] = 2;
    at[4] = (uint8_t)(number / 256);
    at[5] = (uint8_t)(number % 256);
}

static void tag(uint8_t *at, uint32_t vid)
{
    at[0] = 0x81, at[1] = 0x00;
    at[2] = (uint8_t)(vid / 256), at[3] = (uint8_t)(vid % 256);
}

/* What a kind's departing ports do; a new tag has VID 20. */
static gufhrandi_port_settings departing_port(const char *kind)
{
    gufhrandi_port_settings settings = gufhrandi_fresh_port();
    settings.operation.kind = !strcmp(kind, "pop")    ? GUFHRANDI_OPERATION_POP
                              : !strcmp(kind, "push") ? GUFHRANDI_OPERATION_PUSH
                              : !strcmp(kind, "swap") ? GUFHRANDI_OPERATION_SWAP
                                                      : GUFHRANDI_OPERATION_NONE;
    settings.operation.vid = 20;
    return settings;
}

int main(int count, char **words)
{
    if (count != 7 && count != 8)
        return 2;
    const char *mode = words[1], *kind = count == 8 ? words[7] : "plain";
    size_t length = strtoul(words[2], NULL, 10);
    uint32_t ports = (uint32_t)strtoul(words[3], NULL, 10);
    unsigned long known = strtoul(words[4], NULL, 10), turns = strtoul(words[6], NULL, 10);
    uint32_t cell_count = (uint32_t)strtoul(words[5], NULL, 10);
    link_words = gufhrandi_link_words(cell_count);
    cell_bytes = GUFHRANDI_CELL_BYTES((size_t)cell_count);
    void (*turn)(size_t, uint32_t) = !strcmp(mode, "switch") ? by_switch : !strcmp(mode, "cells") ? by_cells
                                   : !strcmp(mode, "copy") ? by_copy : by_none;
    if (length < GUFHRANDI_SHORTEST || length > GUFHRANDI_LONGEST || ports < 1 || ports > 4 || known < 1 || link_words == 0)
        return 2;
    start_cells();
    if (turn == by_switch) {
        if (gufhrandi_fresh(LENT).refusal != GUFHRANDI_DONE)
            return 1;
        for (unsigned long a = 0; a < known; a++) {
            address(frame, 0xFFFF);
            address(frame + 6, a);
            if (gufhrandi_frame_in(LENT, 1, frame, GUFHRANDI_SHORTEST).refusal != GUFHRANDI_DONE)
                return 1;
            for (uint32_t port = 0; port < GUFHRANDI_PORTS; port++)
                gufhrandi_drain(links, link_words, port);
        }
        if (1 < ports
            && gufhrandi_set_vlan(links, link_words, gufhrandi_plain_vlan(1, (2u << ports) - 1, 0)).refusal != GUFHRANDI_DONE)
            return 1;
        gufhrandi_port_settings departing = departing_port(kind);
        for (uint32_t port = 1; departing.operation.kind != GUFHRANDI_OPERATION_NONE && port < GUFHRANDI_PORTS; port++)
            if (gufhrandi_set_port(links, link_words, port, departing).refusal != GUFHRANDI_DONE)
                return 1;
    }
    address(frame + 6, 0xFFFE);
    if (!strcmp(kind, "tagged") || !strcmp(kind, "twice") || !strcmp(kind, "pop") || !strcmp(kind, "swap"))
        tag(frame + 12, 1);
    if (!strcmp(kind, "twice"))
        tag(frame + 16, 2);
    if (!strcmp(kind, "dropped"))
        tag(frame + 12, 77);
    uint8_t several[6];
    memset(several, 0xFF, 6);
    if (!strcmp(kind, "group"))
        address(several, 1), several[0] = 1;
    for (unsigned long i = 0; i < turns; i++) {
        if (1 < ports)
            memcpy(frame, several, 6);
        else
            address(frame, i % known);
        turn(length, ports);
    }
    printf("%lu\n", sum);
    return 0;
}
