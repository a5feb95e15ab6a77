/* Lent memories that end exactly at a page that cannot be read. Pages may have up to 64 KiB. */
#define _GNU_SOURCE
#include "memory.h"

#include "random.h"

#include <stdio.h>
#include <stdlib.h>
#include <string.h>
#include <sys/mman.h>
#include <unistd.h>

enum { PAGE = 65536, MOST_CELLS = 2049 };

struct memory memories[MEMORIES] = {
    [CELLS] = {.name = "cell memory", .element = 1, .most = 80 * MOST_CELLS},
    [LINKS] = {.name = "link memory", .element = 4, .most = 1024 + 20 * MOST_CELLS},
    [ADDRESSES] = {.name = "address memory", .element = 8, .most = 4113},
    [FRAME] = {.name = "the frame", .element = 1, .most = 70000},
    [BUFFER] = {.name = "the take-out buffer", .element = 1, .most = 6000},
};

static void *must(void *mapped, const char *what)
{
    if (mapped == MAP_FAILED || mapped == NULL) {
        perror(what);
        exit(2);
    }
    return mapped;
}

/* The end of a view of a file, with a page behind it that cannot be read. */
static uint8_t *view(int file, size_t room, int protection)
{
    uint8_t *place = must(mmap(NULL, room + 2 * PAGE, PROT_NONE, MAP_PRIVATE | MAP_ANONYMOUS, -1, 0), "mmap");
    uint8_t *begin = place + (PAGE - (uintptr_t)place % PAGE) % PAGE;
    must(mmap(begin, room, protection, MAP_SHARED | MAP_FIXED, file, 0), "mmap of a view");
    return begin + room;
}

/* These go by words of eight bytes and write where something differs: an emulator is slow at the C library's copying. */

static bool same(const uint8_t *a, const uint8_t *b, size_t bytes)
{
    uint64_t differing = 0, x, y;
    for (; bytes >= sizeof x; bytes -= sizeof x, a += sizeof x, b += sizeof x) {
        memcpy(&x, a, sizeof x);
        memcpy(&y, b, sizeof y);
        differing |= x ^ y;
    }
    return differing == 0 && memcmp(a, b, bytes) == 0;
}

static void copy(uint8_t *to, const uint8_t *from, size_t bytes)
{
    uint64_t x, y;
    for (; bytes >= sizeof x; bytes -= sizeof x, to += sizeof x, from += sizeof x) {
        memcpy(&x, from, sizeof x);
        memcpy(&y, to, sizeof y);
        if (x != y)
            memcpy(to, &x, sizeof x);
    }
    memcpy(to, from, bytes);
}

static void fill(uint8_t *to, uint8_t value, size_t bytes)
{
    uint64_t x = 0x0101010101010101u * value, y;
    for (; bytes >= sizeof x; bytes -= sizeof x, to += sizeof x) {
        memcpy(&y, to, sizeof y);
        if (x != y)
            memcpy(to, &x, sizeof x);
    }
    memset(to, value, bytes);
}

void make_memories(void)
{
    for (struct memory *m = memories; m < memories + MEMORIES; m++) {
        m->room = (bytes_of(m, m->most) + GUARD + PAGE - 1) / PAGE * PAGE;
        int file = memfd_create(m->name, 0);
        if (file < 0 || ftruncate(file, (off_t)m->room) != 0) {
            perror("memfd_create");
            exit(2);
        }
        m->end = view(file, m->room, PROT_READ | PROT_WRITE);
        m->fixed_end = view(file, m->room, PROT_READ);
        m->copy_end = (uint8_t *)must(malloc(m->room), "malloc") + m->room;
        close(file);
    }
}

void set_length(struct memory *m, size_t length)
{
    m->length = length;
    size_t before = m->room - bytes_of(m, length);
    fill(m->end - m->room, GUARD_BYTE, before);
    fill(m->copy_end - m->room, GUARD_BYTE, before);
    remember(m, length);
}

void lay_out(struct memory *m, size_t length, uint8_t value)
{
    size_t bytes = bytes_of(m, length);
    m->length = length;
    fill(m->end - bytes - GUARD, GUARD_BYTE, GUARD);
    fill(m->end - bytes, value, bytes);
    remember(m, length);
    fill(m->copy_end - bytes - GUARD, GUARD_BYTE, GUARD);
}

void scramble(struct memory *m)
{
    uint8_t *from = m->end - bytes_of(m, m->length);
    for (size_t i = 0; i < bytes_of(m, m->length); i += 8) {
        uint64_t number = random_number();
        size_t left = bytes_of(m, m->length) - i;
        memcpy(from + i, &number, left < 8 ? left : 8);
    }
    remember(m, m->length);
}

void remember(struct memory *m, size_t length)
{
    copy(m->copy_end - bytes_of(m, length), m->end - bytes_of(m, length), bytes_of(m, length));
}

bool guard_kept(const struct memory *m, size_t lent_length, bool all)
{
    size_t lent = bytes_of(m, lent_length), own = bytes_of(m, m->length);
    size_t from = all ? m->room : (own > lent ? own : lent) + GUARD;
    if (from > m->room)
        from = m->room;
    return same(m->end - from, m->copy_end - from, from - lent);
}

bool as_copied(const struct memory *m, size_t lent_length)
{
    size_t lent = bytes_of(m, lent_length);
    return same(m->end - lent, m->copy_end - lent, lent);
}
