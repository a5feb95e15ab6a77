/* Fresh switches, random calls, values written into every kind of field of docs/LAYOUT.md, then every call with random
 * arguments and lengths. Lent memory ends at a page that cannot be read; what a call may only read is lent in a view that
 * cannot be written. Answers and memories are held to what the papers foretell (foretold.h). The last line is
 * 'N passed, M failed': one for each property of each call, not one for each call made.
 *
 *   damage [--seed S] [--calls N] [--spoil WAY]
 *
 * With --spoil every hundredth call does wrong in a way of spoil.c: the run has to fail. */
#define _GNU_SOURCE
#include "fields.h"
#include "heavy.h"
#include "judge.h"
#include "random.h"
#include "report.h"
#include "spoil.h"

#include <inttypes.h>
#include <stdio.h>
#include <stdlib.h>
#include <string.h>
#include <unistd.h>

uint64_t random_state;

static unsigned long switches, outside_changed;

/* Calls that build up traffic come more often, and those that follow chains and lists. */
static enum call some_call(void)
{
    if (one_in(150))
        return FRESH;
    if (one_in(2))
        return one_in(3) ? TAKE : FRAME_IN;
    enum call call = 1 + below(CALLS - 1);
    return call == DRAIN && !damaged && one_in(2) ? FRAME_IN : call;
}

static void call_once(enum call call)
{
    struct request r = random_request(call);
    make_call(&r);
}

static void some_calls(uint32_t count)
{
    for (; count > 0; count--)
        call_once(some_call());
}

/* A fresh call on memories that hold anything. */
static void make_switch(uint32_t count)
{
    struct request fresh = {.call = FRESH, .length = {GUFHRANDI_CELL * count, 1024 + 20 * count, GUFHRANDI_PLACES}};
    for (int i = CELLS; i <= ADDRESSES; i++) {
        set_length(&memories[i], fresh.length[i]);
        scramble(&memories[i]);
    }
    damaged = true;
    make_call(&fresh);
}

/* Some fields, or whole kinds of them. */
static void damage(void)
{
    damaged = true;
    if (one_in(3))
        damage_heavily();
    else
        for (uint32_t fields = 1 + below(one_in(3) ? 12 : 3); fields > 0; fields--)
            damage_a_field();
}

static void one_switch(void)
{
    static const uint32_t counts[] = {64, 65, 64, 100, 64, 200, 64, 128, 64, 66, 64, 2048, 64, 80, 64, 2047};
    uint32_t count = counts[switches++ % (sizeof counts / sizeof *counts)];
    /* A large switch takes long to compare, so it gets fewer calls. */
    uint32_t share = count < 1000 ? 4 : 1;
    make_switch(count);
    if (one_in(4))
        for (int i = 0; i < 40; i++)
            call_once(VLAN);
    some_calls(10 + below(60 * share));
    for (uint32_t rounds = below(6 * share); rounds > 0; rounds--) {
        damage();
        if (one_in(2))
            call_once(DRAIN);
        some_calls(5 + below(40));
    }
    for (int i = CELLS; i <= ADDRESSES; i++)
        outside_changed += !guard_kept(&memories[i], memories[i].length, true);
}

static void check_link_words(void)
{
    bool right = true;
    for (uint64_t count = 0; count < 5000; count++)
        right &= gufhrandi_link_words((uint32_t)count) == (count < 64 || count > 2048 ? 0 : 1024 + 20 * count);
    for (int i = 0; i < 10000; i++) {
        uint32_t count = (uint32_t)random_number() | 4096u;
        right &= gufhrandi_link_words(count) == 0;
    }
    right &= gufhrandi_link_words(0xFFFFFFFFu) == 0;
    check(right, "link words of every count", "");
}

int main(int argc, char **argv)
{
    uint64_t seed = 20260101;
    unsigned long wanted = 200000;
    bool understood = argc % 2 == 1;
    for (int i = 1; i + 1 < argc; i += 2) {
        if (strcmp(argv[i], "--seed") == 0)
            seed = strtoull(argv[i + 1], NULL, 10);
        else if (strcmp(argv[i], "--calls") == 0)
            wanted = strtoul(argv[i + 1], NULL, 10);
        else
            understood &= strcmp(argv[i], "--spoil") == 0 && choose_spoil(argv[i + 1]);
    }
    if (!understood) {
        fprintf(stderr, "usage: damage [--seed S] [--calls N] [--spoil WAY]\n");
        return 2;
    }
    setvbuf(stdout, NULL, _IOLBF, 0);
    printf("seed %" PRIu64 "\n", seed);
    random_state = seed;
    make_memories();
    catch_faults();
    check_link_words();
    while (tally.calls < wanted)
        one_switch();
    alarm(0);
    printf("%lu calls on %lu switches, %lu of them on damaged memory\n", tally.calls, switches, tally.damaged_calls);
    report();
    check(outside_changed == 0, "at each switch's end nothing outside its memories had changed", "");
    return last_line() ? 0 : 1;
}
