/* A call, and all that has to hold after it. */
#define _GNU_SOURCE
#include "judge.h"

#include "foretold.h"
#include "spoil.h"

#include <inttypes.h>
#include <setjmp.h>
#include <signal.h>
#include <stdio.h>
#include <string.h>
#include <unistd.h>

const char *const property_words[PROPERTIES] = {
    [NO_FAULT] = "ends, and touches nothing that was not lent",
    [GUARDS_KEPT] = "keeps every byte before what was lent",
    [REFUSED_KEEPS_ALL] = "refused, changes no byte that was lent; done, none of what it may only read",
    [LINE_HOLDS] = "is refused exactly as the papers say",
    [ANSWER_IN_RANGE] = "answers numbers in range, zeros if refused",
    [FORETOLD] = "answers and writes exactly what the papers foretell",
};

struct tally tally;
bool damaged;
static sigjmp_buf before_call;
static volatile sig_atomic_t in_call;

/* A fault outside a call is this program's own. */
static void caught(int number)
{
    if (in_call)
        siglongjmp(before_call, number);
    signal(number, SIG_DFL);
    raise(number);
}

/* 256 calls take far less than a second. */
static void wait_no_longer(void) { alarm(20); }

void catch_faults(void)
{
    const int numbers[] = {SIGSEGV, SIGBUS, SIGILL, SIGFPE, SIGABRT, SIGTRAP, SIGALRM};
    for (size_t i = 0; i < sizeof numbers / sizeof *numbers; i++)
        signal(numbers[i], caught);
    wait_no_longer();
}

/* Every hundredth call does wrong, or the next one that gives an occasion. */
static void spoil_some(const struct request *r, gufhrandi_answer *a)
{
    static bool due;
    due |= spoils() && tally.calls % 100 == 0;
    if (due) {
        due = false; /* some ways of doing wrong don't come back */
        due = !do_wrong(r, a);
    }
}

/* The call's answer; false: a signal came in its place. */
static bool answered(const struct request *r, gufhrandi_answer *a)
{
    if (tally.calls % 256 == 0)
        wait_no_longer();
    int number = sigsetjmp(before_call, 1);
    in_call = number == 0;
    if (number != 0) {
        printf("signal %d: %s\n", number, strsignal(number));
        wait_no_longer();
        return false;
    }
    *a = perform(r);
    spoil_some(r, a);
    in_call = false;
    return true;
}

static enum lending lending(const struct request *r, int i) { return call_facts[r->call].lending[i]; }

static bool guards_kept(const struct request *r)
{
    bool kept = true;
    for (int i = 0; i < MEMORIES; i++)
        if (lending(r, i) != NOT_LENT)
            kept &= guard_kept(&memories[i], r->length[i], false);
    return kept;
}

/* What was lent is as the copies have it: what the call may only read, or all. */
static bool lent_as_copied(const struct request *r, bool all)
{
    bool alike = true;
    for (int i = 0; i < MEMORIES; i++)
        if (lending(r, i) == TO_READ || (lending(r, i) == TO_WRITE && all))
            alike &= as_copied(&memories[i], r->length[i]);
    return alike;
}

/* The answer of a call that was done is one that this call can give. */
static bool done_in_range(enum call call, gufhrandi_answer a)
{
    switch (call) {
    case FRAME_IN: return a.x <= 13 && a.y <= 31 && (a.x == 0) == (a.y != 0);
    case TAKE: return (a.x == 0 && a.y == 0) || (60 <= a.x && a.x <= GUFHRANDI_LARGEST && a.y <= 3);
    case AGE: return a.x <= GUFHRANDI_PLACES && a.y == 0;
    case COUNTER: return a.y == 0;
    case DRAIN: return a.x <= 4 * 2048 && a.y == 0;
    default: return a.x == 0 && a.y == 0;
    }
}

static bool in_range(enum call call, gufhrandi_answer a)
{
    return a.refusal == 0 ? done_in_range(call, a) : a.refusal <= 10 && a.x == 0 && a.y == 0;
}

/* Where a memory is not as foretold: its first such element. */
static void tell_difference(const struct request *r, int i)
{
    const struct memory *m = &memories[i];
    size_t lent = bytes_of(m, r->length[i]), at = 0;
    const uint8_t *is = m->end - lent, *foretold = m->copy_end - lent;
    while (at < lent && is[at] == foretold[at])
        at++;
    if (at == lent)
        return;
    at -= at % m->element;
    uint64_t first = 0, second = 0;
    memcpy(&first, is + at, m->element);
    memcpy(&second, foretold + at, m->element);
    printf("  %s, element %zu: 0x%" PRIx64 ", foretold 0x%" PRIx64 "\n", m->name, at / m->element, first, second);
}

static void tell(const struct request *r, enum property property, gufhrandi_answer a, gufhrandi_answer f)
{
    if (tally.broken[r->call][property]++ >= 3)
        return;
    printf("call %lu, %s with %zu bytes, %zu words, %zu numbers, port %" PRIu32 ": not so: %s\n", tally.calls,
           call_facts[r->call].name, r->length[CELLS], r->length[LINKS], r->length[ADDRESSES], r->port,
           property_words[property]);
    printf("  it answered %" PRIu32 " %" PRIu32 " %" PRIu32 ", foretold %" PRIu32 " %" PRIu32 " %" PRIu32 "\n", a.refusal,
           a.x, a.y, f.refusal, f.x, f.y);
    for (int i = 0; property == FORETOLD && i < MEMORIES; i++)
        if (lending(r, i) != NOT_LENT)
            tell_difference(r, i);
}

static bool same_answer(gufhrandi_answer a, gufhrandi_answer b)
{
    return a.refusal == b.refusal && a.x == b.x && a.y == b.y;
}

/* All but NO_FAULT and GUARDS_KEPT. True: the copies are again as the memories. */
static bool judge(const struct request *r, gufhrandi_answer a)
{
    bool kept = lent_as_copied(r, a.refusal != 0);
    gufhrandi_answer f = foretell(r);
    bool written = lent_as_copied(r, true);
    if (!kept)
        tell(r, REFUSED_KEEPS_ALL, a, f);
    if (a.refusal != f.refusal)
        tell(r, LINE_HOLDS, a, f);
    if (!in_range(r->call, a))
        tell(r, ANSWER_IN_RANGE, a, f);
    if (!same_answer(a, f) || !written)
        tell(r, FORETOLD, a, f);
    return written;
}

static void count_answer(enum call call, gufhrandi_answer a)
{
    tally.refusals[call][a.refusal <= 10 ? a.refusal : 11]++;
    tally.tens_undamaged += !damaged && a.refusal == 10;
    if (call == FRAME_IN && a.refusal == 0 && a.x <= 13)
        tally.outcomes[a.x]++;
}

void make_call(const struct request *r)
{
    gufhrandi_answer a = {99, 0, 0};
    tally.calls++;
    tally.damaged_calls += damaged;
    bool ended = answered(r, &a), alike = false;
    if (!guards_kept(r))
        tell(r, GUARDS_KEPT, a, a);
    if (ended) {
        count_answer(r->call, a);
        alike = judge(r, a);
    } else {
        tell(r, NO_FAULT, a, a);
    }
    for (int i = 0; i < MEMORIES && !alike; i++)
        if (lending(r, i) != NOT_LENT)
            remember(&memories[i], r->length[i]);
    if (r->call == FRESH && a.refusal == 0) {
        for (int i = CELLS; i <= ADDRESSES; i++)
            set_length(&memories[i], r->length[i]);
        damaged = false;
    }
}
