/* What a run says at its end: one line passed for each property of each call, not one for each call made. */
#include "report.h"

#include "fields.h"
#include "judge.h"

#include <stdio.h>

static int passed, failed;

void check(bool holds, const char *words, const char *more)
{
    passed += holds;
    failed += !holds;
    if (!holds)
        printf("FAILED: %s%s\n", words, more);
}

bool last_line(void)
{
    printf("%d passed, %d failed\n", passed, failed);
    return failed == 0;
}

static void print_row(const char *name, const unsigned long *refusals)
{
    printf("  %-14s", name);
    for (int refusal = 0; refusal <= 10; refusal++)
        printf("%8lu", refusals[refusal]);
    printf("\n");
}

static void report_refusals(void)
{
    unsigned long numbers[11], came[11] = {0};
    for (int refusal = 0; refusal <= 10; refusal++) {
        numbers[refusal] = (unsigned long)refusal;
        for (int call = 0; call < CALLS; call++)
            came[refusal] += tally.refusals[call][refusal];
    }
    printf("answers by refusal:\n");
    print_row("", numbers);
    for (int call = 0; call < CALLS; call++)
        print_row(call_facts[call].name, tally.refusals[call]);
    print_row("all", came);
    for (int refusal = 1; refusal <= 10; refusal++) {
        char number[16];
        snprintf(number, sizeof number, "%d", refusal);
        check(came[refusal] > 0, "some call was refused with ", number);
    }
}

static void report_outcomes(void)
{
    bool all = true;
    printf("outcomes of frames, 0 to 13:\n ");
    for (int outcome = 0; outcome <= 13; outcome++) {
        printf(" %lu", tally.outcomes[outcome]);
        all &= tally.outcomes[outcome] > 0;
    }
    printf("\n");
    check(all, "every outcome of a frame came", "");
}

static void report_properties(enum call call)
{
    char name[32];
    snprintf(name, sizeof name, "%s ", call_facts[call].name);
    for (int property = 0; property < PROPERTIES; property++)
        check(tally.broken[call][property] == 0, name, property_words[property]);
    bool all = tally.refusals[call][0] > 0;
    for (int refusal = 1; refusal <= 10; refusal++)
        all &= (call_facts[call].refusals >> refusal & 1) == (tally.refusals[call][refusal] > 0);
    check(all, name, "was done, and met each refusal that it can give and no other");
}

void report(void)
{
    check(report_fields() == 0, "every class of field was written", "");
    report_refusals();
    report_outcomes();
    for (int call = 0; call < CALLS; call++)
        report_properties(call);
    check(tally.tens_undamaged == 0, "no refusal 10 before memory was damaged", "");
}
