/* Every helper of include/gufhrandi.h, and its names, held to what the archive does. It is written in what C99 and
 * C++11 have in common, and compiled as both. The last line is 'N passed, M failed'. */
#include <gufhrandi.h>
#include <stdio.h>
#include <string.h>

#define COUNT 64
#define LINKS links, GUFHRANDI_LINK_WORDS(COUNT)
#define ADDRESSES addresses, GUFHRANDI_PLACES

static uint8_t cells[GUFHRANDI_CELL_BYTES(COUNT)];
static uint32_t links[GUFHRANDI_LINK_WORDS(COUNT)], other_links[GUFHRANDI_LINK_WORDS(COUNT)];
static uint64_t addresses[GUFHRANDI_PLACES];
static uint8_t out[GUFHRANDI_LARGEST];
static uint8_t frame[GUFHRANDI_LONGEST + 1];

/* A mask in a table, as only a constant can stand there. */
static const uint32_t few_ports =
    GUFHRANDI_MASK(0) | GUFHRANDI_MASK(2) | GUFHRANDI_MASK(GUFHRANDI_MANAGEMENT_PORT);

static int passed, failed;

static void check(const char *words, int good)
{
    if (good)
        passed++;
    else
        failed++;
    printf("%s: %s\n", good ? "ok" : "FAILED", words);
}

static uint32_t fresh(void)
{
    return gufhrandi_fresh(cells, sizeof cells, LINKS, ADDRESSES).refusal;
}

/* ---- frames: from 02:00:00:00:00:01 to 02:00:00:00:00:02, with tags 0x8100 of these headers */

static size_t build(size_t tags, uint32_t outermost, uint32_t second)
{
    const uint32_t header[2] = {outermost, second};
    size_t i;
    memset(frame, 0, sizeof frame);
    frame[0] = frame[6] = 2;
    frame[5] = 2;
    frame[11] = 1;
    for (i = 0; i < tags; i++) {
        frame[12 + 4 * i] = 0x81;
        frame[14 + 4 * i] = (uint8_t)(header[i] >> 8);
        frame[15 + 4 * i] = (uint8_t)(header[i] & 255);
    }
    return GUFHRANDI_SHORTEST + 4 * tags;
}

static gufhrandi_answer arrive(uint32_t port, size_t length)
{
    return gufhrandi_frame_in(cells, sizeof cells, LINKS, ADDRESSES, port, frame, length);
}

static gufhrandi_answer take(uint32_t port)
{
    return gufhrandi_take(cells, sizeof cells, LINKS, port, out, sizeof out);
}

static uint32_t out_at(size_t place) { return out[place] * 256u + out[place + 1]; }

/* ---- version and sizes */

static void check_version(void)
{
    char parts[40];
    sprintf(parts, "%d.%d.%d", GUFHRANDI_VERSION_MAJOR, GUFHRANDI_VERSION_MINOR, GUFHRANDI_VERSION_PATCH);
    check("the version's text is of its three numbers", strcmp(parts, GUFHRANDI_VERSION) == 0);
}

static void check_sizes(void)
{
    uint32_t count;
    int same = 1;
    for (count = GUFHRANDI_FEWEST_CELLS; count <= GUFHRANDI_MOST_CELLS; count++)
        same &= gufhrandi_link_words(count) == GUFHRANDI_LINK_WORDS(count);
    check("GUFHRANDI_LINK_WORDS is gufhrandi_link_words, of every count", same);
    check("no count is below the fewest cells or above the most",
          gufhrandi_link_words(GUFHRANDI_FEWEST_CELLS - 1) == 0
              && gufhrandi_link_words(GUFHRANDI_MOST_CELLS + 1) == 0);
    check("memory of these sizes makes a fresh switch", fresh() == GUFHRANDI_DONE);
    check("one byte or one place fewer does not",
          gufhrandi_fresh(cells, sizeof cells - 1, LINKS, ADDRESSES).refusal
                  == GUFHRANDI_REFUSED_MEMORY_LENGTH
              && gufhrandi_fresh(cells, sizeof cells, LINKS, addresses, GUFHRANDI_PLACES - 1).refusal
                  == GUFHRANDI_REFUSED_MEMORY_LENGTH);
}

/* ---- numbers: the last good value, and the one behind it */

static void check_numbers(void)
{
    uint32_t vid;
    fresh();
    check("ports",
          gufhrandi_drain(LINKS, GUFHRANDI_PORTS - 1).refusal == GUFHRANDI_DONE
              && gufhrandi_drain(LINKS, GUFHRANDI_PORTS).refusal == GUFHRANDI_REFUSED_PORT_ABOVE_FOUR);
    check("queues and PCPs",
          gufhrandi_map(LINKS, GUFHRANDI_PCPS - 1, GUFHRANDI_QUEUES - 1).refusal == GUFHRANDI_DONE
              && gufhrandi_map(LINKS, GUFHRANDI_PCPS, 0).refusal == GUFHRANDI_REFUSED_OUT_OF_RANGE
              && gufhrandi_map(LINKS, 0, GUFHRANDI_QUEUES).refusal == GUFHRANDI_REFUSED_OUT_OF_RANGE);
    check("counters",
          gufhrandi_counter(LINKS, 0, GUFHRANDI_COUNTERS - 1).refusal == GUFHRANDI_DONE
              && gufhrandi_counter(LINKS, 0, GUFHRANDI_COUNTERS).refusal == GUFHRANDI_REFUSED_OUT_OF_RANGE);
    check("GIDs",
          gufhrandi_set_static(ADDRESSES, GUFHRANDI_GIDS - 1, 0, 2).refusal == GUFHRANDI_DONE
              && gufhrandi_set_static(ADDRESSES, GUFHRANDI_GIDS, 0, 2).refusal
                  == GUFHRANDI_REFUSED_OUT_OF_RANGE);
    check("VIDs",
          gufhrandi_clear_vlan(LINKS, GUFHRANDI_LAST_VID).refusal == GUFHRANDI_REFUSED_VLAN_NOT_THERE
              && gufhrandi_clear_vlan(LINKS, GUFHRANDI_LAST_VID + 1).refusal
                  == GUFHRANDI_REFUSED_OUT_OF_RANGE);
    for (vid = 2; vid <= GUFHRANDI_VLANS; vid++)
        if (gufhrandi_set_vlan(LINKS, gufhrandi_plain_vlan(vid, 0, 0)).refusal != GUFHRANDI_DONE)
            break;
    check("VLANs", vid == GUFHRANDI_VLANS + 1
                       && gufhrandi_set_vlan(LINKS, gufhrandi_plain_vlan(vid, 0, 0)).refusal
                           == GUFHRANDI_REFUSED_VLANS_IN_USE);
    check("switches",
          gufhrandi_bpdu(LINKS, GUFHRANDI_OFF).refusal == GUFHRANDI_DONE
              && gufhrandi_queue_switch(LINKS, 0, 0, GUFHRANDI_ON).refusal == GUFHRANDI_DONE
              && gufhrandi_bpdu(LINKS, GUFHRANDI_ON + 1).refusal == GUFHRANDI_REFUSED_OUT_OF_RANGE);
    check("the least buffer",
          take(0).refusal == GUFHRANDI_DONE
              && gufhrandi_take(cells, sizeof cells, LINKS, 0, out, GUFHRANDI_LARGEST - 1).refusal
                  == GUFHRANDI_REFUSED_SHORT_BUFFER);
    fresh();
    build(0, 0, 0);
    check("the shortest and the longest frame",
          arrive(0, GUFHRANDI_SHORTEST - 1).x == GUFHRANDI_DROPPED_SHORT
              && arrive(0, GUFHRANDI_SHORTEST).x == GUFHRANDI_QUEUED
              && arrive(0, GUFHRANDI_LONGEST).x == GUFHRANDI_QUEUED
              && arrive(0, GUFHRANDI_LONGEST + 1).x == GUFHRANDI_DROPPED_LONG);
    check("the counters' names",
          gufhrandi_counter(LINKS, 0, GUFHRANDI_COUNTER_OFFERED).x == 4
              && gufhrandi_counter(LINKS, 0, GUFHRANDI_COUNTER_ACCEPTED).x == 2
              && gufhrandi_counter(LINKS, 0, GUFHRANDI_COUNTER_SHORT).x == 1
              && gufhrandi_counter(LINKS, 0, GUFHRANDI_COUNTER_LONG).x == 1
              && gufhrandi_counter(LINKS, 1, GUFHRANDI_COUNTER_QUEUED).x == 2
              && take(1).x == GUFHRANDI_SHORTEST
              && gufhrandi_counter(LINKS, 1, GUFHRANDI_COUNTER_SENT).x == 1
              && gufhrandi_drain(LINKS, 1).x == 1
              && gufhrandi_counter(LINKS, 1, GUFHRANDI_COUNTER_DRAINED).x == 1);
}

/* Traffic with drops, takes and a drain, then the two sums of docs/DRIVER.md. */
static void check_sums(void)
{
    uint32_t number, sum = 0, waiting;
    size_t i;
    fresh();
    for (i = 0; i < 9; i++)
        arrive(0, build(i % 3, i < 6 ? 1 : 99, 0));
    arrive(0, GUFHRANDI_SHORTEST - 1);
    take(1);
    gufhrandi_drain(LINKS, 2);
    arrive(0, build(0, 0, 0));
    for (number = GUFHRANDI_COUNTER_SHORT; number <= GUFHRANDI_COUNTER_ACCEPTED; number++)
        sum += gufhrandi_counter(LINKS, 0, number).x;
    check("counter 0 is the sum of 1 to 14",
          sum == 11 && gufhrandi_counter(LINKS, 0, GUFHRANDI_COUNTER_OFFERED).x == sum);
    for (number = 1; number <= 2; number++) {
        waiting = gufhrandi_counter(LINKS, number, GUFHRANDI_COUNTER_QUEUED).x
            - gufhrandi_counter(LINKS, number, GUFHRANDI_COUNTER_SENT).x
            - gufhrandi_counter(LINKS, number, GUFHRANDI_COUNTER_DRAINED).x;
        for (i = 0; take(number).x != 0; i++)
            continue;
        check("queued less sent and drained is what waits", waiting > 0 && waiting == i);
    }
}

/* ---- settings by name */

static int links_are_same(void) { return memcmp(links, other_links, sizeof links) == 0; }

static void check_settings(void)
{
    gufhrandi_operation operation = gufhrandi_no_operation();
    gufhrandi_port_settings port = gufhrandi_fresh_port();
    gufhrandi_vlan_settings vlan = gufhrandi_plain_vlan(1, GUFHRANDI_ALL_PORTS, 0);

    fresh();
    memcpy(other_links, links, sizeof links);
    check("the settings of a fresh port, set, leave a fresh switch as it is",
          gufhrandi_set_port(LINKS, 3, port).refusal == GUFHRANDI_DONE && links_are_same());
    check("and so does a plain VLAN 1 of all ports",
          gufhrandi_set_vlan(LINKS, vlan).refusal == GUFHRANDI_DONE && links_are_same());

    operation.kind = GUFHRANDI_OPERATION_SWAP;
    operation.type = GUFHRANDI_TAG_88A8;
    operation.vid_source = GUFHRANDI_FROM_SECOND;
    operation.pcp_source = GUFHRANDI_FROM_GIVEN;
    operation.vid = 20;
    operation.pcp = 5;
    operation.dei = 0;
    port.state = GUFHRANDI_STATE_FORWARDING;
    port.assignment = GUFHRANDI_ASSIGN_SECOND;
    port.vid = 30;
    port.pcp = 6;
    port.dei = 1;
    port.flags = GUFHRANDI_BAR_UNTAGGED;
    port.operation = operation;
    vlan.vid = 40;
    vlan.members = 12;
    vlan.gid = 7;
    vlan.operation = operation;
    gufhrandi_set_port(LINKS, 3, port);
    memcpy(other_links, links, sizeof links);
    fresh();
    gufhrandi_port(LINKS, 3, 4, 2, 30, 6, 1, 1, 3, 1, 1, 2, 20, 5, 0);
    check("a port's settings by name are those by place", links_are_same());
    fresh();
    gufhrandi_set_vlan(LINKS, vlan);
    memcpy(other_links, links, sizeof links);
    fresh();
    gufhrandi_vlan(LINKS, 40, 12, 7, 3, 1, 1, 2, 20, 5, 0);
    check("a VLAN's settings by name are those by place", links_are_same());
}

/* The outcome of a frame that arrives at port 0 of a fresh switch whose port 0 is set so. */
static uint32_t outcome(gufhrandi_port_settings settings, size_t tags, uint32_t outermost, uint32_t second)
{
    fresh();
    gufhrandi_set_port(LINKS, 0, settings);
    return arrive(0, build(tags, outermost, second)).x;
}

static void check_states(void)
{
    static const uint32_t outcomes[5][2] = {{GUFHRANDI_STATE_DISABLED, GUFHRANDI_QUEUED},
                                            {GUFHRANDI_STATE_BLOCKING, GUFHRANDI_DROPPED_PORT_BLOCKING},
                                            {GUFHRANDI_STATE_LISTENING, GUFHRANDI_DROPPED_PORT_LISTENING},
                                            {GUFHRANDI_STATE_LEARNING, GUFHRANDI_DROPPED_PORT_LEARNING},
                                            {GUFHRANDI_STATE_FORWARDING, GUFHRANDI_QUEUED}};
    gufhrandi_port_settings port = gufhrandi_fresh_port();
    int good = 1;
    size_t i;
    for (i = 0; i < 5; i++) {
        port.state = outcomes[i][0];
        good &= outcome(port, 0, 0, 0) == outcomes[i][1];
    }
    check("each state does what its name says", good);
}

static void check_tags(void)
{
    gufhrandi_port_settings port = gufhrandi_fresh_port();
    port.flags = GUFHRANDI_BAR_UNTAGGED;
    check("untagged frames are barred",
          outcome(port, 0, 0, 0) == GUFHRANDI_DROPPED_TAG_COUNT && outcome(port, 1, 1, 0) == GUFHRANDI_QUEUED);
    port.flags = GUFHRANDI_BAR_ONE_TAG;
    check("frames of one tag are barred",
          outcome(port, 1, 1, 0) == GUFHRANDI_DROPPED_TAG_COUNT && outcome(port, 2, 1, 1) == GUFHRANDI_QUEUED);
    port.flags = GUFHRANDI_BAR_TWO_TAGS;
    check("frames of two tags are barred",
          outcome(port, 2, 1, 1) == GUFHRANDI_DROPPED_TAG_COUNT && outcome(port, 0, 0, 0) == GUFHRANDI_QUEUED);
    port.flags = 0;
    port.assignment = GUFHRANDI_ASSIGN_DEFAULT;
    check("the default VID is assigned", outcome(port, 2, 99, 4095) == GUFHRANDI_QUEUED);
    port.assignment = GUFHRANDI_ASSIGN_OUTERMOST;
    check("the outermost tag's VID is assigned", outcome(port, 2, 99, 4095) == GUFHRANDI_DROPPED_NO_VLAN);
    port.assignment = GUFHRANDI_ASSIGN_SECOND;
    check("the second tag's VID is assigned", outcome(port, 2, 99, 4095) == GUFHRANDI_DROPPED_VID_4095);
}

/* What leaves port 1, set to an operation, of a frame that came with tags of VIDs 1 and 2: its length. */
static uint32_t leaves(gufhrandi_operation operation)
{
    gufhrandi_port_settings port = gufhrandi_fresh_port();
    port.operation = operation;
    fresh();
    gufhrandi_set_port(LINKS, 1, port);
    arrive(0, build(2, 1, 2));
    return take(1).x;
}

static void check_operations(void)
{
    static const uint32_t lengths[5][2] = {{GUFHRANDI_OPERATION_NONE, 68}, {GUFHRANDI_OPERATION_POP, 64},
                                           {GUFHRANDI_OPERATION_PUSH, 72}, {GUFHRANDI_OPERATION_SWAP, 68},
                                           {GUFHRANDI_OPERATION_POP_ALL, 60}};
    static const uint32_t sources[3][2] = {{GUFHRANDI_FROM_OUTERMOST, 1}, {GUFHRANDI_FROM_SECOND, 2},
                                           {GUFHRANDI_FROM_GIVEN, 40}};
    static const uint32_t types[2][2] = {{GUFHRANDI_TAG_8100, 0x8100}, {GUFHRANDI_TAG_88A8, 0x88A8}};
    gufhrandi_operation operation = gufhrandi_no_operation();
    int good = 1;
    size_t i;
    for (i = 0; i < 5; i++) {
        operation.kind = lengths[i][0];
        good &= leaves(operation) == lengths[i][1];
    }
    check("each operation does what its name says", good);
    operation.kind = GUFHRANDI_OPERATION_PUSH;
    operation.vid = 40;
    good = 1;
    for (i = 0; i < 3; i++) {
        operation.vid_source = sources[i][0];
        good &= leaves(operation) == 72 && out_at(14) == sources[i][1];
    }
    check("each source gives the VID of its name", good);
    good = 1;
    for (i = 0; i < 2; i++) {
        operation.type = types[i][0];
        good &= leaves(operation) == 72 && out_at(12) == types[i][1];
    }
    check("each type is that of its name", good);
}

/* ---- masks, addresses, texts */

static void check_masks(void)
{
    uint32_t port, mask = 0;
    for (port = 0; port < GUFHRANDI_PORTS; port++)
        mask |= GUFHRANDI_MASK(port);
    check("the mask of all ports", mask == GUFHRANDI_ALL_PORTS);
    check("a mask of some ports", few_ports == 21);
    check("a mask has its ports and no other",
          gufhrandi_has_port(few_ports, 0) && !gufhrandi_has_port(few_ports, 1) && gufhrandi_has_port(few_ports, 4)
              && !gufhrandi_has_port(UINT32_MAX, GUFHRANDI_PORTS) && !gufhrandi_has_port(UINT32_MAX, UINT32_MAX));
    check("the mask of a port above 4 is refused",
          gufhrandi_set_vlan(LINKS, gufhrandi_plain_vlan(1, GUFHRANDI_MASK(GUFHRANDI_PORTS), 0)).refusal
                  == GUFHRANDI_REFUSED_OUT_OF_RANGE
              && gufhrandi_set_vlan(LINKS, gufhrandi_plain_vlan(1, GUFHRANDI_MASK(UINT32_MAX), 0)).refusal
                  == GUFHRANDI_REFUSED_OUT_OF_RANGE);
}

static void check_addresses(void)
{
    static const uint8_t bytes[6] = {0x02, 0x34, 0x56, 0x78, 0x9A, 0xFB};
    check("an address's first byte is highest", gufhrandi_address(bytes) == 0x023456789AFBu);
}

typedef const char *(*text_of)(uint32_t);

/* Whether a number has a text of its own, and not the one of numbers without a name. */
static int has_text(text_of text, uint32_t number) { return strcmp(text(number), text(UINT32_MAX)) != 0; }

/* How many numbers have a text; 0 if two have the same. tests/papers/run sees that each name has one. */
static uint32_t texts(text_of text)
{
    uint32_t i, j, count = 0;
    for (i = 0; i < 100; i++) {
        count += has_text(text, i) ? 1u : 0u;
        for (j = 0; j < i; j++)
            if (has_text(text, i) && strcmp(text(i), text(j)) == 0)
                return 0;
    }
    return count;
}

static void check_texts(void)
{
    uint32_t number;
    int all = 1;
    for (number = 0; number < GUFHRANDI_COUNTERS; number++)
        all &= has_text(gufhrandi_counter_text, number);
    check("every refusal has its own text",
          texts(gufhrandi_refusal_text) > 1 && has_text(gufhrandi_refusal_text, GUFHRANDI_DONE));
    check("every outcome has its own text",
          texts(gufhrandi_outcome_text) > 1 && has_text(gufhrandi_outcome_text, GUFHRANDI_QUEUED));
    check("every counter has its own text, and nothing else",
          all && texts(gufhrandi_counter_text) == GUFHRANDI_COUNTERS);
}

int main(int count, char **words)
{
    if (count == 2 && strcmp(words[1], "--version") == 0) {
        printf("%s\n", GUFHRANDI_VERSION);
        return 0;
    }
    check_version();
    check_sizes();
    check_numbers();
    check_sums();
    check_settings();
    check_states();
    check_tags();
    check_operations();
    check_masks();
    check_addresses();
    check_texts();
    printf("%d passed, %d failed\n", passed, failed);
    return failed != 0;
}
