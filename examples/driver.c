/* A driver to start from: the switch of a machine. A controller and a drive (VLAN 20) and a camera (VLAN 30) are at
 * access ports, the plant's network is at a trunk port, the machine's own host is at the management port (VLAN 10).
 * The driver lends static memory, sets the switch up, hands in what the MACs receive, sends what waits, ages the
 * addresses, drains ports without a link, tells the counters, and acts on refusals. docs/DRIVER.md says more. */
#include "mac.h"

#include <gufhrandi.h>
#include <stdio.h>
#include <stdlib.h>

/* ---- Memory to lend */

enum { CELLS = 200 };
static uint8_t cells[GUFHRANDI_CELL_BYTES(CELLS)];
static uint32_t links[GUFHRANDI_LINK_WORDS(CELLS)];
static uint64_t addresses[GUFHRANDI_PLACES];
static uint8_t buffer[GUFHRANDI_LARGEST];

enum { LINK_WORDS = GUFHRANDI_LINK_WORDS(CELLS) };

/* ---- Refusals */

static bool must_start_fresh;

/* Whether a call was done. If not, it has changed nothing: says why, and what is to be done now. */
static bool done(const char *call, gufhrandi_answer answer)
{
    if (answer.refusal == GUFHRANDI_DONE)
        return true;
    printf("%s is refused: %s. ", call, gufhrandi_refusal_text(answer.refusal));
    switch (answer.refusal) {
    case GUFHRANDI_REFUSED_VLAN_NOT_THERE:
    case GUFHRANDI_REFUSED_ADDRESS_NOT_THERE:
        printf("That is what was wanted.\n");
        break;
    case GUFHRANDI_REFUSED_VLANS_IN_USE:
    case GUFHRANDI_REFUSED_PLACES_IN_USE:
        printf("Something else has to go first.\n");
        break;
    case GUFHRANDI_REFUSED_MEMORY_LENGTH:
    case GUFHRANDI_REFUSED_MEMORY_DAMAGED:
        /* Other code has written into lent memory. */
        printf("The switch starts fresh.\n");
        must_start_fresh = true;
        break;
    default:
        printf("The caller is to be mended.\n");
        break;
    }
    return false;
}

/* ---- Ports and VLANs */

enum { CONTROLLER_PORT, DRIVE_PORT, CAMERA_PORT, TRUNK_PORT, HOST_PORT = GUFHRANDI_MANAGEMENT_PORT };
enum { MANAGEMENT = 10, CONTROL = 20, VISION = 30 };                 /* VIDs */
enum { MANAGEMENT_ADDRESSES, CONTROL_ADDRESSES, VISION_ADDRESSES };  /* address groups: VLANs share no address */
enum { FRESH_VLAN = 1 };
enum { PICTURES_PCP = 2, ORDERS_PCP = 4, CONTROL_PCP = 6 };

static const uint8_t plant_computer[] = {0x02, 0x00, 0x00, 0x00, 0x00, 0x0E};

/* A device that knows no VLAN: its frames are of this VLAN whatever tag they have, and it gets frames untagged. */
static gufhrandi_port_settings access_port(uint32_t vid, uint32_t pcp)
{
    gufhrandi_port_settings settings = gufhrandi_fresh_port();
    settings.state = GUFHRANDI_STATE_FORWARDING;
    settings.assignment = GUFHRANDI_ASSIGN_DEFAULT;
    settings.vid = vid;
    settings.pcp = pcp;
    settings.flags = GUFHRANDI_BAR_TWO_TAGS;
    settings.operation.kind = GUFHRANDI_OPERATION_POP;
    return settings;
}

/* Another switch: a frame's tag tells its VLAN, both ways. The default VID has no VLAN, so a frame with a priority
 * tag is dropped. */
static gufhrandi_port_settings trunk_port(void)
{
    gufhrandi_port_settings settings = gufhrandi_fresh_port();
    settings.state = GUFHRANDI_STATE_FORWARDING;
    settings.assignment = GUFHRANDI_ASSIGN_OUTERMOST;
    settings.vid = FRESH_VLAN;
    settings.flags = GUFHRANDI_BAR_UNTAGGED | GUFHRANDI_BAR_TWO_TAGS;
    return settings;
}

/* Every frame of the VLAN leaves with a tag of its VID, under the PCP that it came with: the outermost tag's, or
 * the arrival port's default. An access port pops it. */
static gufhrandi_vlan_settings tagged_vlan(uint32_t vid, uint32_t members, uint32_t gid)
{
    gufhrandi_vlan_settings settings = gufhrandi_plain_vlan(vid, members, gid);
    settings.operation.kind = GUFHRANDI_OPERATION_SWAP;
    settings.operation.type = GUFHRANDI_TAG_8100;
    settings.operation.vid_source = GUFHRANDI_FROM_GIVEN;
    settings.operation.vid = vid;
    settings.operation.pcp_source = GUFHRANDI_FROM_OUTERMOST;
    return settings;
}

static bool set_port(const char *name, uint32_t port, gufhrandi_port_settings settings)
{
    return done(name, gufhrandi_set_port(links, LINK_WORDS, port, settings));
}

static bool set_vlan(const char *name, gufhrandi_vlan_settings settings)
{
    return done(name, gufhrandi_set_vlan(links, LINK_WORDS, settings));
}

static bool set_up(void)
{
    const uint32_t trunk = GUFHRANDI_MASK(TRUNK_PORT);
    const uint32_t control = GUFHRANDI_MASK(CONTROLLER_PORT) | GUFHRANDI_MASK(DRIVE_PORT) | trunk;
    const uint32_t vision = GUFHRANDI_MASK(CAMERA_PORT) | trunk;
    const uint32_t management = GUFHRANDI_MASK(HOST_PORT) | trunk;

    return done("clear the fresh VLAN", gufhrandi_clear_vlan(links, LINK_WORDS, FRESH_VLAN))
        && set_vlan("VLAN control", tagged_vlan(CONTROL, control, CONTROL_ADDRESSES))
        && set_vlan("VLAN vision", tagged_vlan(VISION, vision, VISION_ADDRESSES))
        && set_vlan("VLAN management", tagged_vlan(MANAGEMENT, management, MANAGEMENT_ADDRESSES))
        && set_port("controller's port", CONTROLLER_PORT, access_port(CONTROL, CONTROL_PCP))
        && set_port("drive's port", DRIVE_PORT, access_port(CONTROL, CONTROL_PCP))
        && set_port("camera's port", CAMERA_PORT, access_port(VISION, PICTURES_PCP))
        && set_port("host's port", HOST_PORT, access_port(MANAGEMENT, ORDERS_PCP))
        && set_port("trunk port", TRUNK_PORT, trunk_port())
        && done("static plant computer",
                gufhrandi_set_static(addresses, GUFHRANDI_PLACES, VISION_ADDRESSES, TRUNK_PORT,
                                     gufhrandi_address(plant_computer)));
}

/* ---- Counters */

static uint32_t told[GUFHRANDI_PORTS][GUFHRANDI_COUNTERS];

static uint32_t counter(uint32_t port, uint32_t number)
{
    gufhrandi_answer answer = gufhrandi_counter(links, LINK_WORDS, port, number);
    return done("counter", answer) ? answer.x : 0;
}

/* What each counter has gained since it was told last. The difference of uint32_t is right over the wrap, too. */
static void tell_counters(void)
{
    for (uint32_t port = 0; port < GUFHRANDI_PORTS; port++) {
        const char *separator = ": ";
        printf("port %u", (unsigned)port);
        for (uint32_t number = 0; number < GUFHRANDI_COUNTERS; number++) {
            uint32_t value = counter(port, number);
            uint32_t gained = value - told[port][number];
            told[port][number] = value;
            if (gained == 0)
                continue;
            printf("%s%u %s", separator, (unsigned)gained, gufhrandi_counter_text(number));
            separator = ", ";
        }
        printf("\n");
    }
}

/* ---- Start */

/* A fresh switch has its counters at 0. Nothing is forwarded before set_up() is through: no frame is handed in. */
static bool start(void)
{
    must_start_fresh = false;
    for (uint32_t port = 0; port < GUFHRANDI_PORTS; port++)
        for (uint32_t number = 0; number < GUFHRANDI_COUNTERS; number++)
            told[port][number] = 0;
    return done("fresh", gufhrandi_fresh(cells, sizeof cells, links, LINK_WORDS, addresses, GUFHRANDI_PLACES))
        && set_up();
}

/* ---- Frames */

/* One frame of each port a round, so that no port waits for another's burst. */
static void receive(uint32_t port)
{
    size_t length;
    const uint8_t *frame = mac_receive(port, &length);
    if (frame == NULL)
        return;
    gufhrandi_answer answer = gufhrandi_frame_in(cells, sizeof cells, links, LINK_WORDS,
                                                 addresses, GUFHRANDI_PLACES, port, frame, length);
    if (done("frame in", answer) && answer.x != GUFHRANDI_QUEUED)
        printf("        dropped: %s\n", gufhrandi_outcome_text(answer.x));
}

/* A frame is taken when its MAC can have it: until then a frame of a higher queue may overtake it. What waits at a
 * port without a link is dropped, since it would keep cells from the other ports. */
static void transmit(uint32_t port)
{
    while (mac_line(port) == MAC_CAN_SEND) {
        gufhrandi_answer taken = gufhrandi_take(cells, sizeof cells, links, LINK_WORDS,
                                                port, buffer, sizeof buffer);
        if (!done("take", taken) || taken.x == 0)
            return;
        mac_send(port, buffer, taken.x);
    }
    if (mac_line(port) == MAC_HAS_NO_LINK) {
        gufhrandi_answer drained = gufhrandi_drain(links, LINK_WORDS, port);
        if (done("drain", drained) && drained.x > 0)
            printf("        port %u has no link: %u drained\n", (unsigned)port, (unsigned)drained.x);
    }
}

/* ---- Timers */

/* An address that nobody uses goes after one to two ageing intervals. */
enum { AGEING_SECONDS = 300, TELLING_SECONDS = 500 };

/* Whether a timer's interval is over; then the next one begins. */
static bool is_over(uint32_t *began, uint32_t interval, uint32_t seconds)
{
    if (seconds - *began < interval)
        return false;
    *began = seconds;
    return true;
}

static void timers(uint32_t seconds)
{
    static uint32_t ageing_began, telling_began;
    if (is_over(&ageing_began, AGEING_SECONDS, seconds)) {
        gufhrandi_answer aged = gufhrandi_age(addresses, GUFHRANDI_PLACES);
        if (done("age", aged))
            printf("\n%4u s  ageing: %u addresses go\n", (unsigned)seconds, (unsigned)aged.x);
    }
    if (is_over(&telling_began, TELLING_SECONDS, seconds)) {
        printf("\n%4u s  counters\n", (unsigned)seconds);
        tell_counters();
    }
}

/* ---- The loop */

/* A round of frames and timers whenever there is something to do. False: the switch cannot be set up. */
static bool run(void)
{
    uint32_t seconds;
    bool started = start();
    while (started && mac_wait(&seconds)) {
        for (uint32_t port = 0; port < GUFHRANDI_PORTS; port++)
            receive(port);
        for (uint32_t port = 0; port < GUFHRANDI_PORTS; port++)
            transmit(port);
        timers(seconds);
        if (must_start_fresh)
            started = start();
    }
    return started;
}

/* ---- No part of a driver: calls that are refused, and a stray write into lent memory. */

enum { FIRST_MORE_VLAN = 100, MAP_WORD = 1 };

static void show_refusals(void)
{
    static const uint8_t group[] = {0x01, 0x00, 0x5E, 0x00, 0x00, 0x01};
    uint32_t vid = FIRST_MORE_VLAN;

    printf("\nCalls that are refused, and what the driver makes of them.\n");
    done("removing the plant computer twice",
         gufhrandi_remove(addresses, GUFHRANDI_PLACES, VISION_ADDRESSES, gufhrandi_address(plant_computer)));
    done("removing the plant computer twice",
         gufhrandi_remove(addresses, GUFHRANDI_PLACES, VISION_ADDRESSES, gufhrandi_address(plant_computer)));
    while (set_vlan("one VLAN more", gufhrandi_plain_vlan(vid, GUFHRANDI_ALL_PORTS, CONTROL_ADDRESSES)))
        vid++;
    done("a group address as a static one",
         gufhrandi_set_static(addresses, GUFHRANDI_PLACES, CONTROL_ADDRESSES, TRUNK_PORT,
                              gufhrandi_address(group)));
    done("a drain at a port that is none", gufhrandi_drain(links, LINK_WORDS, GUFHRANDI_PORTS));
    links[MAP_WORD] = UINT32_MAX;
    done("BPDU handling off, on overwritten memory", gufhrandi_bpdu(links, LINK_WORDS, GUFHRANDI_OFF));
}

int main(void)
{
    if (!run())
        return EXIT_FAILURE;
    show_refusals();
    return must_start_fresh && start() ? EXIT_SUCCESS : EXIT_FAILURE;
}
