/*
 * Gufhrandi: the forwarding software of a five-port Ethernet switch over lent memory.
 *
 *   1. Choose a cell count of 64 to 2048, and lend three memories:
 *
 *          #define COUNT 200
 *          static uint8_t cells[GUFHRANDI_CELL_BYTES(COUNT)];
 *          static uint32_t links[GUFHRANDI_LINK_WORDS(COUNT)];
 *          static uint64_t addresses[GUFHRANDI_PLACES];
 *
 *   2. gufhrandi_fresh() makes a fresh switch of them: VLAN 1 with all ports, ports Disabled (which forwards),
 *      no address known, all cells free. gufhrandi_set_vlan() and gufhrandi_set_port() set it up.
 *   3. Hand each frame that arrives, without FCS, to gufhrandi_frame_in(). Fetch what waits at a port with
 *      gufhrandi_take() until it answers length 0. Call gufhrandi_age() at your ageing interval.
 *
 * Every function may be called with any values: a bad call gets a refusal and changes nothing. What is asked
 * of the caller: the memories lent to one call don't overlap; a call gets the very memories of its switch's
 * fresh call, never those of two switches mixed; one call at a time for each switch.
 *
 * Lengths are in elements: bytes of cells, words of 32 bits of links, numbers of 64 bits of addresses.
 * docs/DRIVER.md is the page to work from, docs/RULES.md has the exact rules, examples/driver.c is a driver.
 */
#ifndef GUFHRANDI_H
#define GUFHRANDI_H

#include <stddef.h>
#include <stdint.h>

#ifdef __cplusplus
extern "C" {
#endif

/* ---- Version. The Makefile and the pkg-config file take it from here. */

#define GUFHRANDI_VERSION_MAJOR 0
#define GUFHRANDI_VERSION_MINOR 1
#define GUFHRANDI_VERSION_PATCH 0
#define GUFHRANDI_VERSION "0.1.0"

/* ---- Numbers of the switch */

#define GUFHRANDI_PORTS 5                       /* ports are 0 to 4 */
#define GUFHRANDI_MANAGEMENT_PORT 4             /* where BPDUs go */
#define GUFHRANDI_ALL_PORTS 31                  /* the mask of all ports */
#define GUFHRANDI_QUEUES 4                      /* queues of a port are 0 to 3; the highest is served first */
#define GUFHRANDI_PCPS 8                        /* PCPs are 0 to 7 */
#define GUFHRANDI_LAST_VID 4094                 /* VIDs are 1 to 4094 */
#define GUFHRANDI_VLANS 16                      /* VLANs that may be set at a time */
#define GUFHRANDI_GIDS 16                       /* address groups (GIDs) are 0 to 15 */

#define GUFHRANDI_SHORTEST 60                   /* bytes of the shortest frame, without FCS */
#define GUFHRANDI_LONGEST 4083                  /* bytes of the longest frame that is not dropped */
#define GUFHRANDI_LARGEST 4091                  /* the longest frame that leaves: the least take-out buffer */

/* ---- Memory to lend, for a cell count. These are constants, so that memory may be static. */

#define GUFHRANDI_FEWEST_CELLS 64
#define GUFHRANDI_MOST_CELLS 2048
#define GUFHRANDI_CELL 80                       /* bytes of a cell */
#define GUFHRANDI_CELL_BYTES(count) (GUFHRANDI_CELL * (count))
#define GUFHRANDI_LINK_WORDS(count) (1024 + 20 * (count))
#define GUFHRANDI_PLACES 4112                   /* numbers of address memory */

/* The mask of one port; masks are joined by '|'. A port above 4 gives a mask that every call refuses. */
#define GUFHRANDI_MASK(port) ((uint32_t)(port) < GUFHRANDI_PORTS ? (uint32_t)1 << (uint32_t)(port) : (uint32_t)32)

/* ---- Answers */

/* Refusal GUFHRANDI_DONE: the call was done, and x and y say what came of it (0 where a function says nothing).
 * Another refusal: x and y are 0, and no byte of lent memory and no counter has changed. */
typedef struct {
    uint32_t refusal, x, y;
} gufhrandi_answer;

/* Refusals. The lowest number that applies is given. (11 is the bench program's own.) */
enum {
    GUFHRANDI_DONE = 0,
    GUFHRANDI_REFUSED_MEMORY_LENGTH = 1,        /* a lent memory has not the length of its switch's fresh call */
    GUFHRANDI_REFUSED_PORT_ABOVE_FOUR = 2,
    GUFHRANDI_REFUSED_OUT_OF_RANGE = 3,         /* another value outside its range */
    GUFHRANDI_REFUSED_GROUP_ADDRESS = 4,        /* a static address with the group bit */
    GUFHRANDI_REFUSED_SHORT_BUFFER = 5,         /* take-out buffer under GUFHRANDI_LARGEST bytes */
    GUFHRANDI_REFUSED_VLANS_IN_USE = 6,         /* new VLAN, 16 in use */
    GUFHRANDI_REFUSED_VLAN_NOT_THERE = 7,
    GUFHRANDI_REFUSED_PLACES_IN_USE = 8,        /* static address new, and all its 20 places in use */
    GUFHRANDI_REFUSED_ADDRESS_NOT_THERE = 9,
    GUFHRANDI_REFUSED_MEMORY_DAMAGED = 10       /* lent memory holds a field out of its range: docs/LAYOUT.md */
};

/* Outcomes of a frame-in: queued, or the first reason that holds. A drop is counted, and no error. */
enum {
    GUFHRANDI_QUEUED = 0,
    GUFHRANDI_DROPPED_SHORT = 1,                /* under GUFHRANDI_SHORTEST bytes */
    GUFHRANDI_DROPPED_LONG = 2,                 /* over GUFHRANDI_LONGEST bytes */
    GUFHRANDI_DROPPED_GROUP_SOURCE = 3,         /* source has the group bit */
    GUFHRANDI_DROPPED_TAG_COUNT = 4,            /* tag count barred at this port */
    GUFHRANDI_DROPPED_PORT_BLOCKING = 5,
    GUFHRANDI_DROPPED_PORT_LISTENING = 6,
    GUFHRANDI_DROPPED_VID_4095 = 7,             /* assigned VID 4095 */
    GUFHRANDI_DROPPED_NO_VLAN = 8,              /* VID not in the table */
    GUFHRANDI_DROPPED_NO_MEMBER = 9,            /* arrival port no member */
    GUFHRANDI_DROPPED_PORT_LEARNING = 10,
    GUFHRANDI_DROPPED_NO_CANDIDATE = 11,        /* no candidate port */
    GUFHRANDI_DROPPED_NO_PORT_LEFT = 12,        /* no port left after state and queue tests */
    GUFHRANDI_DROPPED_NO_ROOM = 13              /* too few free cells */
};

/* Counters of a port: 0 to 15 of frames that arrive there, 16 to 20 of copies that depart there. 1 to 13 are the
 * reasons, each by its number. OFFERED is the sum of 1 to 14, modulo 2^32. */
enum {
    GUFHRANDI_COUNTER_OFFERED = 0,              /* frames handed in */
    GUFHRANDI_COUNTER_SHORT = 1,
    GUFHRANDI_COUNTER_LONG = 2,
    GUFHRANDI_COUNTER_GROUP_SOURCE = 3,
    GUFHRANDI_COUNTER_TAG_COUNT = 4,
    GUFHRANDI_COUNTER_PORT_BLOCKING = 5,
    GUFHRANDI_COUNTER_PORT_LISTENING = 6,
    GUFHRANDI_COUNTER_VID_4095 = 7,
    GUFHRANDI_COUNTER_NO_VLAN = 8,
    GUFHRANDI_COUNTER_NO_MEMBER = 9,
    GUFHRANDI_COUNTER_PORT_LEARNING = 10,
    GUFHRANDI_COUNTER_NO_CANDIDATE = 11,
    GUFHRANDI_COUNTER_NO_PORT_LEFT = 12,
    GUFHRANDI_COUNTER_NO_ROOM = 13,
    GUFHRANDI_COUNTER_ACCEPTED = 14,            /* frames queued at one port at least */
    GUFHRANDI_COUNTER_NOT_LEARNED = 15,         /* sources for which there was no place */
    GUFHRANDI_COUNTER_QUEUED = 16,              /* copies queued here */
    GUFHRANDI_COUNTER_STATE = 17,               /* copies not queued for this port's state */
    GUFHRANDI_COUNTER_QUEUE_OFF = 18,           /* copies not queued since their queue here is off */
    GUFHRANDI_COUNTER_SENT = 19,                /* copies taken */
    GUFHRANDI_COUNTER_DRAINED = 20,             /* copies that a drain dropped */
    GUFHRANDI_COUNTERS = 21                     /* how many there are */
};

/* ---- Settings */

/* States of a port. */
enum {
    GUFHRANDI_STATE_DISABLED = 0,               /* forwards and learns, as Forwarding does */
    GUFHRANDI_STATE_BLOCKING = 1,
    GUFHRANDI_STATE_LISTENING = 2,
    GUFHRANDI_STATE_LEARNING = 3,
    GUFHRANDI_STATE_FORWARDING = 4
};

/* The VID that a frame is assigned where it arrives. A missing tag, or one of VID 0, gives the default VID. */
enum {
    GUFHRANDI_ASSIGN_DEFAULT = 0,               /* the port's default VID, whatever the tags say */
    GUFHRANDI_ASSIGN_OUTERMOST = 1,             /* the outermost tag's */
    GUFHRANDI_ASSIGN_SECOND = 2                 /* the second tag's */
};

/* Flags of a port, joined by '|': frames with so many tags are dropped where they arrive. */
enum {
    GUFHRANDI_BAR_UNTAGGED = 1,
    GUFHRANDI_BAR_ONE_TAG = 2,
    GUFHRANDI_BAR_TWO_TAGS = 4                  /* a third tag is payload: such frames have two */
};

/* Kinds of operation on a leaving frame's tags. */
enum {
    GUFHRANDI_OPERATION_NONE = 0,
    GUFHRANDI_OPERATION_POP = 1,                /* removes the outermost tag, if there is one */
    GUFHRANDI_OPERATION_PUSH = 2,               /* adds a tag */
    GUFHRANDI_OPERATION_SWAP = 3,               /* pop, then push: also on an untagged frame */
    GUFHRANDI_OPERATION_POP_ALL = 4
};

/* The type of a new tag. */
enum {
    GUFHRANDI_TAG_8100 = 0,
    GUFHRANDI_TAG_88A8 = 1
};

/* Where a new tag's fields come from. A missing tag gives the arrival port's default VID, PCP and DEI. */
enum {
    GUFHRANDI_FROM_OUTERMOST = 0,               /* the outermost tag that the frame arrived with */
    GUFHRANDI_FROM_SECOND = 1,                  /* the second one */
    GUFHRANDI_FROM_GIVEN = 2                    /* the operation's own fields */
};

/* Switches: a queue's, and that of BPDU handling. */
enum {
    GUFHRANDI_OFF = 0,
    GUFHRANDI_ON = 1
};

/* An operation on a leaving frame's tags. Every field has to be in its range, for kind none too. */
typedef struct {
    uint32_t kind;                              /* GUFHRANDI_OPERATION_.. */
    uint32_t type;                              /* GUFHRANDI_TAG_.. of a new tag */
    uint32_t vid_source;                        /* GUFHRANDI_FROM_.., of its VID */
    uint32_t pcp_source;                        /* GUFHRANDI_FROM_.., of its PCP and DEI */
    uint32_t vid, pcp, dei;                     /* given: VID 0 to 4094, PCP 0 to 7, DEI 0 or 1 */
} gufhrandi_operation;

/* The settings of a port. */
typedef struct {
    uint32_t state;                             /* GUFHRANDI_STATE_.., for arrival and departure */
    uint32_t assignment;                        /* GUFHRANDI_ASSIGN_.. */
    uint32_t vid, pcp, dei;                     /* default header: VID 1 to 4094, PCP 0 to 7, DEI 0 or 1 */
    uint32_t flags;                             /* GUFHRANDI_BAR_.., or 0 */
    gufhrandi_operation operation;              /* on frames that leave here, after their VLAN's */
} gufhrandi_port_settings;

/* The settings of a VLAN. */
typedef struct {
    uint32_t vid;                               /* 1 to 4094 */
    uint32_t members;                           /* a mask of ports, 0 to 31 */
    uint32_t gid;                               /* 0 to 15: VLANs of one GID share their addresses */
    gufhrandi_operation operation;              /* on the VLAN's frames that leave, before the port's */
} gufhrandi_vlan_settings;

/* ---- The calls. Behind 'Refused' stand the refusals that a function may answer, without GUFHRANDI_REFUSED_. */

/* Words of link memory to lend for a cell count: what GUFHRANDI_LINK_WORDS gives; 0 for a count under 64 or over
 * 2048. It is no call on a switch: nothing is refused. */
uint64_t gufhrandi_link_words(uint32_t cell_count);

/* A fresh switch, whatever the memories held; frames that waited in them are gone.
 *   cells: cells_length is GUFHRANDI_CELL_BYTES(count), which gives the cell count
 *   links: links_length is GUFHRANDI_LINK_WORDS(count)
 *   addresses: addresses_length is GUFHRANDI_PLACES
 * Refused: MEMORY_LENGTH. */
gufhrandi_answer gufhrandi_fresh(uint8_t *cells, size_t cells_length, uint32_t *links, size_t links_length,
                                 uint64_t *addresses, size_t addresses_length);

/* A frame arrives. It is copied, or dropped and counted.
 *   port: 0 to 4, where it arrives
 *   frame: its bytes without FCS; any length, of which 60 to 4083 are not dropped for it
 * x: outcome, GUFHRANDI_QUEUED or GUFHRANDI_DROPPED_..; y: mask of the ports where it was queued, 0 if dropped.
 * Refused: MEMORY_LENGTH, PORT_ABOVE_FOUR, MEMORY_DAMAGED. */
gufhrandi_answer gufhrandi_frame_in(uint8_t *cells, size_t cells_length, uint32_t *links, size_t links_length,
                                    uint64_t *addresses, size_t addresses_length,
                                    uint32_t port, const uint8_t *frame, size_t frame_length);

/* The oldest frame of the port's highest waiting queue leaves: it is written to the front of out, without FCS, and
 * waits no more. The rest of out keeps its bytes.
 *   port: 0 to 4
 *   out: out_length is GUFHRANDI_LARGEST or more, for every take
 * x: length, 60 to 4091, or 0 at an empty port, where nothing is written; y: queue, 0 to 3.
 * Refused: MEMORY_LENGTH, PORT_ABOVE_FOUR, SHORT_BUFFER, MEMORY_DAMAGED. */
gufhrandi_answer gufhrandi_take(const uint8_t *cells, size_t cells_length, uint32_t *links, size_t links_length,
                                uint32_t port, uint8_t *out, size_t out_length);

/* An ageing interval has passed: addresses that are not marked as used go, marked ones lose their mark, static ones
 * stay. x: how many went.
 * Refused: MEMORY_LENGTH, MEMORY_DAMAGED. */
gufhrandi_answer gufhrandi_age(uint64_t *addresses, size_t addresses_length);

/* Reads a counter.
 *   port: 0 to 4
 *   number: GUFHRANDI_COUNTER_..
 * x: its value.
 * Refused: MEMORY_LENGTH, PORT_ABOVE_FOUR, OUT_OF_RANGE. */
gufhrandi_answer gufhrandi_counter(const uint32_t *links, size_t links_length, uint32_t port, uint32_t number);

/* Sets all settings of a port; gufhrandi_set_port() does it by their names. Frames that wait stay.
 *   port: 0 to 4
 *   state to flags: as the fields of gufhrandi_port_settings
 *   kind to op_dei: as the fields of gufhrandi_operation
 * Refused: MEMORY_LENGTH, PORT_ABOVE_FOUR, OUT_OF_RANGE, MEMORY_DAMAGED. */
gufhrandi_answer gufhrandi_port(uint32_t *links, size_t links_length, uint32_t port, uint32_t state,
                                uint32_t assignment, uint32_t vid, uint32_t pcp, uint32_t dei, uint32_t flags,
                                uint32_t kind, uint32_t type, uint32_t vid_source, uint32_t pcp_source,
                                uint32_t op_vid, uint32_t op_pcp, uint32_t op_dei);

/* Sets a VLAN; one of this VID that is there is replaced. gufhrandi_set_vlan() does it by the settings' names.
 *   vid, members, gid: as the fields of gufhrandi_vlan_settings
 *   kind to op_dei: as the fields of gufhrandi_operation
 * Refused: MEMORY_LENGTH, OUT_OF_RANGE, VLANS_IN_USE, MEMORY_DAMAGED. */
gufhrandi_answer gufhrandi_vlan(uint32_t *links, size_t links_length, uint32_t vid, uint32_t members, uint32_t gid,
                                uint32_t kind, uint32_t type, uint32_t vid_source, uint32_t pcp_source,
                                uint32_t op_vid, uint32_t op_pcp, uint32_t op_dei);

/* Clears a VLAN. Its addresses and the frames that wait stay.
 *   vid: 1 to 4094
 * Refused: MEMORY_LENGTH, OUT_OF_RANGE, VLAN_NOT_THERE, MEMORY_DAMAGED. */
gufhrandi_answer gufhrandi_clear_vlan(uint32_t *links, size_t links_length, uint32_t vid);

/* Sets a static address: it does not age, and is not learned elsewhere. An address that is there becomes static,
 * at this port.
 *   gid: 0 to 15
 *   port: 0 to 4
 *   address: below 2^48, its first byte highest, as gufhrandi_address() gives it; without the group bit
 * Refused: MEMORY_LENGTH, PORT_ABOVE_FOUR, OUT_OF_RANGE, GROUP_ADDRESS, PLACES_IN_USE, MEMORY_DAMAGED. */
gufhrandi_answer gufhrandi_set_static(uint64_t *addresses, size_t addresses_length, uint32_t gid, uint32_t port,
                                      uint64_t address);

/* Removes an address, static or learned.
 *   gid: 0 to 15
 *   address: below 2^48
 * Refused: MEMORY_LENGTH, OUT_OF_RANGE, ADDRESS_NOT_THERE, MEMORY_DAMAGED. */
gufhrandi_answer gufhrandi_remove(uint64_t *addresses, size_t addresses_length, uint32_t gid, uint64_t address);

/* Sets the queue of a PCP, at all ports. Fresh: PCP / 2. Frames that wait stay in their queues.
 *   pcp: 0 to 7
 *   queue: 0 to 3
 * Refused: MEMORY_LENGTH, OUT_OF_RANGE, MEMORY_DAMAGED. */
gufhrandi_answer gufhrandi_map(uint32_t *links, size_t links_length, uint32_t pcp, uint32_t queue);

/* Switches a queue on or off. One that is off takes no frames and goes on sending.
 *   port: 0 to 4
 *   queue: 0 to 3
 *   on: GUFHRANDI_ON or GUFHRANDI_OFF
 * Refused: MEMORY_LENGTH, PORT_ABOVE_FOUR, OUT_OF_RANGE, MEMORY_DAMAGED. */
gufhrandi_answer gufhrandi_queue_switch(uint32_t *links, size_t links_length, uint32_t port, uint32_t queue,
                                        uint32_t on);

/* Drops every copy that waits at a port, in all its queues.
 *   port: 0 to 4
 * x: how many copies.
 * Refused: MEMORY_LENGTH, PORT_ABOVE_FOUR, MEMORY_DAMAGED. */
gufhrandi_answer gufhrandi_drain(uint32_t *links, size_t links_length, uint32_t port);

/* Switches BPDU handling: on, BPDUs that arrive at ports 0 to 3 go to port 4 alone, as they came.
 *   on: GUFHRANDI_ON or GUFHRANDI_OFF
 * Refused: MEMORY_LENGTH, OUT_OF_RANGE, MEMORY_DAMAGED. */
gufhrandi_answer gufhrandi_bpdu(uint32_t *links, size_t links_length, uint32_t on);

/* ---- Settings by name. These and the functions behind them are C, made into the program that includes this. */

/* No operation: a frame leaves with the tags that it has. The fields of a new tag are given, and 0. */
static inline gufhrandi_operation gufhrandi_no_operation(void)
{
    gufhrandi_operation none;
    none.kind = GUFHRANDI_OPERATION_NONE;
    none.type = GUFHRANDI_TAG_8100;
    none.vid_source = GUFHRANDI_FROM_GIVEN;
    none.pcp_source = GUFHRANDI_FROM_GIVEN;
    none.vid = 0;
    none.pcp = 0;
    none.dei = 0;
    return none;
}

/* The settings of a fresh port, to start from: Disabled (which forwards), the outermost tag's VID, default VID 1,
 * PCP and DEI 0, no flags, no operation. */
static inline gufhrandi_port_settings gufhrandi_fresh_port(void)
{
    gufhrandi_port_settings fresh;
    fresh.state = GUFHRANDI_STATE_DISABLED;
    fresh.assignment = GUFHRANDI_ASSIGN_OUTERMOST;
    fresh.vid = 1;
    fresh.pcp = 0;
    fresh.dei = 0;
    fresh.flags = 0;
    fresh.operation = gufhrandi_no_operation();
    return fresh;
}

/* A VLAN of some ports, without an operation. */
static inline gufhrandi_vlan_settings gufhrandi_plain_vlan(uint32_t vid, uint32_t members, uint32_t gid)
{
    gufhrandi_vlan_settings plain;
    plain.vid = vid;
    plain.members = members;
    plain.gid = gid;
    plain.operation = gufhrandi_no_operation();
    return plain;
}

/* gufhrandi_port() with settings by name. */
static inline gufhrandi_answer gufhrandi_set_port(uint32_t *links, size_t links_length, uint32_t port,
                                                  gufhrandi_port_settings settings)
{
    gufhrandi_operation operation = settings.operation;
    return gufhrandi_port(links, links_length, port, settings.state, settings.assignment, settings.vid,
                          settings.pcp, settings.dei, settings.flags, operation.kind, operation.type,
                          operation.vid_source, operation.pcp_source, operation.vid, operation.pcp, operation.dei);
}

/* gufhrandi_vlan() with settings by name. */
static inline gufhrandi_answer gufhrandi_set_vlan(uint32_t *links, size_t links_length,
                                                  gufhrandi_vlan_settings settings)
{
    gufhrandi_operation operation = settings.operation;
    return gufhrandi_vlan(links, links_length, settings.vid, settings.members, settings.gid, operation.kind,
                          operation.type, operation.vid_source, operation.pcp_source, operation.vid, operation.pcp,
                          operation.dei);
}

/* ---- Masks and addresses */

/* Whether a mask has a port: 1 or 0. No mask has a port above 4. */
static inline int gufhrandi_has_port(uint32_t mask, uint32_t port)
{
    return port < GUFHRANDI_PORTS && (mask >> port & 1) != 0;
}

/* The number of an address from its six bytes in the order of the wire: 02:00:00:00:00:05 is 0x020000000005. */
static inline uint64_t gufhrandi_address(const uint8_t *six_bytes)
{
    uint64_t address = 0;
    size_t i;
    for (i = 0; i < 6; i++)
        address = address << 8 | six_bytes[i];
    return address;
}

/* ---- Texts, for a log. They are never NULL; a number without a name has the last text. */

/* The words for an answer's refusal, GUFHRANDI_DONE or GUFHRANDI_REFUSED_... */
static inline const char *gufhrandi_refusal_text(uint32_t refusal)
{
    switch (refusal) {
    case GUFHRANDI_DONE: return "done";
    case GUFHRANDI_REFUSED_MEMORY_LENGTH: return "a lent memory has not the length of the fresh call";
    case GUFHRANDI_REFUSED_PORT_ABOVE_FOUR: return "port above 4";
    case GUFHRANDI_REFUSED_OUT_OF_RANGE: return "a value is outside its range";
    case GUFHRANDI_REFUSED_GROUP_ADDRESS: return "a static address has the group bit";
    case GUFHRANDI_REFUSED_SHORT_BUFFER: return "the take-out buffer is too short";
    case GUFHRANDI_REFUSED_VLANS_IN_USE: return "all 16 VLANs are in use";
    case GUFHRANDI_REFUSED_VLAN_NOT_THERE: return "the VLAN is not there";
    case GUFHRANDI_REFUSED_PLACES_IN_USE: return "all places for this address are in use";
    case GUFHRANDI_REFUSED_ADDRESS_NOT_THERE: return "the address is not there";
    case GUFHRANDI_REFUSED_MEMORY_DAMAGED: return "lent memory is damaged";
    default: return "no refusal has this number";
    }
}

/* The words for x of a frame-in, GUFHRANDI_QUEUED or GUFHRANDI_DROPPED_... */
static inline const char *gufhrandi_outcome_text(uint32_t outcome)
{
    switch (outcome) {
    case GUFHRANDI_QUEUED: return "queued";
    case GUFHRANDI_DROPPED_SHORT: return "shorter than 60 bytes";
    case GUFHRANDI_DROPPED_LONG: return "longer than 4083 bytes";
    case GUFHRANDI_DROPPED_GROUP_SOURCE: return "the source has the group bit";
    case GUFHRANDI_DROPPED_TAG_COUNT: return "tag count barred at this port";
    case GUFHRANDI_DROPPED_PORT_BLOCKING: return "port Blocking";
    case GUFHRANDI_DROPPED_PORT_LISTENING: return "port Listening";
    case GUFHRANDI_DROPPED_VID_4095: return "assigned VID 4095";
    case GUFHRANDI_DROPPED_NO_VLAN: return "VID not in the table";
    case GUFHRANDI_DROPPED_NO_MEMBER: return "arrival port no member";
    case GUFHRANDI_DROPPED_PORT_LEARNING: return "port Learning";
    case GUFHRANDI_DROPPED_NO_CANDIDATE: return "no candidate port";
    case GUFHRANDI_DROPPED_NO_PORT_LEFT: return "no port left after state and queue tests";
    case GUFHRANDI_DROPPED_NO_ROOM: return "no room";
    default: return "no outcome has this number";
    }
}

/* The words for a counter, GUFHRANDI_COUNTER_... A reason's counter has the reason's words. */
static inline const char *gufhrandi_counter_text(uint32_t number)
{
    if (GUFHRANDI_COUNTER_SHORT <= number && number <= GUFHRANDI_COUNTER_NO_ROOM)
        return gufhrandi_outcome_text(number);
    switch (number) {
    case GUFHRANDI_COUNTER_OFFERED: return "offered";
    case GUFHRANDI_COUNTER_ACCEPTED: return "accepted";
    case GUFHRANDI_COUNTER_NOT_LEARNED: return "not learned";
    case GUFHRANDI_COUNTER_QUEUED: return "queued";
    case GUFHRANDI_COUNTER_STATE: return "not queued for the state";
    case GUFHRANDI_COUNTER_QUEUE_OFF: return "not queued, queue off";
    case GUFHRANDI_COUNTER_SENT: return "sent";
    case GUFHRANDI_COUNTER_DRAINED: return "drained";
    default: return "no counter has this number";
    }
}

#ifdef __cplusplus
}
#endif
#endif
