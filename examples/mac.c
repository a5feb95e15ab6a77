/* Five simulated MACs and what is plugged in there: a script of frames that come in, and a line of print for each
 * frame on a wire. Nothing in this file is of use to a real driver. */
#include "mac.h"

#include <stdio.h>
#include <string.h>

enum { PORTS = 5, LAST_SECOND = 1000, QUEUE_FRAMES = 8, SENDS_A_SECOND = 2 };
enum { ADDRESS_BYTES = 6, TAG_BYTES = 4, TYPE_AT = 2 * ADDRESS_BYTES, MOST_BYTES = 4096 };
enum { TAG_TYPE = 0x8100, PAYLOAD_TYPE = 0x0800, VID_BITS = 12, PCP_SHIFT = 13 };
enum { SHORT_FRAME = 40, LEAST_FRAME = 60, TAGGED_FRAME = LEAST_FRAME + TAG_BYTES, FULL_FRAME = 1514 };

/* ---- who is there */

enum device { CONTROLLER, DRIVE, CAMERA, PLANT, BRIDGE, EVERYBODY, BRIDGES, DEVICES };

static const struct {
    const char *name;
    uint8_t address[ADDRESS_BYTES];
} devices[DEVICES] = {
    [CONTROLLER] = {"controller", {0x02, 0, 0, 0, 0, 0x0A}},
    [DRIVE] = {"drive", {0x02, 0, 0, 0, 0, 0x0B}},
    [CAMERA] = {"camera", {0x02, 0, 0, 0, 0, 0x0C}},
    [PLANT] = {"plant computer", {0x02, 0, 0, 0, 0, 0x0E}},
    [BRIDGE] = {"plant's bridge", {0x02, 0, 0, 0, 0, 0x0F}},
    [EVERYBODY] = {"everybody", {0xFF, 0xFF, 0xFF, 0xFF, 0xFF, 0xFF}},
    [BRIDGES] = {"all bridges", {0x01, 0x80, 0xC2, 0, 0, 0}},
};

/* Where they are plugged in. */
enum { CONTROLLER_PORT = 0, DRIVE_PORT = 1, CAMERA_PORT = 2, PLANT_PORT = 3 };

/* ---- what happens: at a second, some frames from one device to another. A tag of VID 0 is a priority tag. */

/* When the drive has no link. */
enum { UNPLUGGED = 20, BACK = 700 };

enum { UNTAGGED = -1, PRIORITY = 0, CONTROL = 20, VISION = 30, UNKNOWN = 99 };

static const struct happening {
    uint32_t second, port;
    const char *words;
    enum device from, to;
    int vid, pcp;
    size_t length;
    int count;
} script[] = {
    {1, CONTROLLER_PORT, "The controller asks who is there.", CONTROLLER, EVERYBODY, UNTAGGED, 0, LEAST_FRAME, 1},
    {2, DRIVE_PORT, "The drive answers, with a priority tag.", DRIVE, CONTROLLER, PRIORITY, 5, TAGGED_FRAME, 1},
    {3, PLANT_PORT, "The plant sends an order.", PLANT, CONTROLLER, CONTROL, 3, TAGGED_FRAME, 1},
    {4, PLANT_PORT, "The plant's bridge sends a BPDU.", BRIDGE, BRIDGES, UNTAGGED, 0, LEAST_FRAME, 1},
    {5, PLANT_PORT, "Somebody in the plant forgets the tag.", PLANT, CONTROLLER, UNTAGGED, 0, LEAST_FRAME, 1},
    {6, PLANT_PORT, "And takes a VLAN that is not ours.", PLANT, CONTROLLER, UNKNOWN, 0, TAGGED_FRAME, 1},
    {7, DRIVE_PORT, "A collision leaves a fragment.", DRIVE, CONTROLLER, UNTAGGED, 0, SHORT_FRAME, 1},
    {8, CAMERA_PORT, "The camera sends a picture.", CAMERA, PLANT, UNTAGGED, 0, FULL_FRAME, 5},
    {9, CONTROLLER_PORT, "The controller's alarm overtakes it.", CONTROLLER, PLANT, UNTAGGED, 0, LEAST_FRAME, 1},
    {UNPLUGGED, CONTROLLER_PORT, "The drive is unplugged.", CONTROLLER, DRIVE, UNTAGGED, 0, LEAST_FRAME, 2},
    {BACK, CONTROLLER_PORT, "The drive is back.", CONTROLLER, DRIVE, UNTAGGED, 0, LEAST_FRAME, 1},
    {BACK + 1, CAMERA_PORT, "A static address never goes.", CAMERA, PLANT, UNTAGGED, 0, LEAST_FRAME, 1},
};
enum { HAPPENINGS = sizeof script / sizeof *script };

static bool drive_is_unplugged(uint32_t second) { return UNPLUGGED <= second && second < BACK; }

/* ---- frames on the wires */

static uint32_t now;

static unsigned two_bytes(const uint8_t *at) { return at[0] * 256u + at[1]; }

static void put_two_bytes(uint8_t *at, unsigned value)
{
    at[0] = (uint8_t)(value / 256);
    at[1] = (uint8_t)(value % 256);
}

static void build(const struct happening *happening, uint8_t *frame)
{
    uint8_t *type = frame + TYPE_AT;
    memset(frame, 0, happening->length);
    memcpy(frame, devices[happening->to].address, ADDRESS_BYTES);
    memcpy(frame + ADDRESS_BYTES, devices[happening->from].address, ADDRESS_BYTES);
    if (happening->vid != UNTAGGED) {
        put_two_bytes(type, TAG_TYPE);
        put_two_bytes(type + 2, (unsigned)(happening->pcp << PCP_SHIFT | happening->vid));
        type += TAG_BYTES;
    }
    put_two_bytes(type, PAYLOAD_TYPE);
}

static const char *name_of(const uint8_t *address)
{
    for (int device = 0; device < DEVICES; device++)
        if (memcmp(devices[device].address, address, ADDRESS_BYTES) == 0)
            return devices[device].name;
    return "somebody";
}

static void tell(uint32_t port, const char *does, const uint8_t *frame, size_t length)
{
    printf("%4u s  port %u %s %zu bytes, %s to %s, ", (unsigned)now, (unsigned)port, does, length,
           name_of(frame + ADDRESS_BYTES), name_of(frame));
    if (two_bytes(frame + TYPE_AT) == TAG_TYPE) {
        unsigned header = two_bytes(frame + TYPE_AT + 2);
        printf("tag of VID %u, PCP %u\n", header % (1u << VID_BITS), header >> PCP_SHIFT);
    } else
        printf("untagged\n");
}

/* ---- the MACs */

static struct {
    struct {
        size_t length;
        uint8_t bytes[MOST_BYTES];
    } received[QUEUE_FRAMES];
    int first, count, sent;
} macs[PORTS];

static void arrive(const struct happening *happening)
{
    printf("\n%s\n", happening->words);
    for (int i = 0; i < happening->count && macs[happening->port].count < QUEUE_FRAMES; i++) {
        int last = (macs[happening->port].first + macs[happening->port].count++) % QUEUE_FRAMES;
        macs[happening->port].received[last].length = happening->length;
        build(happening, macs[happening->port].received[last].bytes);
    }
}

static bool has_received(void)
{
    for (int port = 0; port < PORTS; port++)
        if (macs[port].count > 0)
            return true;
    return false;
}

/* Time goes on when all that has come in is handed over; then the MACs can send again. */
bool mac_wait(uint32_t *seconds)
{
    static int next;
    if (!has_received()) {
        now++;
        for (; next < HAPPENINGS && script[next].second == now; next++)
            arrive(&script[next]);
        for (int port = 0; port < PORTS; port++)
            macs[port].sent = 0;
    }
    *seconds = now;
    return now <= LAST_SECOND;
}

const uint8_t *mac_receive(uint32_t port, size_t *length)
{
    if (macs[port].count == 0)
        return NULL;
    int oldest = macs[port].first;
    macs[port].first = (oldest + 1) % QUEUE_FRAMES;
    macs[port].count--;
    *length = macs[port].received[oldest].length;
    tell(port, "receives", macs[port].received[oldest].bytes, *length);
    return macs[port].received[oldest].bytes;
}

enum mac_line mac_line(uint32_t port)
{
    if (port == DRIVE_PORT && drive_is_unplugged(now))
        return MAC_HAS_NO_LINK;
    return macs[port].sent < SENDS_A_SECOND ? MAC_CAN_SEND : MAC_IS_BUSY;
}

void mac_send(uint32_t port, const uint8_t *frame, size_t length)
{
    macs[port].sent++;
    tell(port, "sends", frame, length);
}
