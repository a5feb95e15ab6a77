/* "Tags on leaving" of docs/RULES.md: the VLAN's operation, then the departing port's, on the stack of the decoded tags. */
#include "foretold_parts.h"

#include <string.h>

enum { ADDRESS_BYTES = 12, TAG_BYTES = 4, LEAST_BYTES = 60 };

/* A header is PCP, DEI and VID as they stand in a tag. */
struct tag {
    uint32_t type, header;
};

/* At most two decoded tags and two new ones; the outermost is the last of the array. */
struct stack {
    uint32_t count;
    struct tag tags[4];
};

/* What new fields come from: "New fields never come from an earlier operation." */
struct originals {
    uint32_t header[2];          /* of the outermost and the second tag, or the default header */
};

static struct tag tag_at(const uint8_t *frame, uint32_t which)
{
    const uint8_t *b = frame + ADDRESS_BYTES + TAG_BYTES * which;
    return (struct tag){256u * b[0] + b[1], 256u * b[2] + b[3]};
}

static uint32_t count_tags(const uint8_t *frame)
{
    uint32_t tags = 0;
    while (tags < 2 && (tag_at(frame, tags).type == 0x8100 || tag_at(frame, tags).type == 0x88A8))
        tags++;
    return tags;
}

/* The stored default header has DEI in bit 0, PCP in bits 1 to 3 and VID above. */
static uint32_t header_of_default(uint32_t d) { return (d >> 1 & 7) << 13 | (d & 1) << 12 | d >> 4; }

static struct tag new_tag(uint32_t operation, const struct originals *o)
{
    uint32_t vid_source = operation >> 4 & 3, pcp_source = operation >> 6 & 3;
    uint32_t given = (operation >> 9 & 7) << 13 | (operation >> 8 & 1) << 12 | operation >> 12;
    uint32_t vid = vid_source < 2 ? o->header[vid_source] : given, pcp = pcp_source < 2 ? o->header[pcp_source] : given;
    return (struct tag){(operation >> 3 & 1) != 0 ? 0x88A8 : 0x8100, (pcp & 0xF000) | (vid & 0x0FFF)};
}

static void pop(struct stack *s) { s->count -= s->count > 0; }

static void push(struct stack *s, struct tag tag) { s->tags[s->count++] = tag; }

/* Kinds: 0 none, 1 pop, 2 push, 3 swap, 4 to 7 pop-all. */
static void operate(struct stack *s, uint32_t operation, const struct originals *o)
{
    uint32_t kind = operation & 7;
    if (kind == 1 || kind == 3)
        pop(s);
    if (kind == 2 || kind == 3)
        push(s, new_tag(operation, o));
    if (kind >= 4)
        s->count = 0;
}

static uint8_t *write_tags(const struct stack *s, uint8_t *out)
{
    for (uint32_t i = s->count; i-- > 0; out += TAG_BYTES) {
        out[0] = (uint8_t)(s->tags[i].type >> 8);
        out[1] = (uint8_t)s->tags[i].type;
        out[2] = (uint8_t)(s->tags[i].header >> 8);
        out[3] = (uint8_t)s->tags[i].header;
    }
    return out;
}

uint32_t write_leaving(const uint8_t *frame, const struct stored *stored, uint32_t port_operation, uint8_t *out)
{
    uint32_t tags = count_tags(frame), missing = header_of_default(stored->default_header);
    const struct originals o = {{tags > 0 ? tag_at(frame, 0).header : missing, tags > 1 ? tag_at(frame, 1).header : missing}};
    struct stack s = {0};
    for (uint32_t i = tags; i-- > 0;)
        push(&s, tag_at(frame, i));
    if (stored->operation != NO_TAG_OPERATION) {
        operate(&s, stored->operation, &o);
        operate(&s, port_operation, &o);
    }
    uint32_t behind = ADDRESS_BYTES + TAG_BYTES * tags, payload = stored->length - behind;
    memcpy(out, frame, ADDRESS_BYTES);
    uint8_t *end = write_tags(&s, out + ADDRESS_BYTES);
    memcpy(end, frame + behind, payload);
    uint32_t written = ADDRESS_BYTES + TAG_BYTES * s.count + payload;
    for (; written < LEAST_BYTES; written++)
        out[written] = 0;
    return written;
}
