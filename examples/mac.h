/* What the driver asks of its five MACs. A real driver puts its own code behind these four functions; mac.c
 * stands in for it here. */
#ifndef MAC_H
#define MAC_H

#include <stdbool.h>
#include <stddef.h>
#include <stdint.h>

/* Waits until there is something to do: a frame has come in, a MAC can send again, or a second has passed. Gives
 * the seconds since the start. False ends the driver, which a real one never does. */
bool mac_wait(uint32_t *seconds);

/* The oldest frame that a port's MAC has received and not yet handed over, without its FCS; NULL if there is none.
 * Its bytes stay until the next call for this port. */
const uint8_t *mac_receive(uint32_t port, size_t *length);

/* Whether a port's MAC has room for a frame of any length, has none at present, or has no link. */
enum mac_line { MAC_CAN_SEND, MAC_IS_BUSY, MAC_HAS_NO_LINK };
enum mac_line mac_line(uint32_t port);

/* Sends a frame, to which the MAC adds the FCS. Its bytes are copied before this returns. */
void mac_send(uint32_t port, const uint8_t *frame, size_t length);

#endif
