/* Discovery on one interface: Hellos to all routers on the link, and the peer's Hellos taken. */
#ifndef HELLO_H
#define HELLO_H

#include "cabinet.h"

#define LDP_PORT 646

typedef struct {
    int fd;
    int64_t send_at;  /* when our next Hello is due */
    int64_t lost_at;  /* when the peer counts as gone, if no Hello comes; NEVER where none has come */
    uint32_t transport; /* the peer's transport address */
} hello;

/* No discovery. */
void hello_none(hello *h);
/* Opens the socket on the interface with that address; 0 where that failed. */
int hello_begin(hello *h, uint32_t interface_address);
/* Sends our Hello; our transport address is our LSR identifier. */
void hello_send(hello *h, uint32_t our_lsr);
/* Takes what came. */
void hello_read(hello *h, uint32_t peer_lsr);
/* There is no adjacency any more. */
void hello_forget(hello *h);

#endif
