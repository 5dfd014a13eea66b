/* Where the connection with the peer comes from: we listen, or connect, or Hellos say who does; and whose connections are taken. */
#ifndef ROUTE_H
#define ROUTE_H

#include "cabinet.h"
#include "hello.h"
#include "newcomer.h"

typedef enum { LISTENS, CONNECTS, DISCOVERS } route_role;

typedef struct {
    route_role role;
    uint32_t ours;      /* our address; with discovery our LSR identifier, as our Hellos say */
    uint32_t peers;     /* the peer's; with discovery its Hellos say it */
    uint32_t interface; /* with discovery: the address of the interface */
    uint16_t port;
    md5_key key;
    int listening; /* a socket, or -1 */
    hello hello;
    newcomer newcomer;
} route;

/* Opens the sockets; NULL, or what could not be had. */
const char *route_begin(route *r);
/* A connection is to be accepted; a Hello has come. */
void route_accept(route *r, const cabinet *c);
void route_hello(route *r, const cabinet *c);
/* What the clock asks for: our Hellos, the peer's that did not come, a connection asked for again; and the first deadline. */
void route_tick(route *r, cabinet *c);
int64_t route_deadline(const route *r, const cabinet *c);

#endif
