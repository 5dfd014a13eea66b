#include "route.h"

#include <unistd.h>

/* With discovery the key is set when an adjacency says for which address. */
const char *route_begin(route *r) {
    static const md5_key none;
    newcomer_begin(&r->newcomer);
    hello_none(&r->hello);
    r->listening = -1;
    if (r->role == CONNECTS) return NULL;
    if (r->role == DISCOVERS && !hello_begin(&r->hello, r->interface)) return "discovery on that interface";
    r->listening = connection_listen(r->ours, &r->port, r->peers, r->role == DISCOVERS ? &none : &r->key);
    return r->listening < 0 ? "a socket that listens there" : NULL;
}

/* With discovery only an adjacency says where the peer is (RFC 3036, 2.5.3). */
static int knows_peer(const route *r) {
    return r->role != DISCOVERS || r->hello.lost_at != NEVER;
}

/* The greater transport address connects. */
static int we_connect(const route *r) {
    return r->role == CONNECTS || (r->role == DISCOVERS && knows_peer(r) && r->ours > r->peers);
}

/* NULL where a connection from there is taken. */
static const char *refusal(const route *r, uint32_t from) {
    if (!knows_peer(r)) return "there is no adjacency";
    if (from != r->peers) return "it is not the peer's address";
    return we_connect(r) ? "it is for us to connect" : NULL;
}

/* No Notification says why: one with its E bit set would make a peer that is only too early give up all it keeps. */
void route_accept(route *r, const cabinet *c) {
    char text[WIRE_ADDRESS_TEXT];
    uint32_t from;
    int fd = connection_accept(r->listening, &from);
    if (fd < 0) return;
    const char *why = refusal(r, from);
    if (why == NULL) {
        newcomer_take(&r->newcomer, fd, from, now() + (int64_t)c->settings.keepalive_time * 1000);
        return;
    }
    close(fd);
    wire_address_text(from, text);
    say("turned away a connection from %s: %s", text, why);
}

/* Connections of the peer's are signed from now on. Those that were asked for before may not have been. */
static void begin_adjacency(route *r) {
    uint32_t from;
    r->peers = r->hello.transport;
    if (!md5_set(r->listening, r->peers, &r->key)) {
        say("no key can be set for the peer's address");
        hello_forget(&r->hello);
    }
    for (int fd; (fd = connection_accept(r->listening, &from)) >= 0;) close(fd);
}

void route_hello(route *r, const cabinet *c) {
    int known = knows_peer(r);
    hello_read(&r->hello, c->settings.peer_lsr);
    if (!known && knows_peer(r)) begin_adjacency(r);
}

static void discover(route *r, cabinet *c) {
    if (now() >= r->hello.send_at) hello_send(&r->hello, c->settings.our_lsr);
    if (now() < r->hello.lost_at) return;
    hello_forget(&r->hello);
    newcomer_turn_away(&r->newcomer, "no Hello of the peer's came");
    if (c->link.fd >= 0) cabinet_lost(c, "no Hello of the peer's came");
}

static void ask_for_connection(const route *r, cabinet *c) {
    if (!we_connect(r) || c->link.fd >= 0 || now() < c->retry_at) return;
    connection_ask(&c->link, r->ours, r->peers, r->port, &r->key);
    cabinet_await(c);
    if (c->link.fd < 0) cabinet_lost(c, "it cannot be asked for");
}

void route_tick(route *r, cabinet *c) {
    if (r->role == DISCOVERS) discover(r, c);
    if (now() >= r->newcomer.until) newcomer_turn_away(&r->newcomer, "no Init came for the KeepAlive time");
    ask_for_connection(r, c);
}

int64_t route_deadline(const route *r, const cabinet *c) {
    int64_t first = r->newcomer.until;
    if (r->hello.send_at < first) first = r->hello.send_at;
    if (r->hello.lost_at < first) first = r->hello.lost_at;
    if (we_connect(r) && c->link.fd < 0 && c->retry_at < first) first = c->retry_at;
    return first;
}
