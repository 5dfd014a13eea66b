/* A cabinet with one peer: waits for what comes on the console, from the peer, from discovery and from its timers, and lets the session's owner act on it. */
#include "cabinet.h"
#include "console.h"
#include "route.h"
#include "show.h"

#include <errno.h>
#include <limits.h>
#include <poll.h>
#include <stdio.h>
#include <stdlib.h>
#include <string.h>
#include <unistd.h>

static const char usage[] =
    "usage: cabinet [--md5 KEY-FILE] STORE OUR-LSR PEER-LSR HOW [KEEPALIVE-TIME [TIMEOUT [FORM]]]\n"
    "       cabinet show STORE\n"
    "HOW    listen OUR-ADDRESS PEER-ADDRESS PORT, and PORT 0 takes one that is free and prints it;\n"
    "       connect OUR-ADDRESS PEER-ADDRESS PORT;\n"
    "       hello INTERFACE-ADDRESS: discovery on UDP port 646, TCP port 646 between the LSR identifiers.\n"
    "STORE  is made where there is none, and converted where an earlier release left it. One cabinet at a time has it.\n"
    "KEEPALIVE-TIME in seconds (15). FORM is that of FT Session in our Init: draft, the default, with TIMEOUT in seconds (30), or\n"
    "published, with TIMEOUT in milliseconds.\n"
    "--md5  signs the connection (RFC 2385) with the first line of KEY-FILE, as the peer must.\n"
    "Console: give LABEL PREFIX/LENGTH [for REQUEST], withdraw LABEL, ask PREFIX/LENGTH, abort REQUEST, labels, cut, quit\n";

/* What the command line says. */
typedef struct {
    const char *store;
    cabinet_settings settings;
    route route;
} setup;

static cabinet the_cabinet;

static void refuse(const char *what, const char *why) {
    fprintf(stderr, "cabinet: %s: %s. cabinet --help says how it is called.\n", what, why);
    exit(2);
}

/* ---- the words ---- */

static uint32_t address_of(const char *text) {
    uint32_t address;
    if (!wire_read_address(text, &address)) refuse(text, "an address is four numbers up to 255 with dots between");
    return address;
}

static uint16_t number_of(const char *text, uint32_t least, const char *what) {
    uint32_t number = console_number(text, 65535);
    if (number < least || number > 65535) refuse(text, what);
    return (uint16_t)number;
}

/* The timeout that we propose, in the unit of the form that bears it. */
static void set_proposal(cabinet_settings *s, const char *timeout, const char *form) {
    s->published = strcmp(form, "published") == 0;
    if (!s->published && strcmp(form, "draft") != 0) refuse(form, "a form is draft or published");
    s->proposal = console_number(timeout, UINT32_MAX - 1);
    if (s->proposal == UINT32_MAX || (!s->published && s->proposal > 65535)) refuse(timeout, "a timeout is a number, in the draft's form up to 65535");
}

/* The words after PEER-LSR that say how the connection comes; how many they are. */
static int read_route(route *r, uint32_t our_lsr, char **words, int count) {
    r->role = strcmp(words[0], "hello") == 0 ? DISCOVERS : strcmp(words[0], "connect") == 0 ? CONNECTS : LISTENS;
    if (r->role == LISTENS && strcmp(words[0], "listen") != 0) refuse(words[0], "the fourth word is listen, connect or hello");
    int named = r->role == DISCOVERS ? 2 : 4;
    if (count < named) refuse(words[0], "too few words");
    if (r->role == DISCOVERS) {
        r->interface = address_of(words[1]);
        r->ours = our_lsr;
        r->port = LDP_PORT;
        return named;
    }
    r->ours = address_of(words[1]);
    r->peers = address_of(words[2]);
    r->port = number_of(words[3], r->role == CONNECTS, "a port is a number up to 65535, and not 0 to connect to");
    return named;
}

/* Everything is read before anything is opened or stored. */
static void read_words(setup *s, char **words, int count) {
    if (count < 4) refuse("the command line", "too few words");
    s->store = words[0];
    s->settings = (cabinet_settings){address_of(words[1]), address_of(words[2]), 15, 0, 30};
    if (s->settings.our_lsr == s->settings.peer_lsr) refuse(words[2], "the peer has an LSR identifier of its own");
    int named = 3 + read_route(&s->route, s->settings.our_lsr, words + 3, count - 3);
    if (count > named + 3) refuse(words[named + 3], "a word too many");
    if (count > named) s->settings.keepalive_time = number_of(words[named], 1, "a KeepAlive time is a number of seconds from 1 to 65535");
    if (count > named + 1) set_proposal(&s->settings, words[named + 1], count > named + 2 ? words[named + 2] : "draft");
}

static void read_key(setup *s, const char *path) {
    const char *why = md5_read(&s->route.key, path);
    if (why != NULL) refuse(path, why);
}

/* ---- the loop ---- */

static void serve_connection(cabinet *c, short events) {
    if (c->link.connecting) {
        if (!connection_stands(&c->link)) cabinet_lost(c, "it did not come to stand");
        else cabinet_connected(c);
        return;
    }
    if ((events & POLLOUT) != 0 && !connection_flush(&c->link)) cabinet_lost(c, "it cannot be written to");
    if (c->link.fd >= 0 && (events & (POLLIN | POLLHUP | POLLERR)) != 0) cabinet_read(c);
}

static int wait_time(const cabinet *c, const route *r) {
    int64_t first = cabinet_deadline(c), of_route = route_deadline(r, c);
    if (of_route < first) first = of_route;
    if (first == NEVER) return -1;
    int64_t left = first - now();
    return left < 0 ? 0 : left > INT_MAX ? INT_MAX : (int)left;
}

/* A newcomer that waits is heard before the next one is accepted, which takes its place. */
static void run(cabinet *c, route *r) {
    struct pollfd waits[5] = {{STDIN_FILENO, POLLIN, 0}, {r->listening, POLLIN, 0}, {r->hello.fd, POLLIN, 0}, {-1, 0, 0}, {-1, POLLIN, 0}};
    for (;;) {
        waits[3].fd = c->link.fd;
        waits[3].events = connection_events(&c->link);
        waits[4].fd = r->newcomer.link.fd;
        if (poll(waits, 5, wait_time(c, r)) < 0) {
            if (errno == EINTR) continue;
            return;
        }
        if (waits[3].revents != 0) serve_connection(c, waits[3].revents);
        if (waits[4].revents != 0) newcomer_read(&r->newcomer, c);
        if (waits[0].revents != 0 && !console_read(c)) waits[0].fd = -1;
        if (waits[1].revents != 0) route_accept(r, c);
        if (waits[2].revents != 0) route_hello(r, c);
        cabinet_tick(c);
        route_tick(r, c);
    }
}

int main(int argc, char **argv) {
    static setup s;
    if (ldp_ft_version() / 65536 != LDP_FT_VERSION_MAJOR) refuse("the library", "it is of another version than this program");
    if (argc == 2 && strcmp(argv[1], "--help") == 0) return fputs(usage, stdout) < 0;
    if (argc == 3 && strcmp(argv[1], "show") == 0) return show(argv[2]);
    int signs = argc > 2 && strcmp(argv[1], "--md5") == 0 ? 2 : 0;
    read_words(&s, argv + 1 + signs, argc - 1 - signs);
    if (signs != 0) read_key(&s, argv[2]);
    const char *missing = route_begin(&s.route);
    if (missing != NULL) refuse(missing, strerror(errno));
    cabinet_begin(&the_cabinet, s.store, s.settings);
    if (s.route.listening >= 0) say("listening %u", (unsigned)s.route.port);
    run(&the_cabinet, &s.route);
    perror("cabinet: poll");
    return 1;
}
