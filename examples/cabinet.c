#include "cabinet.h"

#include "ldp_ft_text.h"

#include <stdarg.h>
#include <stdio.h>
#include <stdlib.h>
#include <time.h>

#define SECOND 1000
#define FIRST_RETRY 200 /* a broken connection is asked for again soon, within the agreed timeout, */
#define LAST_RETRY 16000 /* and ever more seldom */

int64_t now(void) {
    struct timespec t;
    clock_gettime(CLOCK_MONOTONIC, &t);
    return (int64_t)t.tv_sec * SECOND + t.tv_nsec / 1000000;
}

void say(const char *format, ...) {
    va_list arguments;
    va_start(arguments, format);
    vprintf(format, arguments);
    va_end(arguments);
    putchar('\n');
    fflush(stdout);
}

uint32_t cabinet_new_id(cabinet *c) {
    return ids_next(&c->ids);
}

/* The ID behind those of the Requests that are open and of the messages held: where a store has come without its count, what names one of these means it. */
static uint32_t id_behind(const uint8_t *image) {
    uint32_t last = 0;
    for (uint32_t place = 0; place < LDP_FT_LABEL_WORDS; place++) {
        ldp_ft_request r = ldp_ft_request_at(image, LDP_FT_IMAGE_SIZE, place);
        if (r.id > last) last = r.id;
    }
    uint32_t held = ldp_ft_summarize(image, LDP_FT_IMAGE_SIZE).held;
    for (uint32_t place = 0; place < held; place++) {
        ldp_ft_part part = ldp_ft_held(image, LDP_FT_IMAGE_SIZE, place);
        ldp_ft_message m = ldp_ft_message_read(image + part.start, part.end - part.start);
        if (m.message_id > last) last = m.message_id;
    }
    return last + 1;
}

/* The connection is closed; another is asked for later, and later each time. */
static void close_connection(cabinet *c) {
    connection_close(&c->link);
    c->init_length = 0;
    c->unacknowledged = 0;
    c->keepalive_at = NEVER;
    c->silent_at = NEVER;
    c->binding_count = 0;
    c->retry_at = now() + c->retry_after;
    c->retry_after = c->retry_after * 2 < LAST_RETRY ? c->retry_after * 2 : LAST_RETRY;
}

/* The agreed timeout of the state that is kept, if one is: it is asked for when that state is gone. */
static void remember_timeout(cabinet *c) {
    ldp_ft_summary s = ldp_ft_summarize(c->store.image, sizeof c->store.image);
    if (s.kept == 1) c->timeout = s.timeout;
}

/* Where state is kept the agreed timeout counts, from when the session was up last: a connection on which no Init came does not begin it anew. */
static void wait_for_peer(cabinet *c) {
    remember_timeout(c);
    if (c->failed_at == NEVER) c->failed_at = now();
    c->release_at = c->session.phase == LDP_FT_FAILED && c->timeout != 0 ? c->failed_at + c->timeout : NEVER;
}

/* What follows from an outcome. 1 where it is done: then all is stored, and output may leave. */
static int settle(cabinet *c, ldp_ft_outcome o, const char *call) {
    if (o.answer == LDP_FT_BAD_BLOCK || o.answer == LDP_FT_BAD_FIELD || o.answer == LDP_FT_WRONG_SIZE) {
        say("%s: %s, block %u: memory is damaged; begin again from the store", call, ldp_ft_answer_text(o.answer), (unsigned)o.block);
        exit(3);
    }
    if (o.answer != LDP_FT_DONE && o.answer < LDP_FT_FAILS_FROM) return 0;
    c->session = o.session;
    store_outcome(&c->store, o);
    if (o.answer == LDP_FT_DONE) return 1;
    say("%s: answer %u, %s; %s", call, (unsigned)o.answer, ldp_ft_answer_text(o.answer),
        o.answer < LDP_FT_RELEASES_FROM ? "the connection is closed" : "all labels are given up and the connection is closed");
    close_connection(c);
    wait_for_peer(c);
    return 0;
}

void cabinet_begin(cabinet *c, const char *path, cabinet_settings settings) {
    c->settings = settings;
    c->session = store_begin(&c->store, path);
    ids_begin(&c->ids, path, id_behind(c->store.image));
    c->link.fd = -1;
    close_connection(c);
    c->retry_at = now();
    c->retry_after = FIRST_RETRY;
    c->failed_at = NEVER;
    /* How long the power was off is not known here: the timeout counts from now. A cabinet with a clock stores the time. */
    wait_for_peer(c);
    say("begin %s", ldp_ft_phase_text(c->session.phase));
}

static int in_session(const cabinet *c) {
    return c->session.phase == LDP_FT_INIT_WAIT || c->session.phase == LDP_FT_UP_FT || c->session.phase == LDP_FT_UP_PLAIN;
}

void cabinet_lost(cabinet *c, const char *why) {
    say("connection closed: %s", why);
    close_connection(c);
    if (!in_session(c)) return;
    settle(c, ldp_ft_connection_failed(c->store.image, sizeof c->store.image, c->session), "connection failed");
    wait_for_peer(c);
    say("phase %s", ldp_ft_phase_text(c->session.phase));
}

void cabinet_send_message(cabinet *c, const uint8_t *msg, size_t length) {
    if (c->link.fd >= 0 && !connection_send(&c->link, c->settings.our_lsr, msg, length)) cabinet_lost(c, "it cannot be written to");
}

static void send_keepalive(cabinet *c) {
    uint8_t msg[LDP_FT_KEEPALIVE_ROOM];
    ldp_ft_outcome o = ldp_ft_keepalive(c->store.image, sizeof c->store.image, c->session, cabinet_new_id(c), msg, sizeof msg);
    if (!settle(c, o, "KeepAlive")) return;
    c->unacknowledged = 0;
    c->keepalive_at = now() + c->agreed / 3;
    cabinet_send_message(c, msg, o.length);
}

int cabinet_submit(cabinet *c, const uint8_t *msg, size_t length) {
    ldp_ft_outcome o = ldp_ft_submit(c->store.image, sizeof c->store.image, c->session, msg, length);
    if (settle(c, o, "submit")) return 1;
    /* 64 are held, or a Withdraw or Release of this label is: it is submitted again when some are acknowledged */
    if (o.answer == LDP_FT_STORE_FULL || o.answer == LDP_FT_LABEL_NOT_ALLOWED) return 0;
    say("submit: answer %u, %s", (unsigned)o.answer, ldp_ft_answer_text(o.answer));
    return 0;
}

void cabinet_send_held(cabinet *c) {
    uint8_t msg[LDP_FT_SEND_ROOM];
    while (c->link.fd >= 0) {
        ldp_ft_outcome o = ldp_ft_send_next(c->store.image, sizeof c->store.image, c->session, true, msg, sizeof msg);
        if (!settle(c, o, "send next")) return;
        if (o.left_out > 0) say("left out %u of ours: aborted before they reached the peer", (unsigned)o.left_out);
        c->unacknowledged = 0;
        cabinet_send_message(c, msg, o.length);
    }
}

/* ---- the Inits ---- */

static void write_init(cabinet *c) {
    ldp_ft_outcome o = ldp_ft_open(c->store.image, sizeof c->store.image, c->session, cabinet_new_id(c), c->settings.keepalive_time, MAX_PDU_LENGTH,
                                   c->settings.peer_lsr, 0, true, c->settings.proposal, false, c->settings.published, c->init, sizeof c->init);
    if (!settle(c, o, "open")) return;
    c->init_length = o.length;
    c->release_at = NEVER; /* time passes in Failed alone */
}

static void send_init(cabinet *c) {
    size_t length = c->init_length;
    c->init_length = 0;
    if (length > 0) cabinet_send_message(c, c->init, length);
}

void cabinet_await(cabinet *c) {
    c->silent_at = now() + (int64_t)c->settings.keepalive_time * SECOND;
}

void cabinet_connected(cabinet *c) {
    cabinet_await(c);
    write_init(c);
    send_init(c);
}

int cabinet_is_peers(const cabinet_settings *s, const uint8_t *pdu) {
    return wire_get32(pdu + 4) == s->peer_lsr && wire_get16(pdu + 8) == 0;
}

/* The parameters are an Init's first TLV, and have 14 bytes. */
int cabinet_init_suits(const cabinet_settings *s, ldp_ft_message m, const uint8_t *msg) {
    if (m.answer != LDP_FT_DONE || m.type != LDP_FT_TYPE_INITIALIZATION || (m.has & LDP_FT_HAS_PARAMETERS) == 0) return 0;
    const uint8_t *parameters = msg + 12;
    return wire_is_parameters(msg + 8) && wire_get16(parameters) == 1 && m.keepalive_time != 0 && wire_get32(parameters + 8) == s->our_lsr &&
           wire_get16(parameters + 12) == 0;
}

/* Both ends begin anew: the peer is told our address, and then all labels that we want to give. */
static void begin_anew(cabinet *c) {
    uint8_t msg[LDP_FT_MESSAGE_MAX];
    size_t length = wire_address_message(msg, cabinet_new_id(c), c->settings.our_lsr);
    labels_begin_anew(c);
    requests_begin_anew(c);
    if (c->session.phase == LDP_FT_UP_FT) cabinet_submit(c, msg, length);
    else cabinet_send_message(c, msg, length);
}

static void come_up(cabinet *c, ldp_ft_message m) {
    uint32_t seconds = m.keepalive_time < c->settings.keepalive_time ? m.keepalive_time : c->settings.keepalive_time;
    int resumed = (c->session.flags & LDP_FT_RESUMED) != 0;
    c->agreed = (int64_t)seconds * SECOND;
    c->retry_after = FIRST_RETRY;
    c->failed_at = NEVER;
    c->silent_at = now() + c->agreed;
    say("up %s%s, KeepAlive time %u s", ldp_ft_phase_text(c->session.phase), resumed ? ", resumed" : "", (unsigned)seconds);
    if ((m.has & LDP_FT_HAS_FT_SESSION) != 0) say("the peer's FT Session has the %s form", m.published == 1 ? "published" : "draft's");
    send_init(c);
    send_keepalive(c);
    if (!resumed) begin_anew(c);
    remember_timeout(c);
}

/* What the library judges is left to it: that this is an Init, well formed and with parameters. */
static void take_init(cabinet *c, const uint8_t *msg, size_t length) {
    ldp_ft_message m = ldp_ft_message_read(msg, length);
    if ((m.has & LDP_FT_HAS_PARAMETERS) != 0 && m.type == LDP_FT_TYPE_INITIALIZATION && !cabinet_init_suits(&c->settings, m, msg)) {
        cabinet_lost(c, "the peer's parameters do not suit us");
        return;
    }
    ldp_ft_outcome o = ldp_ft_init_received(c->store.image, sizeof c->store.image, c->session, msg, length);
    if (settle(c, o, "Init received")) come_up(c, m);
}

/* ---- what comes ---- */

static void take_message(cabinet *c, const uint8_t *msg, size_t length) {
    if (c->session.phase == LDP_FT_IDLE || c->session.phase == LDP_FT_FAILED) write_init(c);
    if (c->session.phase == LDP_FT_INIT_WAIT) {
        take_init(c, msg, length);
        return;
    }
    c->silent_at = now() + c->agreed;
    ldp_ft_message m = ldp_ft_message_read(msg, length);
    ldp_ft_outcome o = ldp_ft_receive(c->store.image, sizeof c->store.image, c->session, msg, length);
    if (!settle(c, o, "receive")) return;
    if (o.left_out > 0) say("the peer left out %u before number %u", (unsigned)o.left_out, (unsigned)m.number);
    if ((m.has & LDP_FT_HAS_FT_PROTECTION) != 0) c->unacknowledged = 1;
    requests_act(c, m, msg);
    labels_act(c, m, msg);
}

/* The messages of a PDU one by one, as long as the connection stands. */
static void take_pdu(cabinet *c, size_t length) {
    const uint8_t *pdu = c->link.in;
    ldp_ft_pdu judged = ldp_ft_pdu_open(pdu, length);
    if (judged.answer != LDP_FT_DONE || !cabinet_is_peers(&c->settings, pdu)) {
        cabinet_lost(c, "a malformed PDU, or another LSR's");
        return;
    }
    size_t at = LDP_FT_PDU_HEADER;
    for (uint32_t i = 0; i < judged.count && c->link.fd >= 0; i++) {
        ldp_ft_part part = ldp_ft_pdu_message(pdu, length, at);
        take_message(c, pdu + part.start, part.end - part.start);
        at = part.end;
    }
    if (c->link.fd >= 0) connection_drop(&c->link, length);
}

/* What has come is acted on, and answered. */
static void take_pdus(cabinet *c) {
    size_t length = 0;
    while (c->link.fd >= 0) {
        pdu_state state = connection_pdu(&c->link, &length);
        if (state == PDU_INCOMPLETE) break;
        if (state == PDU_WHOLE) take_pdu(c, length);
        else cabinet_lost(c, "no PDU, or one that is too long");
    }
    labels_reconcile(c);
    cabinet_send_held(c);
    if (c->link.fd >= 0 && c->unacknowledged) send_keepalive(c);
}

void cabinet_read(cabinet *c) {
    if (connection_read(&c->link)) take_pdus(c);
    else cabinet_lost(c, "the peer closed it");
}

void cabinet_admit(cabinet *c, const connection *link) {
    if (c->link.fd >= 0) cabinet_lost(c, "the peer has connected anew");
    c->link = *link;
    cabinet_await(c);
    take_pdus(c);
}

/* ---- timers ---- */

/* Our clock counts milliseconds, as ldp_ft_time_passed does; more than it has bits for is as long as any timeout. */
static void release_in_time(cabinet *c) {
    int64_t elapsed = now() - c->failed_at;
    uint32_t milliseconds = elapsed < UINT32_MAX ? (uint32_t)elapsed : UINT32_MAX;
    c->release_at = NEVER;
    if (!settle(c, ldp_ft_time_passed(c->store.image, sizeof c->store.image, c->session, milliseconds), "time passed")) return;
    say("the agreed timeout is over: all labels are given up");
    labels_begin_anew(c);
    requests_begin_anew(c);
}

void cabinet_tick(cabinet *c) {
    if (now() >= c->silent_at) cabinet_lost(c, "nothing came for the KeepAlive time");
    if (now() >= c->keepalive_at) send_keepalive(c);
    if (now() >= c->release_at) release_in_time(c);
}

int64_t cabinet_deadline(const cabinet *c) {
    int64_t first = c->silent_at < c->keepalive_at ? c->silent_at : c->keepalive_at;
    return first < c->release_at ? first : c->release_at;
}
