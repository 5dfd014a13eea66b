/* Label Requests and their Aborts. Which Requests of ours are open the image knows, by their IDs, over breaks and power cuts. What each was for is kept
   here, and so are the peer's, which do not come again once they are stored as taken: a cabinet that must answer them after a power cut stores them too,
   before block 0. */
#include "cabinet.h"

#include <string.h>

/* ---- ours ---- */

static int is_open(const cabinet *c, uint32_t id) {
    for (uint32_t place = 0; place < LDP_FT_LABEL_WORDS; place++) {
        ldp_ft_request r = ldp_ft_request_at(c->store.image, sizeof c->store.image, place);
        if (r.open == 1 && r.id == id) return 1;
    }
    return 0;
}

/* Those that are answered, aborted or gone with their state. */
static void forget_ended(cabinet *c) {
    size_t left = 0;
    for (size_t i = 0; i < c->request_count; i++) {
        request q = c->requests[i];
        if (is_open(c, q.id)) c->requests[left++] = q;
    }
    c->request_count = left;
}

void requests_ask(cabinet *c, wire_prefix prefix) {
    uint8_t msg[LDP_FT_MESSAGE_MAX];
    request q = {.id = cabinet_new_id(c)};
    q.fec_len = wire_fec(q.fec, prefix);
    forget_ended(c);
    if (c->request_count == LDP_FT_LABEL_WORDS || !cabinet_submit(c, msg, wire_request_message(msg, q.id, q.fec, q.fec_len))) {
        say("ask: not now");
        return;
    }
    c->requests[c->request_count++] = q;
    say("asked: Request %u", (unsigned)q.id);
}

void requests_abort(cabinet *c, uint32_t id) {
    uint8_t msg[LDP_FT_MESSAGE_MAX];
    forget_ended(c);
    for (size_t i = 0; i < c->request_count; i++) {
        request q = c->requests[i];
        if (q.id != id) continue;
        if (cabinet_submit(c, msg, wire_abort_message(msg, cabinet_new_id(c), q.fec, q.fec_len, id))) say("aborted: Request %u", (unsigned)id);
        else say("abort: not now");
        return;
    }
    say("abort: no Request %u is open that was made here", (unsigned)id);
}

/* ---- the peer's ---- */

/* A Notification that a message of the peer's with that ID is about; it has no FT number, and the library does not write it. */
static void notify(cabinet *c, uint32_t status, ldp_ft_message about, uint32_t request_id) {
    uint8_t msg[LDP_FT_MESSAGE_MAX];
    cabinet_send_message(c, msg, wire_request_notification(msg, cabinet_new_id(c), status, about.message_id, about.type, request_id));
}

const peer_request *requests_find(const cabinet *c, uint32_t id) {
    for (size_t i = 0; i < c->asked_count; i++) {
        if (c->asked[i].id == id) return &c->asked[i];
    }
    return NULL;
}

void requests_answered(cabinet *c, uint32_t id) {
    size_t left = 0;
    for (size_t i = 0; i < c->asked_count; i++) {
        peer_request q = c->asked[i];
        if (q.id != id) c->asked[left++] = q;
    }
    c->asked_count = left;
}

/* A peer like this one has no more of them open than there are places here; another's is turned down. */
static void request_received(cabinet *c, ldp_ft_message m, const uint8_t *msg) {
    if (c->asked_count == LDP_FT_LABEL_WORDS) {
        notify(c, WIRE_NO_ROUTE, m, m.message_id);
        return;
    }
    peer_request *q = &c->asked[c->asked_count++];
    q->id = m.message_id;
    wire_fec_text(msg + m.fec_start, m.fec_end - m.fec_start, q->fec);
}

/* An Abort of a Request that is answered, or was left out, is not answered (RFC 3036, 3.5.9). */
static void abort_received(cabinet *c, ldp_ft_message m) {
    if (requests_find(c, m.request_id) == NULL) return;
    requests_answered(c, m.request_id);
    notify(c, WIRE_REQUEST_ABORTED, m, m.request_id);
}

void requests_act(cabinet *c, ldp_ft_message m, const uint8_t *msg) {
    if (m.kind == LDP_FT_KIND_REQUEST) request_received(c, m, msg);
    if (m.kind == LDP_FT_KIND_ABORT) abort_received(c, m);
}

void requests_begin_anew(cabinet *c) {
    c->asked_count = 0;
}

void requests_print(const cabinet *c) {
    for (size_t i = 0; i < c->asked_count; i++) say("Request %u of the peer's, %s", (unsigned)c->asked[i].id, c->asked[i].fec);
}
