/* What we want the peer to have, held against what the image lists: whatever is not yet so is submitted, again and again until it is. So a cabinet
   needs no memory of how far it came, neither after a break nor after a release. What a label leads to is not kept here: a cabinet that
   switches packets stores that too, before it stores block 0. */
#include "cabinet.h"

#include "ldp_ft_text.h"
#include "show.h"

#include <string.h>

/* The wildcard FEC: beside a label it means that label, whatever FEC it was given for. */
static const uint8_t every_fec[1] = {1};

static int is_ours(uint32_t code) {
    return code == LDP_FT_CODE_GIVEN || code == LDP_FT_CODE_WITHDRAWING || code == LDP_FT_CODE_WITHDRAWN_ACKED || code == LDP_FT_CODE_WITHDRAWN_RELEASED;
}

/* The place of a label of ours; LDP_FT_LABEL_WORDS where it is not listed. */
static uint32_t our_place(const uint32_t words[LDP_FT_LABEL_WORDS], uint32_t label) {
    uint32_t place = 0;
    while (place < LDP_FT_LABEL_WORDS && (!is_ours(LDP_FT_WORD_CODE(words[place])) || LDP_FT_WORD_LABEL(words[place]) != label)) place++;
    return place;
}

/* The code of a label of ours; LDP_FT_CODE_FREE where it is not listed. */
static uint32_t our_code(const uint32_t words[LDP_FT_LABEL_WORDS], uint32_t label) {
    uint32_t place = our_place(words, label);
    return place < LDP_FT_LABEL_WORDS ? LDP_FT_WORD_CODE(words[place]) : LDP_FT_CODE_FREE;
}

static offer *find(cabinet *c, uint32_t label) {
    for (size_t i = 0; i < c->offer_count; i++) {
        if (c->offers[i].label == label) return &c->offers[i];
    }
    return NULL;
}

/* A Mapping, which may answer a Request, or a Withdraw. */
static size_t write_offer(cabinet *c, uint8_t *msg, uint32_t type, const offer *o) {
    if (type == LDP_FT_TYPE_MAPPING && o->answers) return wire_answer_message(msg, cabinet_new_id(c), o->fec, o->fec_len, o->label, o->request_id);
    return wire_label_message(msg, type, cabinet_new_id(c), o->fec, o->fec_len, o->label);
}

/* ---- with fault tolerance ---- */

static void reconcile_offer(cabinet *c, offer *o, uint32_t code) {
    uint8_t msg[LDP_FT_MESSAGE_MAX];
    if (!o->taken_back && !o->released && code == LDP_FT_CODE_FREE) cabinet_submit(c, msg, write_offer(c, msg, LDP_FT_TYPE_MAPPING, o));
    if (o->taken_back && code == LDP_FT_CODE_GIVEN) cabinet_submit(c, msg, write_offer(c, msg, LDP_FT_TYPE_WITHDRAW, o));
}

/* A label that the peer asked back is released. */
static void release_asked_back(cabinet *c, const uint32_t words[LDP_FT_LABEL_WORDS]) {
    uint8_t msg[LDP_FT_MESSAGE_MAX];
    for (size_t i = 0; i < LDP_FT_LABEL_WORDS; i++) {
        if (LDP_FT_WORD_CODE(words[i]) != LDP_FT_CODE_ASKED_BACK) continue;
        cabinet_submit(c, msg, wire_label_message(msg, LDP_FT_TYPE_RELEASE, cabinet_new_id(c), every_fec, sizeof every_fec, LDP_FT_WORD_LABEL(words[i])));
    }
}

static void reconcile_kept(cabinet *c) {
    uint32_t words[LDP_FT_LABEL_WORDS] = {0};
    ldp_ft_labels(c->store.image, sizeof c->store.image, words, LDP_FT_LABEL_WORDS);
    for (size_t i = 0; i < c->offer_count; i++) reconcile_offer(c, &c->offers[i], our_code(words, c->offers[i].label));
    release_asked_back(c, words);
}

/* ---- a plain peer ---- */

static void reconcile_plain(cabinet *c) {
    uint8_t msg[LDP_FT_MESSAGE_MAX];
    for (size_t i = 0; i < c->offer_count; i++) {
        offer *o = &c->offers[i];
        if (o->sent != o->taken_back) continue;
        cabinet_send_message(c, msg, write_offer(c, msg, o->sent ? LDP_FT_TYPE_WITHDRAW : LDP_FT_TYPE_MAPPING, o));
        o->sent = !o->sent;
    }
}

static void plain_mapping(cabinet *c, uint32_t label, const char *fec) {
    if (c->binding_count == LDP_FT_LABEL_WORDS) return;
    plain_binding *b = &c->bindings[c->binding_count++];
    b->label = label;
    memcpy(b->fec, fec, sizeof b->fec);
}

static void plain_withdraw(cabinet *c, uint32_t label, const char *fec) {
    size_t left = 0;
    for (size_t i = 0; i < c->binding_count; i++) {
        plain_binding b = c->bindings[i];
        if (b.label == label && strcmp(b.fec, fec) == 0) continue;
        c->bindings[left++] = b;
    }
    c->binding_count = left;
}

/* The Release that answers a Withdraw names the same FEC and label. */
static void answer_withdraw(cabinet *c, ldp_ft_message m, const uint8_t *msg) {
    uint8_t release[LDP_FT_MESSAGE_MAX];
    size_t fec_len = m.fec_end - m.fec_start;
    if (fec_len > sizeof release - 23) return;
    cabinet_send_message(c, release, wire_label_message(release, LDP_FT_TYPE_RELEASE, cabinet_new_id(c), msg + m.fec_start, fec_len, m.label));
}

static void act_plain(cabinet *c, ldp_ft_message m, const uint8_t *msg, const char *fec) {
    if (m.kind == LDP_FT_KIND_MAPPING) plain_mapping(c, m.label, fec);
    if (m.kind != LDP_FT_KIND_WITHDRAW || (m.has & LDP_FT_HAS_LABEL) == 0) return;
    plain_withdraw(c, m.label, fec);
    answer_withdraw(c, m, msg);
}

/* ---- both ---- */

void labels_reconcile(cabinet *c) {
    if (c->session.phase == LDP_FT_UP_FT || c->session.phase == LDP_FT_FAILED) reconcile_kept(c);
    if (c->session.phase == LDP_FT_UP_PLAIN) reconcile_plain(c);
}

/* A label that was taken back and is free may be given again: it is forgotten. So is the one that is to be given, if the peer has released it. */
static void forget_free(cabinet *c, uint32_t label) {
    size_t left = 0;
    for (size_t i = 0; i < c->offer_count; i++) {
        offer o = c->offers[i];
        int given_up = o.taken_back || (o.released && o.label == label);
        if (!given_up || o.free_at > now()) c->offers[left++] = o;
    }
    c->offer_count = left;
}

/* 1 where it can be given: then it is, as soon as the session allows. */
static int offer_label(cabinet *c, offer o) {
    forget_free(c, o.label);
    if (o.label < LDP_FT_LABEL_FIRST || o.label > LDP_FT_LABEL_LAST || find(c, o.label) != NULL || c->offer_count == LDP_FT_LABEL_WORDS) {
        say("give: label %u is none that can be given now", (unsigned)o.label);
        return 0;
    }
    c->offers[c->offer_count++] = o;
    labels_reconcile(c);
    return 1;
}

static offer offer_of(uint32_t label, wire_prefix prefix) {
    offer o = {.label = label, .free_at = NEVER};
    o.fec_len = wire_fec(o.fec, prefix);
    return o;
}

void labels_give(cabinet *c, uint32_t label, wire_prefix prefix) {
    offer_label(c, offer_of(label, prefix));
}

void labels_answer(cabinet *c, uint32_t label, wire_prefix prefix, uint32_t request_id) {
    char fec[WIRE_PREFIX_TEXT];
    offer o = offer_of(label, prefix);
    const peer_request *q = requests_find(c, request_id);
    wire_fec_text(o.fec, o.fec_len, fec);
    if (q == NULL || strcmp(q->fec, fec) != 0) {
        say("give: no Request %u of the peer's asks for %s", (unsigned)request_id, fec);
        return;
    }
    o.answers = 1;
    o.request_id = request_id;
    if (offer_label(c, o)) requests_answered(c, request_id);
}

/* A label that was given before this program began: of its FEC no more is known than its prefix, if it has one. */
static offer *find_listed(cabinet *c, uint32_t label) {
    uint32_t words[LDP_FT_LABEL_WORDS] = {0};
    ldp_ft_labels(c->store.image, sizeof c->store.image, words, LDP_FT_LABEL_WORDS);
    if (our_code(words, label) != LDP_FT_CODE_GIVEN || c->offer_count == LDP_FT_LABEL_WORDS) return NULL;
    ldp_ft_prefix p = ldp_ft_prefix_at(c->store.image, sizeof c->store.image, our_place(words, label));
    offer *o = &c->offers[c->offer_count++];
    if (p.indexed == 1) *o = offer_of(label, (wire_prefix){.address = p.prefix, .length = p.length});
    else *o = (offer){.label = label, .fec = {every_fec[0]}, .fec_len = sizeof every_fec, .free_at = NEVER};
    return o;
}

void labels_take_back(cabinet *c, uint32_t label) {
    offer *o = find(c, label);
    if (o == NULL) o = find_listed(c, label);
    if (o == NULL) {
        say("withdraw: label %u is not given", (unsigned)label);
        return;
    }
    o->taken_back = 1;
    labels_reconcile(c);
}

/* A Request is known by its ID: its own, and that which an Abort or an answer names. */
static void say_received(ldp_ft_message m, const char *fec) {
    const char *type = ldp_ft_type_text(m.type), *before_fec = fec[0] == 0 ? "" : ": ";
    if (m.type == LDP_FT_TYPE_KEEPALIVE) return;
    if (m.kind == LDP_FT_KIND_REQUEST) say("received %s %u%s%s", type, (unsigned)m.message_id, before_fec, fec);
    else if (m.kind == LDP_FT_KIND_ABORT) say("received %s for Request %u%s%s", type, (unsigned)m.request_id, before_fec, fec);
    else if ((m.has & LDP_FT_HAS_LABEL) == 0) say("received %s%s%s", type, before_fec, fec);
    else if ((m.has & LDP_FT_HAS_REQUEST_ID) != 0) say("received %s: label %u, %s, for Request %u", type, (unsigned)m.label, fec, (unsigned)m.request_id);
    else say("received %s: label %u, %s", type, (unsigned)m.label, fec);
}

/* A Release is of the label that it names; where it names none, of all that have its FEC, and of the wildcard FEC of every one. */
static int is_of(const offer *o, ldp_ft_message m, const char *fec) {
    char ours[WIRE_PREFIX_TEXT], every[WIRE_PREFIX_TEXT];
    if ((m.has & LDP_FT_HAS_LABEL) != 0) return o->label == m.label;
    wire_fec_text(o->fec, o->fec_len, ours);
    wire_fec_text(every_fec, sizeof every_fec, every);
    return strcmp(fec, ours) == 0 || strcmp(fec, every) == 0;
}

static void take_release(cabinet *c, ldp_ft_message m, const char *fec) {
    for (size_t i = 0; i < c->offer_count; i++) {
        offer *o = &c->offers[i];
        if (!is_of(o, m, fec)) continue;
        o->released = 1;
        o->free_at = now();
    }
}

void labels_act(cabinet *c, ldp_ft_message m, const uint8_t *msg) {
    char fec[WIRE_PREFIX_TEXT] = "";
    if ((m.has & LDP_FT_HAS_FEC) != 0) wire_fec_text(msg + m.fec_start, m.fec_end - m.fec_start, fec);
    say_received(m, fec);
    if (m.kind == LDP_FT_KIND_RELEASE) take_release(c, m, fec);
    if (c->session.phase == LDP_FT_UP_PLAIN) act_plain(c, m, msg, fec);
}

/* A label that was being taken back may be in use at the peer until the timeout has passed; with a timeout of zero this program does not give it again. */
void labels_begin_anew(cabinet *c) {
    for (size_t i = 0; i < c->offer_count; i++) {
        offer *o = &c->offers[i];
        o->released = 0;
        o->sent = 0;
        o->answers = 0;
        if (o->taken_back && o->free_at == NEVER && c->timeout != 0) o->free_at = now() + c->timeout;
    }
}

static void print_bindings(const cabinet *c) {
    for (size_t i = 0; i < c->binding_count; i++) say("label %u of the plain peer, %s", (unsigned)c->bindings[i].label, c->bindings[i].fec);
}

void labels_print(const cabinet *c) {
    show_labels(c->store.image);
    print_bindings(c);
    requests_print(c);
    say("labels end");
}
