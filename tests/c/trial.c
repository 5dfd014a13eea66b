/* Two cabinets and what is expected of a call; and all trials, one after the other. */
#include "trial.h"

#include <stdio.h>
#include <stdlib.h>
#include <string.h>

cabinet ours, peer;
uint8_t out[504];
const uint8_t fresh_init[34] = FRESH_INIT;

void expect(uint32_t found, uint32_t wanted, const char *what) {
    if (found != wanted) {
        printf("%s: %u, and %u is wanted\n", what, (unsigned)found, (unsigned)wanted);
        exit(1);
    }
}

void expect_written(size_t length, const uint8_t *wanted, size_t wanted_length, const char *what) {
    expect((uint32_t)length, (uint32_t)wanted_length, what);
    for (size_t i = 0; i < length; i++) expect(out[i], wanted[i], what);
}

uint32_t word(uint32_t label, uint32_t code) {
    return code == LDP_FT_CODE_FREE ? 0 : label + 1048576 * code;
}

void begin(cabinet *c) {
    ldp_ft_outcome o = ldp_ft_format(c->image, sizeof c->image);
    expect(o.answer, LDP_FT_DONE, "format");
    expect(o.block0, 1, "format stores block 0");
    expect(o.further, LDP_FT_FURTHER_REQUESTS | LDP_FT_FURTHER_INDEX, "format stores blocks 65 to 67");
    c->session = o.session;
    c->published = false;
    memcpy(c->store, c->image, sizeof c->store);
}

void store_block(cabinet *c, uint32_t block) {
    memcpy(c->store + block * LDP_FT_BLOCK_SIZE, c->image + block * LDP_FT_BLOCK_SIZE, LDP_FT_BLOCK_SIZE);
}

size_t settle(cabinet *c, ldp_ft_outcome o, uint32_t answer, const char *what) {
    expect(o.answer, answer, what);
    c->session = o.session;
    if (o.slot != 0) store_block(c, o.slot);
    for (uint32_t b = 0; b < LDP_FT_BLOCKS - LDP_FT_REQUEST_BLOCK; b++) {
        if ((o.further >> b & 1) != 0) store_block(c, LDP_FT_REQUEST_BLOCK + b);
    }
    if (o.block0 != 0) store_block(c, 0);
    return o.length;
}

void power_cut(cabinet *c) {
    memcpy(c->image, c->store, sizeof c->image);
    settle(c, ldp_ft_restore(c->image, sizeof c->image), LDP_FT_DONE, "restore");
    expect(c->session.phase, LDP_FT_FAILED, "phase after restore");
}

void connection_fails(cabinet *c) {
    settle(c, ldp_ft_connection_failed(c->image, sizeof c->image, c->session), LDP_FT_DONE, "connection failed");
    expect(c->session.phase, LDP_FT_FAILED, "phase after connection failed");
    expect(c->session.flags, 0, "no flags after connection failed");
}

/* Both propose 5 seconds, each in the unit of its form. */
static void open_session(cabinet *c, const uint8_t *wanted, size_t wanted_length) {
    ldp_ft_outcome o = ldp_ft_open(c->image, sizeof c->image, c->session, 0x11223344, 30, 4096, 0x0a000001, 3, true, c->published ? 5000 : 5, false, c->published,
                                   out, sizeof out);
    size_t length = settle(c, o, LDP_FT_DONE, "open");
    expect_written(length, wanted, wanted_length, "Init");
    expect(c->session.phase, LDP_FT_INIT_WAIT, "phase after open");
    expect(c->session.value, 5000, "proposed timeout, milliseconds in either form");
    expect(c->session.flags, 0, "no flags");
}

void connect_both(const uint8_t *our_init, const uint8_t *peers_init, size_t length) {
    connect_forms(our_init, length, peers_init, length, length > sizeof fresh_init ? LDP_FT_RESUMED : 0);
}

void connect_forms(const uint8_t *our_init, size_t our_length, const uint8_t *peers_init, size_t peers_length, uint32_t flags) {
    open_session(&ours, our_init, our_length);
    open_session(&peer, peers_init, peers_length);
    settle(&ours, ldp_ft_init_received(ours.image, sizeof ours.image, ours.session, peers_init, peers_length), LDP_FT_DONE, "Init received");
    settle(&peer, ldp_ft_init_received(peer.image, sizeof peer.image, peer.session, our_init, our_length), LDP_FT_DONE, "Init received by the peer");
    expect(ours.session.phase, LDP_FT_UP_FT, "phase after Init");
    expect(ours.session.flags, flags, "flags after Init");
    expect(peer.session.phase, LDP_FT_UP_FT, "the peer's phase after Init");
    expect(peer.session.flags, flags, "the peer's flags after Init");
}

void begin_both(void) {
    begin(&ours);
    begin(&peer);
    connect_both(fresh_init, fresh_init, sizeof fresh_init);
}

ldp_ft_outcome submit(cabinet *c, const uint8_t *msg, size_t length, uint32_t answer, const char *what) {
    ldp_ft_outcome o = ldp_ft_submit(c->image, sizeof c->image, c->session, msg, length);
    settle(c, o, answer, what);
    return o;
}

size_t send_one(cabinet *c, const char *what) {
    return settle(c, ldp_ft_send_next(c->image, sizeof c->image, c->session, true, out, sizeof out), LDP_FT_DONE, what);
}

void nothing_unsent(cabinet *c) {
    settle(c, ldp_ft_send_next(c->image, sizeof c->image, c->session, true, out, sizeof out), LDP_FT_NOTHING_UNSENT, "nothing unsent");
}

void receive(cabinet *c, const uint8_t *msg, size_t length, uint32_t answer, const char *what) {
    settle(c, ldp_ft_receive(c->image, sizeof c->image, c->session, msg, length), answer, what);
}

void acknowledge(cabinet *from, cabinet *to) {
    size_t length = settle(from, ldp_ft_keepalive(from->image, sizeof from->image, from->session, 7, out, sizeof out), LDP_FT_DONE, "KeepAlive");
    expect((uint32_t)length, LDP_FT_KEEPALIVE_ROOM, "length of a KeepAlive");
    receive(to, out, length, LDP_FT_DONE, "receive KeepAlive");
}

void time_passes(cabinet *c, uint32_t elapsed, uint32_t phase) {
    settle(c, ldp_ft_time_passed(c->image, sizeof c->image, c->session, elapsed), LDP_FT_DONE, "time passed");
    expect(c->session.phase, phase, "phase after time passed");
}

void pass_on_all(cabinet *from, cabinet *to) {
    for (;;) {
        ldp_ft_outcome o = ldp_ft_send_next(from->image, sizeof from->image, from->session, false, out, sizeof out);
        if (o.answer == LDP_FT_NOTHING_UNSENT) return;
        receive(to, out, settle(from, o, LDP_FT_DONE, "send all"), LDP_FT_DONE, "receive all");
    }
}

int main(void) {
    session_trial();
    request_trial();
    left_out_trial();
    label_trial();
    prefix_trial();
    plain_trial();
    image_trial();
    format_trial();
    published_trial();
    convert_trial();
    reading_trial();
    text_trial();
    puts("ldp_ft: a session, Requests, messages left out, labels, prefixes, a plain peer, images, a new one stored, both forms, the converter, readers and texts from C, ok");
    return 0;
}
