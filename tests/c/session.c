/* A small session between two cabinets: a label given and taken back, power cuts, a break after which what was lost goes out again, and a timeout. */
#include "trial.h"

#include <string.h>

static const uint8_t our_resuming_init[42] = RESUMING_INIT(0);
static const uint8_t peers_resuming_init[42] = RESUMING_INIT(1);
static const uint8_t keepalive[16] = {0x02, 0x01, 0, 12, 0, 0, 0, 7, ACK(2)};
static const uint8_t mapping[27] = OF_LABEL(0x00, 16), withdraw[27] = OF_LABEL(0x02, 16), release[27] = OF_LABEL(0x03, 16);
static const uint8_t mapping_sent[43] = OF_LABEL_SENT(0x00, 16, 1), withdraw_sent[43] = OF_LABEL_SENT(0x02, 16, 2);

/* Where no proposal is given 30 seconds are proposed, and the 9 is not read. On demand is bit A. */
static void open_without_proposal(void) {
    uint8_t init[34];
    memcpy(init, fresh_init, sizeof init);
    init[16] = 0x80;
    init[33] = 30;
    ldp_ft_outcome o =
        ldp_ft_open(ours.image, sizeof ours.image, ours.session, 0x11223344, 30, 4096, 0x0a000001, 3, false, 9, true, false, out, sizeof out);
    expect(o.answer, LDP_FT_DONE, "open without a proposal");
    expect_written(o.length, init, sizeof init, "Init without a proposal");
    expect(o.session.value, 30000, "timeout where none is given");
}

/* All that we have to send is one message, as it is given here; it arrives at the peer. */
static void pass_on(const uint8_t *wanted, size_t wanted_length) {
    size_t length = send_one(&ours, "send next");
    expect_written(length, wanted, wanted_length, "message sent");
    expect(ours.session.value, 1, "count sent");
    receive(&peer, out, length, LDP_FT_DONE, "receive");
    nothing_unsent(&ours);
}

static void submit_to_slot(const uint8_t *msg, size_t length, uint32_t slot) {
    ldp_ft_outcome o = submit(&ours, msg, length, LDP_FT_DONE, "submit");
    expect(o.slot, slot, "slot written");
    expect(o.block0, 1, "block 0 changed");
    expect(o.further & LDP_FT_FURTHER_REQUESTS, 0, "block 65 is as it was");
}

/* The word of label 16 is at the first place. */
static void expect_code(const cabinet *c, uint32_t code, const char *what) {
    expect(ldp_ft_label(c->image, sizeof c->image, 0), word(16, code), what);
}

/* The Withdraw is held, in block 2. */
static void refusals(void) {
    ldp_ft_session nowhere = {5, 77, 9};
    ldp_ft_outcome o = ldp_ft_connection_failed(ours.image, sizeof ours.image, nowhere);
    expect(o.answer, LDP_FT_WRONG_PHASE, "phase 5");
    expect(o.session.phase, 5, "phase as given");
    expect(o.session.value, 77, "value as given");
    expect(o.session.flags, 9, "flags as given");
    expect(ldp_ft_restore(NULL, 0).answer, LDP_FT_WRONG_SIZE, "no image");
    expect(ldp_ft_keepalive(ours.image, sizeof ours.image, ours.session, 1, NULL, 0).answer, LDP_FT_OUTPUT_TOO_SHORT, "no room");
    uint8_t spoilt[LDP_FT_IMAGE_SIZE];
    memcpy(spoilt, ours.image, sizeof spoilt);
    spoilt[2 * LDP_FT_BLOCK_SIZE + 100] ^= 1;
    o = ldp_ft_restore(spoilt, sizeof spoilt);
    expect(o.answer, LDP_FT_BAD_BLOCK, "spoilt image");
    expect(o.block, 2, "spoilt block");
}

/* A label is given and taken back; the power is cut between. */
static void give_and_take_back(void) {
    begin_both();
    submit_to_slot(mapping, sizeof mapping, 1);
    expect_code(&ours, LDP_FT_CODE_GIVEN, "given");
    pass_on(mapping_sent, sizeof mapping_sent);
    expect_code(&peer, LDP_FT_CODE_USING, "in use at the peer");

    /* The peer has stored the Mapping, its acknowledgement is lost, and our power is cut: the peer's Init acknowledges it, and it goes out no more. */
    power_cut(&ours);
    connection_fails(&peer);
    connect_both(our_resuming_init, peers_resuming_init, sizeof our_resuming_init);
    nothing_unsent(&ours);

    submit_to_slot(withdraw, sizeof withdraw, 2);
    expect_code(&ours, LDP_FT_CODE_WITHDRAWING, "being withdrawn");
    pass_on(withdraw_sent, sizeof withdraw_sent);
    expect_code(&peer, LDP_FT_CODE_ASKED_BACK, "asked back from the peer");
    refusals();
    acknowledge(&peer, &ours);
    expect_written(sizeof keepalive, keepalive, sizeof keepalive, "KeepAlive");
    expect_code(&ours, LDP_FT_CODE_WITHDRAWN_ACKED, "withdrawn and acknowledged");
    expect(ours.session.value, 0, "count sent, lowered by the acknowledgement");

    /* The peer has it still: it is not given again. It is free once the peer has released it. */
    submit(&ours, mapping, sizeof mapping, LDP_FT_LABEL_NOT_ALLOWED, "given again before its Release");
    submit(&peer, release, sizeof release, LDP_FT_DONE, "submit Release");
    receive(&ours, out, send_one(&peer, "send Release"), LDP_FT_DONE, "receive Release");
    expect_code(&ours, LDP_FT_CODE_FREE, "free again");
    submit(&ours, mapping, sizeof mapping, LDP_FT_DONE, "given again");
}

/* Labels 20 and 21 are given; 20 arrives, 21 is sent and lost with the connection, 22 is submitted while there is none. What was not
   acknowledged goes out again, the same bytes with the same number, and then what was never sent. */
static void send_again(void) {
    static const uint8_t mappings[3][27] = {OF_LABEL(0x00, 20), OF_LABEL(0x00, 21), OF_LABEL(0x00, 22)};
    static const uint8_t sent[3][43] = {OF_LABEL_SENT(0x00, 20, 1), OF_LABEL_SENT(0x00, 21, 2), OF_LABEL_SENT(0x00, 22, 3)};
    begin_both();
    submit_to_slot(mappings[0], sizeof mappings[0], 1);
    submit_to_slot(mappings[1], sizeof mappings[1], 2);
    receive(&peer, out, send_one(&ours, "first"), LDP_FT_DONE, "receive the first");
    expect_written(send_one(&ours, "second"), sent[1], sizeof sent[1], "second, which is lost");
    expect(ours.session.value, 2, "both sent");
    connection_fails(&ours);
    submit_to_slot(mappings[2], sizeof mappings[2], 3);
    connection_fails(&peer);

    connect_both(our_resuming_init, peers_resuming_init, sizeof our_resuming_init);
    expect(ours.session.value, 0, "none sent on the new connection");
    expect_written(send_one(&ours, "again"), sent[1], sizeof sent[1], "second again");
    receive(&peer, out, sizeof sent[1], LDP_FT_DONE, "receive the second");
    expect_written(send_one(&ours, "third"), sent[2], sizeof sent[2], "third");
    receive(&peer, out, sizeof sent[2], LDP_FT_DONE, "receive the third");
    nothing_unsent(&ours);
    expect(ours.session.value, 2, "two sent on the new connection");
    acknowledge(&peer, &ours);
    expect(ours.session.value, 0, "all acknowledged");
}

/* 5 seconds were agreed: after 4.999 the labels are there, after 5 they are not, and the next Init does not ask to resume. */
static void time_out(void) {
    expect(ldp_ft_time_passed(ours.image, sizeof ours.image, ours.session, 5000).answer, LDP_FT_WRONG_PHASE, "time passed while up");
    connection_fails(&ours);
    time_passes(&ours, 5, LDP_FT_FAILED);
    time_passes(&ours, 4999, LDP_FT_FAILED);
    expect(ldp_ft_label(ours.image, sizeof ours.image, 2), word(22, LDP_FT_CODE_GIVEN), "label after 4.999 seconds");
    time_passes(&ours, 5000, LDP_FT_IDLE);
    for (uint32_t place = 0; place < LDP_FT_LABEL_WORDS; place++) expect(ldp_ft_label(ours.image, sizeof ours.image, place), 0, "label after 5 seconds");
    expect(memcmp(ours.image, ours.store, LDP_FT_BLOCK_SIZE) == 0, 1, "the release is stored");
    expect(ldp_ft_submit(ours.image, sizeof ours.image, ours.session, mapping, sizeof mapping).answer, LDP_FT_WRONG_PHASE, "submit where nothing is kept");
    ldp_ft_outcome o =
        ldp_ft_open(ours.image, sizeof ours.image, ours.session, 0x11223344, 30, 4096, 0x0a000001, 3, true, 5, false, false, out, sizeof out);
    expect_written(o.length, fresh_init, sizeof fresh_init, "Init after a timeout");
}

void session_trial(void) {
    begin(&ours);
    open_without_proposal();
    give_and_take_back();
    send_again();
    time_out();
}
