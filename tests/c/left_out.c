/* Messages that are left out: a Request of ours whose Abort is held behind it, numbers of the peer's that jump, and the rule for the next number. */
#include "trial.h"

static const uint8_t request_5[19] = REQUEST(5), request_6[19] = REQUEST(6), abort_5[27] = ABORT(5), abort_6[27] = ABORT(6);
static const uint8_t request_6_sent[35] = {0x04, 0x01, 0, 31, 0, 0, 0, 6, FEC, NUMBER(2), ACK(0)};
static const uint8_t abort_5_sent[43] = {0x04, 0x04, 0, 39, 0, 0, 0, 14, FEC, ASKED(5), NUMBER(3), ACK(0)};
static const uint8_t abort_6_sent[43] = {0x04, 0x04, 0, 39, 0, 0, 0, 14, FEC, ASKED(6), NUMBER(4), ACK(0)};
static const uint8_t address[8] = {0x03, 0x00, 0, 4, 0, 0, 0, 15};
static const uint8_t resuming_init[42] = RESUMING_INIT(0);

/* The next message goes out, as it is given here, after so many that are left out, which the peer is told of by its number. */
static void pass_on(const uint8_t *wanted, size_t wanted_length, uint32_t left_out) {
    uint32_t sent = ours.session.value;
    ldp_ft_outcome o = ldp_ft_send_next(ours.image, sizeof ours.image, ours.session, true, out, sizeof out);
    expect_written(settle(&ours, o, LDP_FT_DONE, "send next"), wanted, wanted_length, "message sent");
    expect(o.left_out, left_out, "left out");
    expect(ours.session.value, sent + 1 + left_out, "count sent, with those left out");
    expect(ours.session.flags, LDP_FT_RESUMED, "still resumed");
    o = ldp_ft_receive(peer.image, sizeof peer.image, peer.session, out, o.length);
    settle(&peer, o, LDP_FT_DONE, "receive");
    expect(o.left_out, left_out, "left out, as the peer counts");
    expect(peer.session.flags, LDP_FT_RESUMED, "the peer is still resumed");
}

static void expect_held(uint32_t held, uint32_t pended, const char *what) {
    ldp_ft_summary s = ldp_ft_summarize(ours.image, sizeof ours.image);
    expect(s.held, held, what);
    expect(s.pended, pended, what);
}

/* Two Requests are sent and lost with the connection; one Abort is queued during the break. */
static void lose_requests(void) {
    begin_both();
    submit(&ours, request_5, sizeof request_5, LDP_FT_DONE, "Request 5");
    submit(&ours, request_6, sizeof request_6, LDP_FT_DONE, "Request 6");
    send_one(&ours, "send Request 5");
    send_one(&ours, "send Request 6");
    connection_fails(&ours);
    connection_fails(&peer);
    submit(&ours, abort_5, sizeof abort_5, LDP_FT_DONE, "Abort of 5");
}

/* Request 5 is passed over, Request 6 goes out again with the number that it had. That one's Abort comes too late to leave it out. */
static void resume_without_it(void) {
    lose_requests();
    connect_both(resuming_init, resuming_init, sizeof resuming_init);
    pass_on(request_6_sent, sizeof request_6_sent, 1);
    submit(&ours, abort_6, sizeof abort_6, LDP_FT_DONE, "Abort of 6");
    pass_on(abort_5_sent, sizeof abort_5_sent, 0);
    pass_on(abort_6_sent, sizeof abort_6_sent, 0);
    nothing_unsent(&ours);
    expect_held(4, 0, "all keep their slots until they are acknowledged");
    acknowledge(&peer, &ours);
    expect_held(0, 0, "the acknowledgement passes those left out");
    expect(ours.session.value, 0, "count sent after the acknowledgement");
}

/* Both Aborts are there when sending comes to the Requests: after a power cut too, both are passed over at once. Too little room passes over nothing. */
static void resume_without_both(void) {
    lose_requests();
    submit(&ours, abort_6, sizeof abort_6, LDP_FT_DONE, "Abort of 6");
    power_cut(&ours);
    connect_both(resuming_init, resuming_init, sizeof resuming_init);
    ldp_ft_outcome o = ldp_ft_send_next(ours.image, sizeof ours.image, ours.session, true, out, sizeof abort_5_sent - 1);
    expect(o.answer, LDP_FT_OUTPUT_TOO_SHORT, "too little room");
    expect(o.left_out, 0, "nothing left out with 9");
    expect(o.session.value, 0, "count sent as given");
    expect(o.session.flags, LDP_FT_RESUMED, "flags as given");
    pass_on(abort_5_sent, sizeof abort_5_sent, 2);
    pass_on(abort_6_sent, sizeof abort_6_sent, 0);
    nothing_unsent(&ours);
}

/* A Request that was never sent has no number: it goes out, though its Abort waits behind it. */
static void pended(void) {
    begin_both();
    submit(&ours, request_5, sizeof request_5, LDP_FT_DONE, "Request 5");
    submit(&ours, abort_5, sizeof abort_5, LDP_FT_DONE, "Abort of 5");
    ldp_ft_outcome o = ldp_ft_send_next(ours.image, sizeof ours.image, ours.session, false, out, sizeof out);
    expect(o.left_out, 0, "a pended Request is not left out");
    expect(out[1], 0x01, "the Request goes out");
    expect(o.session.flags, 0, "not resumed");
}

/* The store is full, a Request that is left out at its head: it takes room until it is acknowledged. */
static void full(void) {
    lose_requests();
    for (uint32_t held = 3; held < LDP_FT_SLOTS; held++) submit(&ours, address, sizeof address, LDP_FT_DONE, "submit");
    connect_both(resuming_init, resuming_init, sizeof resuming_init);
    pass_on(request_6_sent, sizeof request_6_sent, 1);
    submit(&ours, address, sizeof address, LDP_FT_STORE_FULL, "the 65th");
    acknowledge(&peer, &ours);
    expect_held(LDP_FT_SLOTS - 2, LDP_FT_SLOTS - 2, "the one acknowledged, and the one left out before it, are let go");
    submit(&ours, address, sizeof address, LDP_FT_DONE, "room again");
}

/* The peer's next message has a number so many steps ahead of the last one taken, 0. */
static void peer_jumps(bool resumed, uint8_t number, uint32_t answer) {
    const uint8_t jump[16] = {0x03, 0x00, 0, 12, 0, 0, 0, 15, NUMBER(number)};
    begin_both();
    if (resumed) {
        connection_fails(&ours);
        connection_fails(&peer);
        connect_both(resuming_init, resuming_init, sizeof resuming_init);
    }
    ldp_ft_outcome o = ldp_ft_receive(ours.image, sizeof ours.image, ours.session, jump, sizeof jump);
    settle(&ours, o, answer, "receive");
    expect(o.left_out, answer == LDP_FT_DONE ? number - 1u : 0, "numbers left out");
    expect(ours.image[15], answer == LDP_FT_DONE ? number : 0, "the last number taken");
    expect(ours.session.phase, answer == LDP_FT_DONE ? LDP_FT_UP_FT : LDP_FT_FAILED, "phase");
    expect(ours.session.flags, resumed && answer == LDP_FT_DONE ? LDP_FT_RESUMED : 0, "flags");
}

static void jumps(void) {
    peer_jumps(true, 1, LDP_FT_DONE);
    peer_jumps(true, 2, LDP_FT_DONE);
    peer_jumps(true, 64, LDP_FT_DONE);
    peer_jumps(true, 65, LDP_FT_OUT_OF_TURN);
    peer_jumps(false, 1, LDP_FT_DONE);
    peer_jumps(false, 2, LDP_FT_OUT_OF_TURN);
    peer_jumps(false, 64, LDP_FT_OUT_OF_TURN);
}

static void expect_next(uint32_t secured, uint32_t number, bool resumed, uint32_t answer, uint32_t left_out) {
    ldp_ft_next n = ldp_ft_next_number(secured, number, resumed);
    expect(n.answer, answer, "next number");
    expect(n.left_out, left_out, "left out before the next number");
}

static void next_numbers(void) {
    expect_next(0, 1, false, LDP_FT_DONE, 0);
    expect_next(0, 2, false, LDP_FT_OUT_OF_TURN, 0);
    expect_next(0, 64, true, LDP_FT_DONE, 63);
    expect_next(0, 65, true, LDP_FT_OUT_OF_TURN, 0);
    expect_next(7, 7, true, LDP_FT_OUT_OF_TURN, 0);
    expect_next(7, 6, true, LDP_FT_OUT_OF_TURN, 0);
    expect_next(7, 0, true, LDP_FT_ZERO_NUMBER, 0);
    expect_next(7, 0, false, LDP_FT_ZERO_NUMBER, 0);
    expect_next(0xFFFFFFFF, 1, false, LDP_FT_DONE, 0);
    expect_next(0xFFFFFFF0, 49, true, LDP_FT_DONE, 63);
    expect_next(0xFFFFFFF0, 50, true, LDP_FT_OUT_OF_TURN, 0);
    expect_next(0xFFFFFFF0, 0xFFFFFFEF, true, LDP_FT_OUT_OF_TURN, 0);
}

void left_out_trial(void) {
    resume_without_it();
    resume_without_both();
    pended();
    full();
    jumps();
    next_numbers();
}
