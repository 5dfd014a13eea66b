/* A peer without fault tolerance, as the header tells it; and what an end does with an Init, on either side of the connection. */
#include "trial.h"

/* The peer's Init without FT Session, with 10 for its KeepAlive time; and KeepAlives without FT ACK. */
static const uint8_t plain_init[26] = {0x02, 0x00, 0, 22, 0, 0, 0, 1, 0x05, 0x00, 0, 14, 0, 1, 0, 10, 0, 0, 0, 0, 10, 0, 0, 2, 0, 0};
static const uint8_t plain_keepalive[8] = {0x02, 0x01, 0, 4, 0, 0, 0, 7};
static const uint8_t mapping[27] = OF_LABEL(0x00, 40);
static const uint8_t numbered[43] = OF_LABEL_SENT(0x00, 40, 1);
static const uint8_t shutdown[22] = {0x00, 0x01, 0, 18, 0, 0, 0, 13, 0x03, 0x00, 0, 10, 0x80, 0, 0, 0x0A, 0, 0, 0, 0, 0, 0};

static void open_only(cabinet *c) {
    ldp_ft_outcome o =
        ldp_ft_open(c->image, sizeof c->image, c->session, 0x11223344, 30, 4096, 0x0a000001, 3, true, 5, false, false, out, sizeof out);
    settle(c, o, LDP_FT_DONE, "open");
}

static void greet(const uint8_t *init, size_t length, uint32_t answer, uint32_t phase) {
    settle(&ours, ldp_ft_init_received(ours.image, sizeof ours.image, ours.session, init, length), answer, "Init received");
    expect(ours.session.phase, phase, "phase after an Init");
}

static void up_plain(void) {
    begin(&ours);
    open_only(&ours);
    greet(plain_init, sizeof plain_init, LDP_FT_DONE, LDP_FT_UP_PLAIN);
}

/* Nothing is kept, nothing submitted, and what comes is judged. */
static void plain_peer(void) {
    up_plain();
    submit(&ours, mapping, sizeof mapping, LDP_FT_WRONG_PHASE, "submit in UpPlain");
    expect(ldp_ft_send_next(ours.image, sizeof ours.image, ours.session, false, out, sizeof out).answer, LDP_FT_WRONG_PHASE, "send in UpPlain");
    ldp_ft_outcome o = ldp_ft_keepalive(ours.image, sizeof ours.image, ours.session, 7, out, sizeof out);
    expect_written(o.length, plain_keepalive, sizeof plain_keepalive, "KeepAlive in UpPlain");
    receive(&ours, plain_keepalive, sizeof plain_keepalive, LDP_FT_DONE, "KeepAlive received");
    receive(&ours, mapping, sizeof mapping, LDP_FT_DONE, "Mapping received");
    expect(ldp_ft_label(ours.image, sizeof ours.image, 0), 0, "no label is listed in UpPlain");
    settle(&ours, ldp_ft_connection_failed(ours.image, sizeof ours.image, ours.session), LDP_FT_DONE, "connection failed");
    expect(ours.session.phase, LDP_FT_IDLE, "Idle after UpPlain");
}

/* Each of these ends the connection. */
static void plain_faults(void) {
    up_plain();
    receive(&ours, numbered, sizeof numbered, LDP_FT_FT_TLV_IN_PLAIN, "FT TLV in UpPlain");
    expect(ours.session.phase, LDP_FT_IDLE, "Idle after 31");
    up_plain();
    receive(&ours, shutdown, sizeof shutdown, LDP_FT_STATUS_FATAL, "Shutdown in UpPlain");
    expect(ours.session.phase, LDP_FT_IDLE, "Idle after 36");
    up_plain();
    receive(&ours, mapping, sizeof mapping - 1, LDP_FT_MALFORMED_RECEIVED, "cut message in UpPlain");
    expect(ours.session.phase, LDP_FT_IDLE, "Idle after 22");
}

/* Open comes before init_received on both sides; only an Init is taken where one is awaited, and none on a session that is up. */
static void inits(void) {
    begin(&ours);
    expect(ldp_ft_init_received(ours.image, sizeof ours.image, ours.session, fresh_init, sizeof fresh_init).answer, LDP_FT_WRONG_PHASE, "Init before open");
    open_only(&ours);
    expect(ldp_ft_open(ours.image, sizeof ours.image, ours.session, 1, 30, 4096, 0, 0, true, 5, false, false, out, sizeof out).answer, LDP_FT_WRONG_PHASE, "second open");
    greet(plain_keepalive, sizeof plain_keepalive, LDP_FT_MALFORMED_RECEIVED, LDP_FT_IDLE);
    begin_both();
    receive(&ours, fresh_init, sizeof fresh_init, LDP_FT_MALFORMED_RECEIVED, "Init on a session that is up");
    expect(ours.session.phase, LDP_FT_FAILED, "Failed after 22");
}

/* Of the parameters the version, the mode and the receiver are not judged; a resumed session wants KeepAlive time and PDU length as they were. */
static void parameters(void) {
    uint8_t init[34] = FRESH_INIT, resuming[42] = RESUMING_INIT(0);
    init[13] = 7;
    init[16] = 0xC0;
    init[20] = 99;
    begin(&ours);
    open_only(&ours);
    greet(init, sizeof init, LDP_FT_DONE, LDP_FT_UP_FT);
    connection_fails(&ours);
    submit(&ours, mapping, sizeof mapping, LDP_FT_DONE, "submit in Failed");
    open_only(&ours);
    submit(&ours, mapping, sizeof mapping, LDP_FT_DONE, "submit in InitWait");
    resuming[15] = 31;
    greet(resuming, sizeof resuming, LDP_FT_PARAMETERS_CHANGED, LDP_FT_IDLE);
    expect(ldp_ft_label(ours.image, sizeof ours.image, 0), 0, "all given up with 35");
}

static uint32_t agreed(void) {
    return ldp_ft_summarize(ours.image, sizeof ours.image).timeout;
}

/* An Init without FT Session, or with R clear, over kept state: it is given up, and its timeout with it, for which the labels have to wait. */
static void state_given_up(const uint8_t *init, size_t length, uint32_t phase, uint32_t timeout) {
    begin_both();
    submit(&ours, mapping, sizeof mapping, LDP_FT_DONE, "submit");
    connection_fails(&ours);
    open_only(&ours);
    expect(agreed(), 5000, "the timeout before the call");
    greet(init, length, LDP_FT_DONE, phase);
    expect(ldp_ft_label(ours.image, sizeof ours.image, 0), 0, "all given up");
    expect(agreed(), timeout, "the timeout after the call");
}

static void anew_after_ft(void) {
    uint8_t init_of_2_seconds[34] = FRESH_INIT;
    init_of_2_seconds[33] = 2;
    state_given_up(plain_init, sizeof plain_init, LDP_FT_UP_PLAIN, 0);
    state_given_up(init_of_2_seconds, sizeof init_of_2_seconds, LDP_FT_UP_FT, 2000);
}

void plain_trial(void) {
    plain_peer();
    plain_faults();
    inits();
    parameters();
    anew_after_ft();
}
