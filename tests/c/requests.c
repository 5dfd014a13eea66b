/* Labels asked for: a Request cut by a power cut, answered, turned down, stopped and aborted; and IDs that are not to be used. */
#include "trial.h"

/* Requests (0x0401) with message IDs 21 to 23, the first as sent with number 1; the Mapping of label 17 that answers it; an Abort (0x0404) of Request 23;
   'No Label Resources' about Request 22, and 'Label Resources Available' about none. */
static const uint8_t request_21[19] = REQUEST(21), request_22[19] = REQUEST(22), request_23[19] = REQUEST(23);
static const uint8_t request_sent[35] = {0x04, 0x01, 0, 31, 0, 0, 0, 21, FEC, NUMBER(1), ACK(0)};
static const uint8_t answer[35] = {0x04, 0x00, 0, 31, 0, 0, 0, 12, FEC, LABEL(17), ASKED(21)};
static const uint8_t abort_23[27] = ABORT(23);
static const uint8_t no_resources[22] = STATUS(14, 22), available[22] = STATUS(15, 0);
static const uint8_t resuming_init[42] = RESUMING_INIT(0);

/* Requests with IDs that the header warns of (2): 0, and one that was aborted while its answer, a Mapping of label 18, is on its way. */
static const uint8_t request_0[19] = REQUEST(0), request_24[19] = REQUEST(24), abort_24[27] = ABORT(24);
static const uint8_t late_answer[35] = {0x04, 0x00, 0, 31, 0, 0, 0, 12, FEC, LABEL(18), ASKED(24)};

/* Whether the word at a place is an open Request, and which. */
static void expect_request(uint32_t place, uint32_t open, uint32_t id, const char *what) {
    ldp_ft_request r = ldp_ft_request_at(ours.image, sizeof ours.image, place);
    expect(r.open, open, what);
    expect(r.id, id, what);
}

/* A Request that is taken changes block 65 too, and nothing else does. */
static void ask(const uint8_t *request, uint32_t wanted, const char *what) {
    ldp_ft_outcome o = submit(&ours, request, sizeof request_21, wanted, what);
    expect(o.further, wanted == LDP_FT_DONE ? LDP_FT_FURTHER_REQUESTS : 0, what);
}

/* The peer submits a message, and it arrives here. */
static void peer_tells(const uint8_t *msg, size_t length) {
    submit(&peer, msg, length, LDP_FT_DONE, "submit at the peer");
    pass_on_all(&peer, &ours);
}

/* Power is cut when the slot and block 65 of a Request are stored and block 0 is not: the Request was never made. */
static void cut_request(void) {
    ldp_ft_outcome o = ldp_ft_submit(ours.image, sizeof ours.image, ours.session, request_23, sizeof request_23);
    expect(o.answer, LDP_FT_DONE, "Request");
    expect(o.slot, 1, "slot of the Request");
    expect(o.block0, 1, "block 0 changed by the Request");
    expect(o.further, LDP_FT_FURTHER_REQUESTS, "block 65 changed by the Request");
    expect_request(0, 1, 23, "Request in memory");
    store_block(&ours, o.slot);
    store_block(&ours, LDP_FT_REQUEST_BLOCK);
    power_cut(&ours);
    expect_request(0, 0, 0, "Request that was cut");
    ask(request_23, LDP_FT_REQUEST_OUTSIDE_UP_FT, "Request outside UpFT");
    connection_fails(&peer);
}

/* A Request is answered by a Mapping, which takes its word. */
static void ask_and_get(void) {
    ask(request_21, LDP_FT_DONE, "Request");
    expect_request(0, 1, 21, "open Request");
    expect(ldp_ft_label(ours.image, sizeof ours.image, 0), word(0, LDP_FT_CODE_REQUEST), "word of an open Request");
    ask(request_21, LDP_FT_LABEL_NOT_ALLOWED, "Request that is open");
    size_t length = send_one(&ours, "send the Request");
    expect_written(length, request_sent, sizeof request_sent, "Request sent");
    receive(&peer, out, length, LDP_FT_DONE, "receive the Request");
    peer_tells(answer, sizeof answer);
    expect_request(0, 0, 0, "answered Request");
    expect(ldp_ft_label(ours.image, sizeof ours.image, 0), word(17, LDP_FT_CODE_USING), "label in the Request's word");
}

static void expect_marks(uint32_t here, uint32_t there, const char *what) {
    expect(ldp_ft_summarize(ours.image, sizeof ours.image).marks, here, what);
    expect(ldp_ft_summarize(peer.image, sizeof peer.image).marks, there, what);
}

/* One is turned down, and Requests are stopped, at both ends and in the store; one is aborted. */
static void ask_in_vain(void) {
    ask(request_22, LDP_FT_DONE, "second Request");
    expect_marks(0, 0, "Requests are not stopped");
    peer_tells(no_resources, sizeof no_resources);
    expect_marks(LDP_FT_MARK_STOPPED, LDP_FT_MARK_STOPPING, "Requests are stopped");
    expect(ldp_ft_summarize(ours.store, sizeof ours.store).marks, LDP_FT_MARK_STOPPED, "it is stored");
    expect_request(1, 0, 0, "Request turned down");
    ask(request_23, LDP_FT_REQUESTS_STOPPED, "Request while stopped");
    peer_tells(available, sizeof available);
    expect_marks(0, 0, "Requests go on");

    ask(request_23, LDP_FT_DONE, "third Request");
    expect_request(1, 1, 23, "third Request open");
    submit(&ours, abort_23, sizeof abort_23, LDP_FT_DONE, "Abort");
    expect_request(1, 0, 0, "aborted Request");
    submit(&ours, abort_23, sizeof abort_23, LDP_FT_LABEL_NOT_ALLOWED, "Abort of none");
}

/* A Notification about no message ends Request 0; the answer to an aborted Request ends the new one of its ID. Both have place 1. */
static void unwise_ids(void) {
    ask(request_0, LDP_FT_DONE, "Request 0");
    expect_request(1, 1, 0, "Request 0 open");
    peer_tells(available, sizeof available);
    expect_request(1, 0, 0, "Request 0 ended by a Notification about none");
    ask(request_24, LDP_FT_DONE, "Request 24");
    pass_on_all(&ours, &peer);
    submit(&peer, late_answer, sizeof late_answer, LDP_FT_DONE, "the answer");
    submit(&ours, abort_24, sizeof abort_24, LDP_FT_DONE, "its Abort");
    expect(submit(&ours, request_24, sizeof request_24, LDP_FT_DONE, "Request 24 again").further, 0, "its ID stands in block 65 already");
    pass_on_all(&peer, &ours);
    expect_request(1, 0, 0, "the new Request ended by the old one's answer");
}

/* Where no state is kept every message is answered with 1. */
static void ask_in_idle(void) {
    begin(&ours);
    ask(request_21, LDP_FT_WRONG_PHASE, "Request in Idle");
}

void request_trial(void) {
    ask_in_idle();
    begin_both();
    cut_request();
    connect_both(resuming_init, resuming_init, sizeof resuming_init);
    ask_and_get();
    ask_in_vain();
    unwise_ids();
}
