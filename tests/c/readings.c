/* The readers of PDUs and messages, and the numbers. */
#include "trial.h"

#include <string.h>

static const uint8_t mapping[27] = OF_LABEL(0x00, 16), withdraw_sent[43] = OF_LABEL_SENT(0x02, 17, 2);
static const uint8_t resuming_init[42] = RESUMING_INIT(1), published_init[50] = PUBLISHED_RESUMING_INIT(1);
static const uint8_t request_21[19] = REQUEST(21), abort_23[27] = ABORT(23);
static const uint8_t no_resources[22] = STATUS(14, 22), available[22] = STATUS(15, 0);

static void pdus(void) {
    static const uint8_t head[LDP_FT_PDU_HEADER] = {0, 1, 0, 33, 10, 0, 0, 1, 0, 0};
    uint8_t pdu[sizeof head + sizeof mapping];
    memcpy(pdu, head, sizeof head);
    memcpy(pdu + sizeof head, mapping, sizeof mapping);
    ldp_ft_pdu opened = ldp_ft_pdu_open(pdu, sizeof pdu);
    expect(opened.answer, LDP_FT_DONE, "PDU");
    expect(opened.count, 1, "messages of the PDU");
    ldp_ft_part part = ldp_ft_pdu_message(pdu, sizeof pdu, LDP_FT_PDU_HEADER);
    expect(part.answer, LDP_FT_DONE, "message of the PDU");
    expect(part.start, 10, "start of the message");
    expect(part.end, 37, "end of the message");
    expect(ldp_ft_pdu_message(pdu, sizeof pdu, part.end).answer, LDP_FT_MALFORMED, "no second message");
    pdu[1] = 2;
    expect(ldp_ft_pdu_open(pdu, sizeof pdu).answer, LDP_FT_MALFORMED, "PDU of version 2");
}

/* Every field is read where the header declares it: no two of a message have the same value. */
static void label_messages(void) {
    ldp_ft_message m = ldp_ft_message_read(withdraw_sent, sizeof withdraw_sent);
    expect(m.answer, LDP_FT_DONE, "Withdraw");
    expect(m.type, LDP_FT_TYPE_WITHDRAW, "type");
    expect(m.message_id, 9, "message ID");
    expect(m.kind, LDP_FT_KIND_WITHDRAW, "kind");
    expect(m.has, LDP_FT_HAS_FEC | LDP_FT_HAS_LABEL | LDP_FT_HAS_FT_PROTECTION | LDP_FT_HAS_FT_ACK, "TLVs");
    expect(m.fec_start, 12, "start of the FEC");
    expect(m.fec_end, 19, "end of the FEC");
    expect(m.label, 17, "label");
    expect(m.number, 2, "number");
    m = ldp_ft_message_read(abort_23, sizeof abort_23);
    expect(m.kind, LDP_FT_KIND_ABORT, "kind of Abort");
    expect(m.has, LDP_FT_HAS_FEC | LDP_FT_HAS_REQUEST_ID, "TLVs of an Abort");
    expect(m.request_id, 23, "Request's ID");
    expect(m.status_id, 0, "no message ID without Status");
    m = ldp_ft_message_read(request_21, sizeof request_21);
    expect(m.kind, LDP_FT_KIND_REQUEST, "kind of Request");
    expect(m.message_id, 21, "message ID of a Request");
}

static void other_messages(void) {
    ldp_ft_message m = ldp_ft_message_read(resuming_init, sizeof resuming_init);
    expect(m.type, LDP_FT_TYPE_INITIALIZATION, "type of an Init");
    expect(m.kind, LDP_FT_KIND_NONE, "an Init is of no kind");
    expect(m.has, LDP_FT_HAS_PARAMETERS | LDP_FT_HAS_FT_SESSION | LDP_FT_HAS_FT_ACK, "TLVs of an Init");
    expect(m.ack, 1, "ACK");
    expect(m.reconnect, 1, "R");
    expect(m.timeout, 5, "seconds");
    expect(m.published, 0, "the draft's form");
    expect(m.keepalive_time, 30, "KeepAlive time");
    expect(m.max_pdu_length, 4096, "maximum PDU length");
    m = ldp_ft_message_read(published_init, sizeof published_init);
    expect(m.has, LDP_FT_HAS_PARAMETERS | LDP_FT_HAS_FT_SESSION | LDP_FT_HAS_FT_ACK, "TLVs of an Init in the published form");
    expect(m.reconnect, 1, "R in the published form");
    expect(m.timeout, 5000, "milliseconds");
    expect(m.published, 1, "the published form");
    m = ldp_ft_message_read(available, sizeof available);
    expect(m.published, 0, "no FT Session");
    expect(m.kind, LDP_FT_KIND_RESOURCES_AVAILABLE, "kind of Resources Available");
    expect(m.status, 15, "Label Resources Available");
    m = ldp_ft_message_read(no_resources, sizeof no_resources);
    expect(m.kind, LDP_FT_KIND_NO_RESOURCES, "kind of No Label Resources");
    expect(m.status_id, 22, "message ID in Status");
    expect(m.request_id, 0, "no Request's ID");
    m = ldp_ft_message_read(available, sizeof available - 1);
    expect(m.answer, LDP_FT_MALFORMED_RECEIVED, "a byte too few");
    expect(m.type, 0, "nothing is told of a malformed message");
}

static void numbers(void) {
    expect((uint32_t)ldp_ft_distance(0xFFFFFFFF, 1).steps, 1, "distance");
    expect((uint32_t)ldp_ft_distance(2, 1).steps, 0xFFFFFFFF, "distance back");
    expect(ldp_ft_distance(0, 1).answer, LDP_FT_ZERO_DISTANCE, "distance of zero");
    expect(ldp_ft_successor(0xFFFFFFFF), 1, "successor");
    expect(ldp_ft_lesser_timeout(0, 5), 5, "lesser timeout");
    expect(ldp_ft_block_check((const uint8_t[LDP_FT_BLOCK_SIZE]){0}, LDP_FT_BLOCK_SIZE), 0x000100FE, "check of a zero block");
    expect(ldp_ft_block_check((const uint8_t[LDP_FT_BLOCK_SIZE]){0}, 507), LDP_FT_NONE, "check of too few bytes");
}

void reading_trial(void) {
    pdus();
    label_messages();
    other_messages();
    numbers();
}
