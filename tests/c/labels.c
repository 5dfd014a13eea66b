/* The header's table of label codes, row by row, and what it says of labels beside it. */
#include "trial.h"

#define MAPPING 0x00
#define WITHDRAW 0x02
#define RELEASE 0x03

/* How a message of the label comes: submitted by us, received with the number that is next, received without one. */
typedef enum { SUBMITTED, NUMBERED, PLAIN } manner;

typedef struct {
    uint32_t from;   /* the label's code, */
    manner how;      /* a message of it, */
    uint8_t type;
    uint32_t answer; /* what it is answered, */
    uint32_t to;     /* and the code then */
} row;

static const row table[] = {
    {LDP_FT_CODE_FREE, SUBMITTED, MAPPING, LDP_FT_DONE, LDP_FT_CODE_GIVEN},
    {LDP_FT_CODE_FREE, SUBMITTED, WITHDRAW, LDP_FT_LABEL_NOT_ALLOWED, LDP_FT_CODE_FREE},
    {LDP_FT_CODE_FREE, SUBMITTED, RELEASE, LDP_FT_LABEL_NOT_ALLOWED, LDP_FT_CODE_FREE},
    {LDP_FT_CODE_FREE, NUMBERED, MAPPING, LDP_FT_DONE, LDP_FT_CODE_USING},
    {LDP_FT_CODE_FREE, PLAIN, MAPPING, LDP_FT_DONE, LDP_FT_CODE_UNPROTECTED},
    {LDP_FT_CODE_GIVEN, SUBMITTED, MAPPING, LDP_FT_DONE, LDP_FT_CODE_GIVEN},
    {LDP_FT_CODE_GIVEN, SUBMITTED, WITHDRAW, LDP_FT_DONE, LDP_FT_CODE_WITHDRAWING},
    {LDP_FT_CODE_GIVEN, NUMBERED, RELEASE, LDP_FT_DONE, LDP_FT_CODE_FREE},
    {LDP_FT_CODE_GIVEN, PLAIN, RELEASE, LDP_FT_PROTECTION_MISSING, LDP_FT_CODE_FREE},
    {LDP_FT_CODE_WITHDRAWING, SUBMITTED, MAPPING, LDP_FT_LABEL_NOT_ALLOWED, LDP_FT_CODE_WITHDRAWING},
    {LDP_FT_CODE_WITHDRAWING, SUBMITTED, WITHDRAW, LDP_FT_LABEL_NOT_ALLOWED, LDP_FT_CODE_WITHDRAWING},
    {LDP_FT_CODE_WITHDRAWING, NUMBERED, RELEASE, LDP_FT_DONE, LDP_FT_CODE_WITHDRAWN_RELEASED},
    {LDP_FT_CODE_WITHDRAWING, PLAIN, RELEASE, LDP_FT_PROTECTION_MISSING, LDP_FT_CODE_FREE},
    {LDP_FT_CODE_USING, SUBMITTED, WITHDRAW, LDP_FT_LABEL_NOT_ALLOWED, LDP_FT_CODE_USING},
    {LDP_FT_CODE_USING, SUBMITTED, RELEASE, LDP_FT_DONE, LDP_FT_CODE_RELEASING},
    {LDP_FT_CODE_USING, NUMBERED, WITHDRAW, LDP_FT_DONE, LDP_FT_CODE_ASKED_BACK},
    {LDP_FT_CODE_USING, NUMBERED, MAPPING, LDP_FT_DONE, LDP_FT_CODE_USING},
    {LDP_FT_CODE_USING, PLAIN, MAPPING, LDP_FT_PROTECTION_MISSING, LDP_FT_CODE_FREE},
    {LDP_FT_CODE_USING, PLAIN, WITHDRAW, LDP_FT_PROTECTION_MISSING, LDP_FT_CODE_FREE},
    {LDP_FT_CODE_ASKED_BACK, SUBMITTED, RELEASE, LDP_FT_DONE, LDP_FT_CODE_FREE},
    {LDP_FT_CODE_ASKED_BACK, NUMBERED, WITHDRAW, LDP_FT_DONE, LDP_FT_CODE_ASKED_BACK},
    {LDP_FT_CODE_ASKED_BACK, NUMBERED, MAPPING, LDP_FT_DONE, LDP_FT_CODE_ASKED_BACK},
    {LDP_FT_CODE_RELEASING, SUBMITTED, RELEASE, LDP_FT_LABEL_NOT_ALLOWED, LDP_FT_CODE_RELEASING},
    {LDP_FT_CODE_RELEASING, NUMBERED, MAPPING, LDP_FT_DONE, LDP_FT_CODE_USING},
    {LDP_FT_CODE_RELEASING, NUMBERED, WITHDRAW, LDP_FT_DONE, LDP_FT_CODE_RELEASING},
    {LDP_FT_CODE_UNPROTECTED, SUBMITTED, RELEASE, LDP_FT_LABEL_NOT_ALLOWED, LDP_FT_CODE_UNPROTECTED},
    {LDP_FT_CODE_UNPROTECTED, PLAIN, WITHDRAW, LDP_FT_DONE, LDP_FT_CODE_FREE},
    {LDP_FT_CODE_UNPROTECTED, PLAIN, MAPPING, LDP_FT_DONE, LDP_FT_CODE_UNPROTECTED},
    {LDP_FT_CODE_UNPROTECTED, NUMBERED, MAPPING, LDP_FT_PROTECTION_WRONG, LDP_FT_CODE_FREE},
    {LDP_FT_CODE_UNPROTECTED, NUMBERED, WITHDRAW, LDP_FT_PROTECTION_WRONG, LDP_FT_CODE_FREE},
    {LDP_FT_CODE_WITHDRAWN_ACKED, SUBMITTED, MAPPING, LDP_FT_LABEL_NOT_ALLOWED, LDP_FT_CODE_WITHDRAWN_ACKED},
    {LDP_FT_CODE_WITHDRAWN_ACKED, SUBMITTED, WITHDRAW, LDP_FT_LABEL_NOT_ALLOWED, LDP_FT_CODE_WITHDRAWN_ACKED},
    {LDP_FT_CODE_WITHDRAWN_ACKED, NUMBERED, RELEASE, LDP_FT_DONE, LDP_FT_CODE_FREE},
    {LDP_FT_CODE_WITHDRAWN_ACKED, PLAIN, RELEASE, LDP_FT_PROTECTION_MISSING, LDP_FT_CODE_FREE},
    {LDP_FT_CODE_WITHDRAWN_RELEASED, SUBMITTED, MAPPING, LDP_FT_LABEL_NOT_ALLOWED, LDP_FT_CODE_WITHDRAWN_RELEASED},
    {LDP_FT_CODE_WITHDRAWN_RELEASED, SUBMITTED, WITHDRAW, LDP_FT_LABEL_NOT_ALLOWED, LDP_FT_CODE_WITHDRAWN_RELEASED},
    {LDP_FT_CODE_WITHDRAWN_RELEASED, NUMBERED, RELEASE, LDP_FT_DONE, LDP_FT_CODE_WITHDRAWN_RELEASED},
    {LDP_FT_CODE_WITHDRAWN_RELEASED, PLAIN, RELEASE, LDP_FT_PROTECTION_MISSING, LDP_FT_CODE_FREE},
};

/* A message of a label comes to us, and is answered so; with a number it bears the last acknowledgement again. Block 0 has the last number released in bytes 4 to 7, the last one
   taken in bytes 12 to 15. */
static void tell(manner how, uint8_t type, uint8_t label, uint32_t answer) {
    const uint8_t plain[27] = OF_LABEL(type, label);
    uint8_t numbered[43] = OF_LABEL_SENT(type, label, (uint8_t)(ours.image[15] + 1));
    numbered[sizeof numbered - 1] = ours.image[7];
    if (how == SUBMITTED) submit(&ours, plain, sizeof plain, answer, "submit by the table");
    if (how == NUMBERED) receive(&ours, numbered, sizeof numbered, answer, "received with a number");
    if (how == PLAIN) receive(&ours, plain, sizeof plain, answer, "received without a number");
}

static void expect_code(uint32_t code, const char *what) {
    expect(ldp_ft_label(ours.image, sizeof ours.image, 0), word(40, code), what);
}

static int is_withdrawn(uint32_t code) {
    return code == LDP_FT_CODE_WITHDRAWING || code == LDP_FT_CODE_WITHDRAWN_ACKED || code == LDP_FT_CODE_WITHDRAWN_RELEASED;
}

/* All that is held is sent, so many messages, and acknowledged. What the peer makes of the label does not matter here. */
static void acknowledge_all(uint8_t held) {
    const uint8_t ack[16] = {0x02, 0x01, 0, 12, 0, 0, 0, 7, ACK(held)};
    for (uint8_t i = 0; i < held; i++) send_one(&ours, "send");
    nothing_unsent(&ours);
    receive(&ours, ack, sizeof ack, LDP_FT_DONE, "acknowledgement");
    expect(ours.session.value, 0, "count sent after the acknowledgement");
}

/* Label 40, at the first place, gets that code in a session that begins. */
static void label_at(uint32_t code) {
    begin_both();
    if (code == LDP_FT_CODE_GIVEN || is_withdrawn(code)) tell(SUBMITTED, MAPPING, 40, LDP_FT_DONE);
    if (is_withdrawn(code)) tell(SUBMITTED, WITHDRAW, 40, LDP_FT_DONE);
    if (code == LDP_FT_CODE_WITHDRAWN_ACKED) acknowledge_all(2);
    if (code == LDP_FT_CODE_WITHDRAWN_RELEASED) tell(NUMBERED, RELEASE, 40, LDP_FT_DONE);
    if (code >= LDP_FT_CODE_USING && code <= LDP_FT_CODE_RELEASING) tell(NUMBERED, MAPPING, 40, LDP_FT_DONE);
    if (code == LDP_FT_CODE_ASKED_BACK) tell(NUMBERED, WITHDRAW, 40, LDP_FT_DONE);
    if (code == LDP_FT_CODE_RELEASING) tell(SUBMITTED, RELEASE, 40, LDP_FT_DONE);
    if (code == LDP_FT_CODE_UNPROTECTED) tell(PLAIN, MAPPING, 40, LDP_FT_DONE);
    expect_code(code, "the code to begin with");
}

static void rows(void) {
    for (size_t i = 0; i < sizeof table / sizeof table[0]; i++) {
        label_at(table[i].from);
        tell(table[i].how, table[i].type, 40, table[i].answer);
        expect_code(table[i].to, "the code by the table");
    }
}

/* "A break leaves all codes but 6." */
static void breaks(void) {
    for (uint32_t code = LDP_FT_CODE_GIVEN; code <= LDP_FT_CODE_WITHDRAWN_RELEASED; code++) {
        if (code == LDP_FT_CODE_REQUEST) continue;
        label_at(code);
        connection_fails(&ours);
        expect_code(code == LDP_FT_CODE_UNPROTECTED ? LDP_FT_CODE_FREE : code, "the code after a break");
    }
}

/* The acknowledgement of a Withdraw is one of the two that free a label; that of a Release frees it. */
static void acknowledged(uint32_t from, uint8_t held, uint32_t to) {
    label_at(from);
    acknowledge_all(held);
    expect_code(to, "the code after the acknowledgement");
}

/* A held Release bars a Release of its label, and neither a Mapping nor a Withdraw of it. A label whose Withdraw is held is at 2 or 9. */
static void held_bars(void) {
    label_at(LDP_FT_CODE_ASKED_BACK);
    tell(SUBMITTED, RELEASE, 40, LDP_FT_DONE);
    tell(NUMBERED, MAPPING, 40, LDP_FT_DONE);
    expect_code(LDP_FT_CODE_USING, "mapped again while the Release is held");
    tell(SUBMITTED, RELEASE, 40, LDP_FT_LABEL_NOT_ALLOWED);
    tell(SUBMITTED, MAPPING, 40, LDP_FT_DONE);
    tell(SUBMITTED, WITHDRAW, 40, LDP_FT_DONE);
}

/* A label is given again only once both have come; one message may bring both, and its acknowledgement acts first. */
static void given_again(void) {
    const uint8_t both[43] = {0x04, RELEASE, 0, 39, 0, 0, 0, 9, FEC, LABEL(40), NUMBER(1), ACK(2)};
    const uint8_t plain[35] = {0x04, RELEASE, 0, 31, 0, 0, 0, 9, FEC, LABEL(40), ACK(2)};
    label_at(LDP_FT_CODE_WITHDRAWN_ACKED);
    tell(SUBMITTED, MAPPING, 40, LDP_FT_LABEL_NOT_ALLOWED);
    tell(NUMBERED, RELEASE, 40, LDP_FT_DONE);
    tell(SUBMITTED, MAPPING, 40, LDP_FT_DONE);
    expect_code(LDP_FT_CODE_GIVEN, "given again");
    label_at(LDP_FT_CODE_WITHDRAWING);
    for (int i = 0; i < 2; i++) send_one(&ours, "send");
    receive(&ours, both, sizeof both, LDP_FT_DONE, "acknowledgement and Release");
    expect_code(LDP_FT_CODE_FREE, "free by both at once");
    label_at(LDP_FT_CODE_WITHDRAWING);
    for (int i = 0; i < 2; i++) send_one(&ours, "send");
    receive(&ours, plain, sizeof plain, LDP_FT_PROTECTION_MISSING, "acknowledgement and Release without a number");
}

/* Labels below 16 pass and are not listed; they are not submitted. */
static void below_16(void) {
    begin_both();
    tell(NUMBERED, MAPPING, 3, LDP_FT_DONE);
    tell(PLAIN, MAPPING, 3, LDP_FT_DONE);
    tell(NUMBERED, WITHDRAW, 3, LDP_FT_DONE);
    expect(ldp_ft_label(ours.image, sizeof ours.image, 0), 0, "label 3 is not listed");
    tell(SUBMITTED, RELEASE, 3, LDP_FT_LABEL_NOT_ALLOWED);
    tell(SUBMITTED, MAPPING, 15, LDP_FT_LABEL_NOT_ALLOWED);
    tell(SUBMITTED, MAPPING, 16, LDP_FT_DONE);
}

/* With no label: a Withdraw of the wildcard FEC acts on all of the peer's labels, of a FEC that is no prefix on none; prefixes.c has the prefixes. */
static void without_label(void) {
    const uint8_t of_host[28] = {0x04, WITHDRAW, 0, 24, 0, 0, 0, 9, 0x01, 0x00, 0, 8, 3, 0, 1, 4, 10, 0, 0, 0, NUMBER(2)};
    const uint8_t of_all[21] = {0x04, WITHDRAW, 0, 17, 0, 0, 0, 9, 0x01, 0x00, 0, 1, 1, NUMBER(3)};
    label_at(LDP_FT_CODE_USING);
    receive(&ours, of_host, sizeof of_host, LDP_FT_DONE, "Withdraw of a host address");
    expect_code(LDP_FT_CODE_USING, "Withdraw of a host address changes no label");
    receive(&ours, of_all, sizeof of_all, LDP_FT_DONE, "Withdraw of the wildcard");
    expect_code(LDP_FT_CODE_ASKED_BACK, "Withdraw of the wildcard");
}

void label_trial(void) {
    rows();
    breaks();
    acknowledged(LDP_FT_CODE_WITHDRAWING, 2, LDP_FT_CODE_WITHDRAWN_ACKED);
    acknowledged(LDP_FT_CODE_WITHDRAWN_RELEASED, 2, LDP_FT_CODE_FREE);
    acknowledged(LDP_FT_CODE_RELEASING, 1, LDP_FT_CODE_FREE);
    held_bars();
    given_again();
    below_16();
    without_label();
}
