/* Labels by their prefix: the index, what a Withdraw and a Release of a prefix do, a label that moves, and what a cut leaves. */
#include "trial.h"

#include <string.h>

#define MAPPING 0x00
#define WITHDRAW 0x02
#define RELEASE 0x03

/* The FEC of one prefix 10.0.third.0 of 17 to 24 bits. */
#define OF_PREFIX(length, third) 0x01, 0x00, 0, 7, 2, 0, 1, length, 10, 0, third

/* Those of 0.0.0.0/0 and 10.0.0.1/32. */
#define OF_NO_BITS 0x01, 0x00, 0, 4, 2, 0, 1, 0
#define OF_ALL_BITS 0x01, 0x00, 0, 8, 2, 0, 1, 32, 10, 0, 0, 1

/* A Mapping of a label, and a message of a prefix with no label, as the peer sends them with a number; and without one. */
#define MAPPED(length, third, label, number) {0x04, MAPPING, 0, 39, 0, 0, 0, 9, OF_PREFIX(length, third), LABEL(label), NUMBER(number), ACK(0)}
#define MAPPED_BARE(length, third, label) {0x04, MAPPING, 0, 23, 0, 0, 0, 9, OF_PREFIX(length, third), LABEL(label)}
#define ALL_OF(type, length, third, number) {0x04, type, 0, 31, 0, 0, 0, 9, OF_PREFIX(length, third), NUMBER(number), ACK(0)}
#define ALL_OF_BARE(type, length, third) {0x04, type, 0, 15, 0, 0, 0, 9, OF_PREFIX(length, third)}

static void hear(const uint8_t *msg, size_t length, uint32_t answer, uint32_t further, const char *what) {
    ldp_ft_outcome o = ldp_ft_receive(ours.image, sizeof ours.image, ours.session, msg, length);
    expect(o.further, further, what);
    settle(&ours, o, answer, what);
}

static void expect_label(uint32_t place, uint32_t label, uint32_t code, const char *what) {
    expect(ldp_ft_label(ours.image, sizeof ours.image, place), word(label, code), what);
}

/* The label at a place has the prefix 10.0.third.0 of so many bits. */
static void expect_prefix(uint32_t place, uint32_t length, uint32_t third, const char *what) {
    ldp_ft_prefix p = ldp_ft_prefix_at(ours.image, sizeof ours.image, place);
    expect(p.indexed, 1, what);
    expect(p.length, length, what);
    expect(p.prefix, 10u << 24 | third << 8, what);
}

static void expect_no_prefix(uint32_t place, const char *what) {
    ldp_ft_prefix p = ldp_ft_prefix_at(ours.image, sizeof ours.image, place);
    expect(p.indexed + p.length + p.prefix, 0, what);
}

/* The peer gives labels 40 and 41 for 10.0.0.0/24, and 42 for 10.0.16.0/20, with bits set that the prefix does not have. */
static void begin_listed(void) {
    const uint8_t first[43] = MAPPED(24, 0, 40, 1), second[43] = MAPPED(24, 0, 41, 2), third[43] = MAPPED(20, 31, 42, 3);
    begin_both();
    hear(first, sizeof first, LDP_FT_DONE, 2, "a Mapping writes block 66");
    hear(second, sizeof second, LDP_FT_DONE, 2, "another one");
    hear(third, sizeof third, LDP_FT_DONE, 2, "bits past the length");
}

static void listed(void) {
    begin_listed();
    expect_prefix(0, 24, 0, "the first label's");
    expect_prefix(1, 24, 0, "the second label's");
    expect_prefix(2, 20, 16, "bits past its length are none of the prefix");
    expect_no_prefix(3, "of a free word");
    expect_no_prefix(LDP_FT_LABEL_WORDS, "of no place");
    expect(ldp_ft_prefix_at(ours.image, sizeof ours.image - 1, 0).indexed, 0, "of no image");
    power_cut(&ours);
    expect_prefix(2, 20, 16, "after a power cut");
}

/* Length 0 is one prefix among others, and not all of them. */
static void shortest_and_longest(void) {
    const uint8_t first[32] = {0x04, MAPPING, 0, 28, 0, 0, 0, 9, OF_NO_BITS, LABEL(40), NUMBER(1)};
    const uint8_t second[36] = {0x04, MAPPING, 0, 32, 0, 0, 0, 9, OF_ALL_BITS, LABEL(41), NUMBER(2)};
    const uint8_t of_no_bits[24] = {0x04, WITHDRAW, 0, 20, 0, 0, 0, 9, OF_NO_BITS, NUMBER(3)};
    const uint8_t of_all_bits[28] = {0x04, WITHDRAW, 0, 24, 0, 0, 0, 9, OF_ALL_BITS, NUMBER(4)};
    begin_both();
    hear(first, sizeof first, LDP_FT_DONE, 2, "a Mapping of 0.0.0.0/0");
    hear(second, sizeof second, LDP_FT_DONE, 2, "a Mapping of 10.0.0.1/32");
    expect(ldp_ft_prefix_at(ours.image, sizeof ours.image, 0).indexed, 1, "length 0 counts");
    expect(ldp_ft_prefix_at(ours.image, sizeof ours.image, 1).prefix, 0x0A000001, "all bits of an address");
    hear(of_no_bits, sizeof of_no_bits, LDP_FT_DONE, 0, "a Withdraw of 0.0.0.0/0");
    expect_label(0, 40, LDP_FT_CODE_ASKED_BACK, "the label of 0.0.0.0/0");
    expect_label(1, 41, LDP_FT_CODE_USING, "which is not every label");
    hear(of_all_bits, sizeof of_all_bits, LDP_FT_DONE, 0, "a Withdraw of 10.0.0.1/32");
    expect_label(1, 41, LDP_FT_CODE_ASKED_BACK, "the label of 10.0.0.1/32");
}

static void withdrawn_at_once(void) {
    const uint8_t withdraw[35] = ALL_OF(WITHDRAW, 24, 0, 4), of_none[35] = ALL_OF(WITHDRAW, 24, 99, 5), release[35] = ALL_OF(RELEASE, 24, 0, 6);
    begin_listed();
    hear(withdraw, sizeof withdraw, LDP_FT_DONE, 0, "a Withdraw of a prefix");
    expect_label(0, 40, LDP_FT_CODE_ASKED_BACK, "the first label of the prefix");
    expect_label(1, 41, LDP_FT_CODE_ASKED_BACK, "the second label of the prefix");
    expect_label(2, 42, LDP_FT_CODE_USING, "a label of another prefix");
    hear(of_none, sizeof of_none, LDP_FT_DONE, 0, "a Withdraw of a prefix that no label has");
    hear(release, sizeof release, LDP_FT_DONE, 0, "a Release is about the labels that we gave");
    expect_label(0, 40, LDP_FT_CODE_ASKED_BACK, "as before");
}

static void withdrawn_without_protection(void) {
    const uint8_t of_none[19] = ALL_OF_BARE(WITHDRAW, 24, 99), of_two[19] = ALL_OF_BARE(WITHDRAW, 24, 0);
    begin_listed();
    hear(of_none, sizeof of_none, LDP_FT_DONE, 0, "of no label that is protected");
    hear(of_two, sizeof of_two, LDP_FT_PROTECTION_MISSING, 0, "of two that are");
}

/* A label that gets another prefix moves to a word that was free. */
static void moved(void) {
    const uint8_t mapping[43] = MAPPED(24, 7, 40, 4), again[43] = MAPPED(24, 7, 40, 5);
    begin_listed();
    hear(mapping, sizeof mapping, LDP_FT_DONE, 2, "a Mapping with another prefix");
    expect_label(0, 0, LDP_FT_CODE_FREE, "the word that it leaves");
    expect_label(3, 40, LDP_FT_CODE_USING, "the word that it takes");
    expect_prefix(3, 24, 7, "its prefix then");
    hear(again, sizeof again, LDP_FT_DONE, 0, "the same prefix again");
    expect_label(3, 40, LDP_FT_CODE_USING, "stays where it is");
}

/* One that is being released is used again; one that is used without protection stays so. */
static void moved_with_its_code(void) {
    const uint8_t release[27] = OF_LABEL(RELEASE, 40), mapping[43] = MAPPED(24, 7, 40, 4);
    const uint8_t bare[27] = MAPPED_BARE(24, 0, 43), other[27] = MAPPED_BARE(24, 7, 43);
    begin_listed();
    submit(&ours, release, sizeof release, LDP_FT_DONE, "a Release");
    hear(mapping, sizeof mapping, LDP_FT_DONE, 2, "a Mapping of a label that is being released");
    expect_label(3, 40, LDP_FT_CODE_USING, "it is used again");
    hear(bare, sizeof bare, LDP_FT_DONE, 0, "the first word that is free has an entry of that prefix already");
    expect_label(0, 43, LDP_FT_CODE_UNPROTECTED, "a label without protection");
    hear(other, sizeof other, LDP_FT_DONE, 2, "with another prefix");
    expect_label(0, 0, LDP_FT_CODE_FREE, "the word that it leaves");
    expect_label(4, 43, LDP_FT_CODE_UNPROTECTED, "its code stays");
}

static void moved_to_its_requests_word(void) {
    const uint8_t request[19] = REQUEST(21), answer[43] = {0x04, MAPPING, 0, 39, 0, 0, 0, 9, OF_PREFIX(24, 7), LABEL(40), ASKED(21), NUMBER(4)};
    begin_listed();
    submit(&ours, request, sizeof request, LDP_FT_DONE, "a Request");
    hear(answer, sizeof answer, LDP_FT_DONE, 2, "its answer, with another prefix");
    expect_label(0, 0, LDP_FT_CODE_FREE, "the word that it leaves");
    expect_label(3, 40, LDP_FT_CODE_USING, "in the Request's word");
    expect_prefix(3, 24, 7, "its prefix then");
}

/* Every word is in use: a label cannot move, and one that need not is taken. */
static void moved_nowhere(void) {
    const uint8_t same[43] = MAPPED(24, 0, 40, 4), other[43] = MAPPED(24, 7, 40, 5);
    uint8_t bare[27] = MAPPED_BARE(24, 0, 0);
    begin_listed();
    for (uint32_t place = 3; place < LDP_FT_LABEL_WORDS; place++) {
        bare[26] = (uint8_t)(100 + place);
        hear(bare, sizeof bare, LDP_FT_DONE, place < 60 ? 2 : 4, "60 places in each of two blocks");
    }
    hear(same, sizeof same, LDP_FT_DONE, 0, "the prefix that it has");
    hear(other, sizeof other, LDP_FT_NO_WORD_FOR_MAPPING, 0, "another prefix");
    expect_label(0, 40, LDP_FT_CODE_USING, "it stays where it was");
    expect_prefix(0, 24, 0, "with the prefix that it had");
}

/* The blocks before block 0 are stored and that is not: the state is the one before. */
static void cut_before_block_0(ldp_ft_outcome o, uint32_t slot) {
    expect(o.answer, LDP_FT_DONE, "the Mapping is taken");
    expect(o.slot, slot, "its slot");
    expect(o.further, 2, "its entry");
    if (slot != 0) store_block(&ours, slot);
    store_block(&ours, LDP_FT_INDEX_BLOCK);
    power_cut(&ours);
    expect_label(0, 40, LDP_FT_CODE_USING, "where it stood");
    expect_prefix(0, 24, 0, "with the prefix that it had");
    expect_label(3, 0, LDP_FT_CODE_FREE, "and nowhere else");
    expect_no_prefix(3, "no entry counts there");
}

static void cut_after_the_index(void) {
    const uint8_t received[43] = MAPPED(24, 7, 40, 4), given[27] = MAPPED_BARE(24, 7, 50);
    begin_listed();
    cut_before_block_0(ldp_ft_receive(ours.image, sizeof ours.image, ours.session, received, sizeof received), 0);
    begin_listed();
    cut_before_block_0(ldp_ft_submit(ours.image, sizeof ours.image, ours.session, given, sizeof given), 1);
}

static void submitted(void) {
    const uint8_t mapping[27] = OF_LABEL(MAPPING, 50), again[27] = OF_LABEL(MAPPING, 50);
    const uint8_t other[27] = MAPPED_BARE(24, 7, 50);
    begin_both();
    expect(submit(&ours, mapping, sizeof mapping, LDP_FT_DONE, "a Mapping").further, 2, "its entry");
    expect_prefix(0, 24, 0, "of a label that we gave");
    expect(submit(&ours, again, sizeof again, LDP_FT_DONE, "the same Mapping again").further, 0, "the entry stands");
    submit(&ours, other, sizeof other, LDP_FT_LABEL_NOT_ALLOWED, "a Mapping with another prefix");
}

/* An image of a release without the index: its labels have no prefix. */
static void extended(void) {
    begin_listed();
    ldp_ft_extended e = ldp_ft_extend(ours.store, sizeof ours.store, LDP_FT_UNINDEXED_IMAGE_SIZE);
    expect(e.answer, LDP_FT_DONE, "extend");
    expect(e.further, LDP_FT_FURTHER_INDEX, "blocks 66 and 67 are made");
    power_cut(&ours);
    expect_label(0, 40, LDP_FT_CODE_USING, "its labels are there");
    expect_no_prefix(0, "with no prefix");
}

void prefix_trial(void) {
    listed();
    shortest_and_longest();
    withdrawn_at_once();
    withdrawn_without_protection();
    moved();
    moved_with_its_code();
    moved_to_its_requests_word();
    moved_nowhere();
    cut_after_the_index();
    submitted();
    extended();
}
