/* The converter, every answer of it; and the upgrade in the field: an image of the first release, made by hand as its paper lays it out, is extended,
   converted, restored and resumed with its peer, and nothing held or listed is lost. */
#include "trial.h"

#include <string.h>

static uint8_t base[LDP_FT_IMAGE_SIZE], later[LDP_FT_IMAGE_SIZE], again[LDP_FT_IMAGE_SIZE];

static const uint8_t mapping_50[27] = OF_LABEL(0x00, 50), mapping_60[27] = OF_LABEL(0x00, 60), mapping_51[27] = OF_LABEL(0x00, 51);
static const uint8_t mapping_50_sent[43] = {0x04, 0x00, 0, 39, 0, 0, 0, 9, FEC, LABEL(50), NUMBER(1), ACK(1)};
static const uint8_t address[18] = {0x03, 0x00, 0, 14, 0, 0, 0, 5, 0x01, 0x01, 0, 6, 0, 1, 10, 0, 0, 1};
static const uint8_t our_init[50] = PUBLISHED_RESUMING_INIT(1), peers_init[42] = RESUMING_INIT(0);

static void put(uint8_t *at, uint32_t number, int width) {
    for (int i = 0; i < width; i++) at[i] = (uint8_t)(number >> (8 * (width - 1 - i)));
}

static void seal(uint8_t *image, uint32_t block) {
    uint8_t *at = image + block * LDP_FT_BLOCK_SIZE;
    put(at + 508, ldp_ft_block_check(at, LDP_FT_BLOCK_SIZE), 4);
}

static void put_slot(uint8_t *image, uint32_t block, const uint8_t *msg, size_t length, uint8_t kind, uint32_t label) {
    uint8_t *slot = image + block * LDP_FT_BLOCK_SIZE;
    put(slot, (uint32_t)length, 2);
    slot[2] = kind;
    put(slot + 4, label, 4);
    memcpy(slot + 8, msg, length);
    seal(image, block);
}

/* 01's image, 65 blocks of version 1: released 0, issued 1, secured 1, three held, 5 seconds, and three labels; the last of the 120 words as given. Behind
   it the buffer holds anything. */
static void make_base(uint32_t last_word) {
    memset(base, 0, LDP_FT_EARLIER_IMAGE_SIZE);
    memset(base + LDP_FT_EARLIER_IMAGE_SIZE, 0xA5, sizeof base - LDP_FT_EARLIER_IMAGE_SIZE);
    put(base, 1, 4);
    put(base + 8, 1, 4);
    put(base + 12, 1, 4);
    put(base + 18, 3, 2);
    put(base + 20, 5, 2);
    base[22] = 1;
    put(base + 24, 30, 2);
    put(base + 26, 4096, 2);
    put(base + 28, word(60, LDP_FT_CODE_USING), 4);
    put(base + 32, word(50, LDP_FT_CODE_GIVEN), 4);
    put(base + 36, word(51, LDP_FT_CODE_GIVEN), 4);
    put(base + 504, last_word, 4);
    seal(base, 0);
    put_slot(base, 1, mapping_50, sizeof mapping_50, LDP_FT_KIND_MAPPING, 50);
    put_slot(base, 2, address, sizeof address, LDP_FT_KIND_ADDRESS, LDP_FT_NONE);
    put_slot(base, 3, mapping_51, sizeof mapping_51, LDP_FT_KIND_MAPPING, 51);
}

/* The same history with this release: the peer's label is in use, our first Mapping is sent and lost, the rest is not sent yet. */
static void live_as_base(void) {
    begin_both();
    submit(&peer, mapping_60, sizeof mapping_60, LDP_FT_DONE, "submit 60");
    pass_on_all(&peer, &ours);
    acknowledge(&ours, &peer);
    submit(&ours, mapping_50, sizeof mapping_50, LDP_FT_DONE, "submit 50");
    submit(&ours, address, sizeof address, LDP_FT_DONE, "submit an Address");
    submit(&ours, mapping_51, sizeof mapping_51, LDP_FT_DONE, "submit 51");
    send_one(&ours, "send 50, which is lost");
    connection_fails(&ours);
    connection_fails(&peer);
}

/* The same bytes but for the prefixes of labels, which no earlier release stored. */
static void expect_alike(const uint8_t *image, const uint8_t *other, const char *what) {
    expect(memcmp(image, other, LDP_FT_UNINDEXED_IMAGE_SIZE) == 0, 1, what);
}

static void expect_converted(ldp_ft_converted c, uint32_t answer, uint32_t block, const char *what) {
    expect(c.answer, answer, what);
    expect(c.block, block, what);
    expect(c.length, answer == LDP_FT_DONE ? LDP_FT_IMAGE_SIZE : 0, what);
}

static void forward(uint32_t answer, uint32_t block, const char *what) {
    memset(later, 0xA5, sizeof later);
    expect_converted(ldp_ft_convert_forward(base, sizeof base, later, sizeof later), answer, block, what);
    if (answer != LDP_FT_DONE) expect(later[0] & later[LDP_FT_IMAGE_SIZE - 1], 0xA5, "nothing is written where it is refused");
}

static void extend(void) {
    expect(ldp_ft_extend(base, sizeof base, LDP_FT_EARLIER_IMAGE_SIZE - 1).answer, LDP_FT_WRONG_SIZE, "no earlier size");
    ldp_ft_extended e = ldp_ft_extend(base, sizeof base, LDP_FT_EARLIER_IMAGE_SIZE);
    expect(e.answer, LDP_FT_DONE, "extend");
    expect(e.further, LDP_FT_FURTHER_REQUESTS | LDP_FT_FURTHER_INDEX, "blocks 65 to 67 are made");
}

/* The order of section 10. What comes out is, byte for byte, what this release has stored of the same history, but that its labels have no prefix; with
   block 0 stored alone the medium holds all of it. */
static void upgrade(void) {
    live_as_base();
    make_base(0);
    forward(LDP_FT_BAD_BLOCK, LDP_FT_REQUEST_BLOCK, "an image that is not extended");
    extend();
    expect(ldp_ft_restore(base, sizeof base).answer, LDP_FT_BAD_FIELD, "restore takes no version 1");
    forward(LDP_FT_DONE, 0, "convert forward");
    expect_alike(later, ours.store, "the image that this release would have stored");
    expect(ldp_ft_prefix_at(later, sizeof later, 1).indexed, 0, "a label of the first release has no prefix");
    memcpy(base, later, LDP_FT_BLOCK_SIZE);
    expect(memcmp(base, later, sizeof base) == 0, 1, "block 0 alone differs");

    memcpy(ours.store, later, sizeof ours.store);
    power_cut(&ours);
    ours.published = true;
    connect_forms(our_init, sizeof our_init, peers_init, sizeof peers_init, LDP_FT_RESUMED);
    expect_written(send_one(&ours, "again"), mapping_50_sent, sizeof mapping_50_sent, "the Mapping that was lost");
}

static void nothing_is_lost(void) {
    receive(&peer, out, sizeof mapping_50_sent, LDP_FT_DONE, "receive 50");
    pass_on_all(&ours, &peer);
    acknowledge(&peer, &ours);
    ldp_ft_summary s = ldp_ft_summarize(ours.image, sizeof ours.image);
    expect(s.held, 0, "all has arrived");
    expect(s.released, 3, "three were acknowledged");
    expect(s.labels, 3, "all labels are listed");
    expect(s.timeout, 5000, "milliseconds");
    expect(ldp_ft_label(ours.image, sizeof ours.image, 0), word(60, LDP_FT_CODE_USING), "the peer's label");
    expect(ldp_ft_label(peer.image, sizeof peer.image, 2), word(51, LDP_FT_CODE_USING), "our last label at the peer");
}

/* Back and forth, and forth and back, the same bytes; and what cannot go. */
static void back_and_forth(void) {
    live_as_base();
    expect_converted(ldp_ft_convert_back(ours.image, sizeof ours.image, later, sizeof later), LDP_FT_DONE, 0, "convert back");
    make_base(0);
    extend();
    expect_alike(later, base, "the image of version 1");
    expect_converted(ldp_ft_convert_forward(later, sizeof later, again, sizeof again), LDP_FT_DONE, 0, "and forth");
    expect(memcmp(again, ours.image, sizeof again) == 0, 1, "back and forth, prefixes too");
    expect_converted(ldp_ft_convert_forward(base, sizeof base, again, sizeof again), LDP_FT_DONE, 0, "convert forward");
    expect_converted(ldp_ft_convert_back(again, sizeof again, later, sizeof later), LDP_FT_DONE, 0, "and back");
    expect(memcmp(later, base, sizeof later) == 0, 1, "forth and back");
}

/* 5,001 milliseconds are no whole seconds, 65,536 seconds are more than two bytes say. */
static void no_way_back(void) {
    static const uint32_t odd[] = {1, 5001, 65536000, 0xFFFFFFFF};
    live_as_base();
    for (size_t i = 0; i < sizeof odd / sizeof odd[0]; i++) {
        put(ours.image + 28, odd[i], 4);
        seal(ours.image, 0);
        expect_converted(ldp_ft_convert_back(ours.image, sizeof ours.image, later, 0), LDP_FT_NOT_CONVERTIBLE, 0, "no way back, also without room");
    }
    put(ours.image + 28, 65535000, 4);
    seal(ours.image, 0);
    expect_converted(ldp_ft_convert_back(ours.image, sizeof ours.image, later, sizeof later), LDP_FT_DONE, 0, "65,535 seconds");
    expect_converted(ldp_ft_convert_forward(ours.image, sizeof ours.image, later, sizeof later), LDP_FT_BAD_FIELD, 0, "forward of version 2");
}

/* Every other answer, in their order: 12, 10, 11, 16, 9. */
static void refusals(void) {
    make_base(word(700, LDP_FT_CODE_USING));
    extend();
    forward(LDP_FT_NOT_CONVERTIBLE, 0, "the last of 120 words");
    expect_converted(ldp_ft_convert_forward(base, sizeof base, later, 0), LDP_FT_NOT_CONVERTIBLE, 0, "16 before 9");
    expect_converted(ldp_ft_convert_back(base, sizeof base, later, sizeof later), LDP_FT_BAD_FIELD, 0, "back of version 1");
    base[3 * LDP_FT_BLOCK_SIZE + 2] = 9;
    seal(base, 3);
    forward(LDP_FT_BAD_FIELD, 3, "a slot's field before 16");
    base[3 * LDP_FT_BLOCK_SIZE + 20] ^= 1;
    forward(LDP_FT_BAD_BLOCK, 3, "a slot's check before its field");
    base[100] ^= 1;
    forward(LDP_FT_BAD_BLOCK, 0, "block 0 before slots");
    expect_converted(ldp_ft_convert_forward(base, sizeof base - 1, later, 0), LDP_FT_WRONG_SIZE, 0, "12 before all");
    expect_converted(ldp_ft_convert_back(NULL, 0, NULL, 0), LDP_FT_WRONG_SIZE, 0, "no image");
    make_base(0);
    extend();
    expect_converted(ldp_ft_convert_forward(base, sizeof base, later, sizeof later - 1), LDP_FT_OUTPUT_TOO_SHORT, 0, "a byte too little");
    begin(&ours);
    expect_converted(ldp_ft_convert_back(ours.image, sizeof ours.image, later, sizeof later), LDP_FT_DONE, 0, "kept 0 moves too");
    expect(later[3], 1, "version 1");
}

/* So many words of the converted image are open Requests. */
static void expect_requests(uint32_t wanted, const char *what) {
    uint32_t words[LDP_FT_LABEL_WORDS], found = 0;
    expect(ldp_ft_labels(later, sizeof later, words, LDP_FT_LABEL_WORDS).answer, LDP_FT_DONE, what);
    for (size_t i = 0; i < LDP_FT_LABEL_WORDS; i++) found += LDP_FT_WORD_CODE(words[i]) == LDP_FT_CODE_REQUEST ? 1 : 0;
    expect(found, wanted, what);
}

/* Behind 65 blocks of version 1 the medium holds anything: block 65 is refused, then made, and no Request is open. */
static void read_65_as_66(uint8_t filling) {
    make_base(0);
    memset(base + LDP_FT_EARLIER_IMAGE_SIZE, filling, LDP_FT_BLOCK_SIZE);
    forward(LDP_FT_BAD_BLOCK, LDP_FT_REQUEST_BLOCK, "what no release stored in block 65");
    extend();
    forward(LDP_FT_DONE, 0, "65 blocks extended");
    expect_requests(0, "no Request in the first release");
}

/* Behind 66 blocks it does too: both blocks of prefixes are made. */
static void read_66_as_68(uint8_t filling) {
    make_base(0);
    extend();
    memset(base + LDP_FT_UNINDEXED_IMAGE_SIZE, filling, 2 * LDP_FT_BLOCK_SIZE);
    forward(LDP_FT_BAD_BLOCK, LDP_FT_INDEX_BLOCK, "what no release stored in block 66");
    ldp_ft_extended e = ldp_ft_extend(base, sizeof base, LDP_FT_UNINDEXED_IMAGE_SIZE);
    expect(e.answer, LDP_FT_DONE, "extend 66 blocks");
    expect(e.further, LDP_FT_FURTHER_INDEX, "blocks 66 and 67 are made");
    forward(LDP_FT_DONE, 0, "66 blocks extended");
}

/* A medium without a length (10): 65 blocks; 66; 66 with a damaged block 65; 65 before IDs that an older image left. */
static void without_length(void) {
    read_66_as_68(0xFF);
    read_66_as_68(0x00);
    read_65_as_66(0xFF);
    read_65_as_66(0x00);
    put(base + 40, word(0, LDP_FT_CODE_REQUEST), 4);
    seal(base, 0);
    base[LDP_FT_EARLIER_IMAGE_SIZE] ^= 1;
    forward(LDP_FT_BAD_BLOCK, LDP_FT_REQUEST_BLOCK, "a damaged block 65");
    extend();
    forward(LDP_FT_DONE, 0, "block 65 made anew");
    expect_requests(1, "a Request whose ID is lost");
    make_base(0);
    extend();
    put(base + LDP_FT_EARLIER_IMAGE_SIZE, 7, 4);
    put(base + LDP_FT_EARLIER_IMAGE_SIZE + 4, 7, 4);
    seal(base, LDP_FT_REQUEST_BLOCK);
    forward(LDP_FT_DONE, 0, "IDs that an older image left");
    expect_requests(0, "which count for nothing");
}

void convert_trial(void) {
    upgrade();
    nothing_is_lost();
    back_and_forth();
    no_way_back();
    refusals();
    without_length();
}
