/* What an image holds: its numbers, all its label words, its messages; and refused images. */
#include "trial.h"

#include <string.h>

/* Two Mappings of ours and an Address are submitted, the first two sent, the first acknowledged; one label of the peer's is in use. */
static const uint8_t mapping_50[27] = OF_LABEL(0x00, 50), mapping_51[27] = OF_LABEL(0x00, 51), mapping_60[27] = OF_LABEL(0x00, 60);
static const uint8_t address[18] = {0x03, 0x00, 0, 14, 0, 0, 0, 5, 0x01, 0x01, 0, 6, 0, 1, 10, 0, 0, 1};

static void fill(void) {
    begin_both();
    submit(&ours, mapping_50, sizeof mapping_50, LDP_FT_DONE, "submit 50");
    receive(&peer, out, send_one(&ours, "send 50"), LDP_FT_DONE, "receive 50");
    acknowledge(&peer, &ours);
    submit(&peer, mapping_60, sizeof mapping_60, LDP_FT_DONE, "submit 60");
    pass_on_all(&peer, &ours);
    submit(&ours, mapping_51, sizeof mapping_51, LDP_FT_DONE, "submit 51");
    submit(&ours, address, sizeof address, LDP_FT_DONE, "submit an Address");
    send_one(&ours, "send 51");
}

static void summarize(void) {
    ldp_ft_summary s = ldp_ft_summarize(ours.image, sizeof ours.image);
    expect(s.answer, LDP_FT_DONE, "summarize");
    expect(s.block, 0, "block");
    expect(s.kept, 1, "kept");
    expect(s.released, 1, "released");
    expect(s.issued, 2, "issued");
    expect(s.secured, 1, "secured");
    expect(s.held, 2, "held");
    expect(s.pended, 1, "pended");
    expect(s.labels, 3, "labels");
    expect(s.timeout, 5000, "timeout in milliseconds");
    expect(s.keepalive_time, 30, "KeepAlive time");
    expect(s.max_pdu_length, 4096, "maximum PDU length");
    expect(s.marks, 0, "Requests are not stopped");
}

/* All words, and no word after them. */
static void labels(void) {
    expect(ldp_ft_label(ours.image, sizeof ours.image, LDP_FT_LABEL_WORDS - 1), 0, "the last word");
    expect(ldp_ft_label(ours.image, sizeof ours.image, LDP_FT_LABEL_WORDS), LDP_FT_NONE, "no word behind it");
    uint32_t words[LDP_FT_LABEL_WORDS + 1];
    memset(words, 0xA5, sizeof words);
    ldp_ft_words w = ldp_ft_labels(ours.image, sizeof ours.image, words, LDP_FT_LABEL_WORDS + 1);
    expect(w.answer, LDP_FT_DONE, "labels");
    expect(w.block, 0, "block");
    expect(w.count, 3, "words in use");
    expect(words[0], word(50, LDP_FT_CODE_GIVEN), "first label");
    expect(words[1], word(60, LDP_FT_CODE_USING), "second label");
    expect(words[2], word(51, LDP_FT_CODE_GIVEN), "third label");
    for (size_t i = 3; i < LDP_FT_LABEL_WORDS; i++) expect(words[i], 0, "free word");
    expect(words[LDP_FT_LABEL_WORDS], 0xA5A5A5A5, "behind the words");
    w = ldp_ft_labels(ours.image, sizeof ours.image, words, LDP_FT_LABEL_WORDS);
    expect(w.answer, LDP_FT_DONE, "exact room");
    words[0] = 77;
    w = ldp_ft_labels(ours.image, sizeof ours.image, words, LDP_FT_LABEL_WORDS - 1);
    expect(w.answer, LDP_FT_OUTPUT_TOO_SHORT, "a word too few");
    expect(w.count, 0, "no words with 9");
    expect(words[0], 77, "nothing is written with 9");
}

static void expect_held(uint32_t place, const uint8_t *msg, size_t length) {
    ldp_ft_part p = ldp_ft_held(ours.image, sizeof ours.image, place);
    expect(p.answer, LDP_FT_DONE, "held");
    expect(p.end - p.start, (uint32_t)length, "length of a held message");
    expect(memcmp(ours.image + p.start, msg, length) == 0, 1, "bytes of a held message");
}

/* The oldest first, as submitted; the first Mapping is acknowledged and gone. The oldest was sent last, with the number that follows `released`. */
static void held(void) {
    static const uint32_t empty_places[] = {2, LDP_FT_SLOTS - 1, LDP_FT_SLOTS, 0xFFFFFFFF};
    uint32_t released = ldp_ft_summarize(ours.image, sizeof ours.image).released;
    expect(ldp_ft_message_read(out, sizeof mapping_51 + 16).number, ldp_ft_successor(released), "the number of the oldest held");
    expect_held(0, mapping_51, sizeof mapping_51);
    expect_held(1, address, sizeof address);
    for (size_t i = 0; i < sizeof empty_places / sizeof empty_places[0]; i++) {
        ldp_ft_part p = ldp_ft_held(ours.image, sizeof ours.image, empty_places[i]);
        expect(p.answer, LDP_FT_NOTHING_UNSENT, "none held there");
        expect(p.start, 0, "no start");
        expect(p.end, 0, "no end");
    }
}

static void expect_refused(const uint8_t *image, size_t length, uint32_t answer, uint32_t block) {
    uint32_t words[LDP_FT_LABEL_WORDS] = {77};
    ldp_ft_summary s = ldp_ft_summarize(image, length);
    expect(s.answer, answer, "summary refused");
    expect(s.block, block, "summary's block");
    expect(s.kept + s.released + s.issued + s.secured + s.held + s.pended + s.labels + s.timeout + s.keepalive_time + s.max_pdu_length + s.marks, 0, "all else 0");
    ldp_ft_words w = ldp_ft_labels(image, length, words, 0);
    expect(w.answer, answer, "labels refused, before their room is looked at");
    expect(w.block, block, "labels' block");
    expect(w.count, 0, "no words");
    expect(words[0], 77, "no word written");
    ldp_ft_part p = ldp_ft_held(image, length, 0);
    expect(p.answer, answer, "held refused");
    expect(p.start + p.end, 0, "no place");
    expect(ldp_ft_prefix_at(image, length, 0).indexed, 0, "no prefix");
}

/* A wrong size, a wrong check in each block that is looked at, a wrong field. Blocks 2 and 3 hold messages, block 1 no longer. */
static void refusals(void) {
    static const uint32_t looked_at[] = {0, 2, 3, LDP_FT_REQUEST_BLOCK, LDP_FT_INDEX_BLOCK, LDP_FT_INDEX_BLOCK + 1};
    static uint8_t image[LDP_FT_IMAGE_SIZE];
    expect_refused(NULL, 0, LDP_FT_WRONG_SIZE, 0);
    expect_refused(ours.image, sizeof ours.image - 1, LDP_FT_WRONG_SIZE, 0);
    for (size_t i = 0; i < sizeof looked_at / sizeof looked_at[0]; i++) {
        memcpy(image, ours.image, sizeof image);
        image[looked_at[i] * LDP_FT_BLOCK_SIZE + 40] ^= 1;
        expect_refused(image, sizeof image, LDP_FT_BAD_BLOCK, looked_at[i]);
    }
    memcpy(image, ours.image, sizeof image);
    image[3] = 9;
    uint32_t check = ldp_ft_block_check(image, LDP_FT_BLOCK_SIZE);
    for (int i = 0; i < 4; i++) image[508 + i] = (uint8_t)(check >> (24 - 8 * i));
    expect_refused(image, sizeof image, LDP_FT_BAD_FIELD, 0);
}

/* A new image holds nothing. */
static void empty(void) {
    uint32_t words[LDP_FT_LABEL_WORDS];
    begin(&ours);
    ldp_ft_summary s = ldp_ft_summarize(ours.image, sizeof ours.image);
    expect(s.answer + s.kept + s.held + s.labels + s.timeout, 0, "summary of a new image");
    expect(ldp_ft_labels(ours.image, sizeof ours.image, words, LDP_FT_LABEL_WORDS).count, 0, "labels of a new image");
    expect(ldp_ft_held(ours.image, sizeof ours.image, 0).answer, LDP_FT_NOTHING_UNSENT, "nothing held in a new image");
}

/* The archive and the shared object are those that the header belongs to. */
static void version(void) {
    expect(ldp_ft_version(), LDP_FT_VERSION_MAJOR * 65536 + LDP_FT_VERSION_MINOR * 256 + LDP_FT_VERSION_PATCH, "the library's version");
}

void image_trial(void) {
    version();
    fill();
    summarize();
    labels();
    held();
    refusals();
    empty();
}
