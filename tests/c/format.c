/* What a power cut leaves while the blocks of a new image are stored, in the order that the header names (3) and in the other one. */
#include "trial.h"

#include <string.h>

static const uint8_t mapping_50[27] = OF_LABEL(0x00, 50), request_21[19] = REQUEST(21);

/* What the store holds is read, and answered so. */
static ldp_ft_session restore(uint32_t answer, uint32_t block, const char *what) {
    static uint8_t image[LDP_FT_IMAGE_SIZE];
    memcpy(image, ours.store, sizeof image);
    ldp_ft_outcome o = ldp_ft_restore(image, sizeof image);
    expect(o.answer, answer, what);
    expect(o.block, block, what);
    return o.session;
}

static void format(void) {
    expect(ldp_ft_format(ours.image, sizeof ours.image).answer, LDP_FT_DONE, "format");
}

/* A medium that holds no image, whatever its bytes are: block 0 last. */
static void new_medium(uint8_t filling) {
    memset(ours.store, filling, sizeof ours.store);
    format();
    for (uint32_t block = 1; block < LDP_FT_BLOCKS; block++) {
        store_block(&ours, block);
        restore(LDP_FT_BAD_BLOCK, 0, "a cut before block 0");
    }
    store_block(&ours, 0);
    expect(restore(LDP_FT_DONE, 0, "a new image").phase, LDP_FT_IDLE, "Idle from a new image");
}

/* An image with a label, a message held and an open Request is given up: block 0 first. */
static void given_up(void) {
    begin_both();
    submit(&ours, mapping_50, sizeof mapping_50, LDP_FT_DONE, "submit 50");
    submit(&ours, request_21, sizeof request_21, LDP_FT_DONE, "Request");
    format();
    expect(restore(LDP_FT_DONE, 0, "a cut before block 0").phase, LDP_FT_FAILED, "the image that was there");
    for (uint32_t block = 0; block < LDP_FT_BLOCKS; block++) {
        store_block(&ours, block);
        expect(restore(LDP_FT_DONE, 0, "a cut after block 0").phase, LDP_FT_IDLE, "nothing kept");
    }
}

/* Why not last: nothing is held, so of the blocks that were overwritten only those behind the slots are looked at, and the Request has lost its ID. */
static void block_0_last(void) {
    begin_both();
    submit(&ours, request_21, sizeof request_21, LDP_FT_DONE, "Request");
    pass_on_all(&ours, &peer);
    acknowledge(&peer, &ours);
    format();
    for (uint32_t block = 1; block < LDP_FT_BLOCKS; block++) store_block(&ours, block);
    expect(restore(LDP_FT_DONE, 0, "a cut before block 0").phase, LDP_FT_FAILED, "the old labels");
    ldp_ft_request r = ldp_ft_request_at(ours.store, sizeof ours.store, 0);
    expect(r.open, 1, "the old Request");
    expect(r.id, 0, "under another ID");
}

void format_trial(void) {
    new_medium(0xFF);
    new_medium(0x00);
    given_up();
    block_0_last();
}
