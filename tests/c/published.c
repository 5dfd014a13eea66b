/* Both forms of FT Session: what is written and read, ends that write different ones, and a timeout to the millisecond. */
#include "trial.h"

#include <string.h>

static const uint8_t published_fresh[42] = PUBLISHED_FRESH_INIT, resuming[42] = RESUMING_INIT(0), published_resuming[50] = PUBLISHED_RESUMING_INIT(0);
static const uint8_t mapping[27] = OF_LABEL(0x00, 70);

static uint32_t agreed(const cabinet *c) {
    return ldp_ft_summarize(c->image, sizeof c->image).timeout;
}

/* A proposal as an Init says it, in the unit of its form, and as INIT_WAIT bears it, in milliseconds. */
static void proposes(bool given, uint32_t proposal, bool published, uint32_t said, uint32_t borne) {
    begin(&ours);
    ldp_ft_outcome o = ldp_ft_open(ours.image, sizeof ours.image, ours.session, 1, 30, 4096, 2, 3, given, proposal, false, published, out, sizeof out);
    expect(o.answer, LDP_FT_DONE, "open");
    expect(o.length, published ? 42 : 34, "length of an Init");
    expect(o.session.value, borne, "milliseconds in INIT_WAIT");
    ldp_ft_message m = ldp_ft_message_read(out, o.length);
    expect(m.timeout, said, "proposal in the Init");
    expect(m.published, published, "form of the Init");
}

static void proposals(void) {
    proposes(false, 9, false, 30, 30000);
    proposes(false, 9, true, 30000, 30000);
    proposes(true, 0, false, 0, 0);
    proposes(true, 0, true, 0, 0);
    proposes(true, 65535, false, 65535, 65535000);
    proposes(true, 65536, false, 65535, 65535000);
    proposes(true, 0xFFFFFFFF, false, 65535, 65535000);
    proposes(true, 65536, true, 65536, 65536);
    proposes(true, 0xFFFFFFFF, true, 0xFFFFFFFF, 0xFFFFFFFF);
}

/* 50 bytes of room are always enough, and exact room is. */
static void room(void) {
    begin_both();
    connection_fails(&ours);
    for (size_t length = 48; length <= LDP_FT_INIT_ROOM; length++) {
        ldp_ft_outcome o = ldp_ft_open(ours.image, sizeof ours.image, ours.session, 0x11223344, 30, 4096, 0x0a000001, 3, true, 5000, false, true, out, length);
        expect(o.answer, length < 50 ? LDP_FT_OUTPUT_TOO_SHORT : LDP_FT_DONE, "room for an Init");
    }
    expect_written(sizeof published_resuming, published_resuming, sizeof published_resuming, "Init in the published form");
}

/* Of the published form R and the reconnect timeout are read and nothing else; no other length is taken. */
static void reads(void) {
    uint8_t init[42] = PUBLISHED_FRESH_INIT;
    init[30] = 0x7F;
    init[31] = 0xF7;
    memset(init + 32, 0xEE, 2);
    memset(init + 38, 0xEE, 4);
    ldp_ft_message m = ldp_ft_message_read(init, sizeof init);
    expect(m.answer, LDP_FT_DONE, "an Init with other flags");
    expect(m.reconnect, 0, "R");
    expect(m.timeout, 5000, "reconnect timeout");
    init[29] = 8;
    init[3] = 34;
    expect(ldp_ft_message_read(init, sizeof init - 4).answer, LDP_FT_MALFORMED_RECEIVED, "FT Session of length 8");
}

/* Each end writes its own form, another on the next connection; both agree on 5,000 milliseconds, and the labels stay. */
static void mixed(void) {
    begin(&ours);
    begin(&peer);
    peer.published = true;
    connect_forms(fresh_init, sizeof fresh_init, published_fresh, sizeof published_fresh, 0);
    expect(agreed(&ours), 5000, "agreed here");
    expect(agreed(&peer), 5000, "agreed there");
    submit(&ours, mapping, sizeof mapping, LDP_FT_DONE, "submit");
    connection_fails(&ours);
    connection_fails(&peer);
    ours.published = true;
    peer.published = false;
    connect_forms(published_resuming, sizeof published_resuming, resuming, sizeof resuming, LDP_FT_RESUMED);
    pass_on_all(&ours, &peer);
    expect(ldp_ft_label(peer.image, sizeof peer.image, 0), word(70, LDP_FT_CODE_USING), "label at the peer");
}

/* The peer proposes 1 millisecond less than we do: the state is kept exactly so long. */
static void to_the_millisecond(void) {
    uint8_t init[42] = PUBLISHED_FRESH_INIT;
    init[37]--;
    begin(&ours);
    ldp_ft_outcome o = ldp_ft_open(ours.image, sizeof ours.image, ours.session, 1, 30, 4096, 2, 3, true, 5, false, false, out, sizeof out);
    settle(&ours, o, LDP_FT_DONE, "open");
    settle(&ours, ldp_ft_init_received(ours.image, sizeof ours.image, ours.session, init, sizeof init), LDP_FT_DONE, "Init received");
    expect(agreed(&ours), 4999, "the lesser of both");
    connection_fails(&ours);
    time_passes(&ours, 4998, LDP_FT_FAILED);
    time_passes(&ours, 4999, LDP_FT_IDLE);
}

void published_trial(void) {
    proposals();
    room();
    reads();
    mixed();
    to_the_millisecond();
}
