#include "newcomer.h"

void newcomer_begin(newcomer *n) {
    connection_begin(&n->link, -1);
    n->until = NEVER;
}

void newcomer_turn_away(newcomer *n, const char *why) {
    char from[WIRE_ADDRESS_TEXT];
    if (n->link.fd < 0) return;
    wire_address_text(n->from, from);
    say("turned away a connection from %s: %s", from, why);
    connection_close(&n->link);
    n->until = NEVER;
}

void newcomer_take(newcomer *n, int fd, uint32_t from, int64_t until) {
    newcomer_turn_away(n, "a later one has come");
    connection_begin(&n->link, fd);
    n->from = from;
    n->until = until;
}

/* The first message of the PDU is an Init to us, and the PDU is the peer's. */
static int is_peers_init(const cabinet_settings *s, const uint8_t *pdu, size_t length) {
    if (ldp_ft_pdu_open(pdu, length).answer != LDP_FT_DONE || !cabinet_is_peers(s, pdu)) return 0;
    ldp_ft_part part = ldp_ft_pdu_message(pdu, length, LDP_FT_PDU_HEADER);
    ldp_ft_message m = ldp_ft_message_read(pdu + part.start, part.end - part.start);
    return cabinet_init_suits(s, m, pdu + part.start);
}

void newcomer_read(newcomer *n, cabinet *c) {
    size_t length = 0;
    if (!connection_read(&n->link)) {
        newcomer_turn_away(n, "it was closed before its Init came");
        return;
    }
    pdu_state state = connection_pdu(&n->link, &length);
    if (state == PDU_INCOMPLETE) return;
    if (state == PDU_BAD || !is_peers_init(&c->settings, n->link.in, length)) {
        newcomer_turn_away(n, "what came is no Init of the peer's to us");
        return;
    }
    cabinet_admit(c, &n->link);
    newcomer_begin(n);
}
