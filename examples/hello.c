#include "hello.h"

#include <arpa/inet.h>
#include <fcntl.h>
#include <netinet/in.h>
#include <string.h>
#include <sys/socket.h>
#include <unistd.h>

#define ALL_ROUTERS 0xE0000002u /* 224.0.0.2 */
#define COMMON_HELLO_TLV 0x0400
#define TRANSPORT_TLV 0x0401
#define HOLD_TIME 15 /* seconds */

void hello_none(hello *h) {
    h->fd = -1;
    h->send_at = NEVER;
    h->lost_at = NEVER;
}

void hello_forget(hello *h) {
    h->lost_at = NEVER;
}

/* Bound to the group, and to what comes for it on this interface: a Hello that was sent to us alone may come from beyond the link, and is not taken (RFC
   3036, 5.1). */
int hello_begin(hello *h, uint32_t interface_address) {
    const int on = 1, every_interface = 0;
    const unsigned char ttl = 1, off = 0;
    struct sockaddr_in all_routers = socket_place(ALL_ROUTERS, LDP_PORT);
    struct in_addr ours;
    struct ip_mreq group;
    ours.s_addr = htonl(interface_address);
    group.imr_multiaddr.s_addr = htonl(ALL_ROUTERS);
    group.imr_interface = ours;
    h->send_at = 0;
    h->lost_at = NEVER;
    h->fd = socket(AF_INET, SOCK_DGRAM, 0);
    if (h->fd < 0) return 0;
    fcntl(h->fd, F_SETFL, O_NONBLOCK);
    return setsockopt(h->fd, SOL_SOCKET, SO_REUSEADDR, &on, sizeof on) == 0 && bind(h->fd, (struct sockaddr *)&all_routers, sizeof all_routers) == 0 &&
           setsockopt(h->fd, IPPROTO_IP, IP_MULTICAST_ALL, &every_interface, sizeof every_interface) == 0 &&
           setsockopt(h->fd, IPPROTO_IP, IP_ADD_MEMBERSHIP, &group, sizeof group) == 0 &&
           setsockopt(h->fd, IPPROTO_IP, IP_MULTICAST_IF, &ours, sizeof ours) == 0 &&
           setsockopt(h->fd, IPPROTO_IP, IP_MULTICAST_TTL, &ttl, sizeof ttl) == 0 &&
           setsockopt(h->fd, IPPROTO_IP, IP_MULTICAST_LOOP, &off, sizeof off) == 0;
}

void hello_send(hello *h, uint32_t our_lsr) {
    uint8_t pdu[LDP_FT_PDU_HEADER + 24];
    struct sockaddr_in all = socket_place(ALL_ROUTERS, LDP_PORT);
    wire_put_header(pdu, 24, our_lsr);
    uint8_t *at = wire_put_message(pdu + LDP_FT_PDU_HEADER, LDP_FT_TYPE_HELLO, 16, 0);
    at = wire_put_tlv(at, COMMON_HELLO_TLV, 4);
    wire_put16(at, HOLD_TIME);
    wire_put16(at + 2, 0);
    at = wire_put_tlv(at + 4, TRANSPORT_TLV, 4);
    wire_put32(at, our_lsr);
    /* a Hello that does not leave is made good by the next */
    (void)sendto(h->fd, pdu, sizeof pdu, 0, (struct sockaddr *)&all, sizeof all);
    h->send_at = now() + HOLD_TIME * 1000 / 3;
}

/* The transport address of a Hello, or its sender's where it names none. The PDU has been judged, so each length is looked at once. */
static uint32_t transport_of(const uint8_t *msg, size_t length, uint32_t sender) {
    for (size_t at = 8; at + 4 <= length; at += 4 + wire_get16(msg + at + 2)) {
        int is_transport = (wire_get16(msg + at) & 0x3FFF) == TRANSPORT_TLV && wire_get16(msg + at + 2) == 4;
        if (is_transport && at + 8 <= length) return wire_get32(msg + at + 4);
    }
    return sender;
}

void hello_read(hello *h, uint32_t peer_lsr) {
    uint8_t pdu[1500];
    struct sockaddr_in from;
    socklen_t from_length = sizeof from;
    ssize_t n = recvfrom(h->fd, pdu, sizeof pdu, 0, (struct sockaddr *)&from, &from_length);
    if (n < 0 || ldp_ft_pdu_open(pdu, (size_t)n).answer != LDP_FT_DONE || wire_get32(pdu + 4) != peer_lsr || wire_get16(pdu + 8) != 0) return;
    ldp_ft_part part = ldp_ft_pdu_message(pdu, (size_t)n, LDP_FT_PDU_HEADER);
    ldp_ft_message m = ldp_ft_message_read(pdu + part.start, part.end - part.start);
    if (part.answer != LDP_FT_DONE || m.answer != LDP_FT_DONE || m.type != LDP_FT_TYPE_HELLO) return;
    uint32_t transport = transport_of(pdu + part.start, part.end - part.start, ntohl(from.sin_addr.s_addr));
    if (h->lost_at != NEVER && transport != h->transport) return; /* all Hellos of a label space name one address (RFC 3036, 2.5.2) */
    if (h->lost_at == NEVER) say("a Hello of the peer's has come");
    h->transport = transport;
    h->lost_at = now() + HOLD_TIME * 1000;
}
