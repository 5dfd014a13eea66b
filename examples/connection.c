#include "connection.h"

#include "wire.h"

#include <arpa/inet.h>
#include <errno.h>
#include <fcntl.h>
#include <netinet/in.h>
#include <netinet/tcp.h>
#include <poll.h>
#include <string.h>
#include <sys/socket.h>
#include <unistd.h>

struct sockaddr_in socket_place(uint32_t address, uint16_t port) {
    struct sockaddr_in at;
    memset(&at, 0, sizeof at);
    at.sin_family = AF_INET;
    at.sin_addr.s_addr = htonl(address);
    at.sin_port = htons(port);
    return at;
}

/* The socket does not block, and sends each PDU at once. */
static int prepared(int fd) {
    const int on = 1;
    if (fd < 0) return -1;
    fcntl(fd, F_SETFL, O_NONBLOCK);
    setsockopt(fd, SOL_SOCKET, SO_REUSEADDR, &on, sizeof on);
    setsockopt(fd, IPPROTO_TCP, TCP_NODELAY, &on, sizeof on);
    return fd;
}

static int new_socket(void) {
    return prepared(socket(AF_INET, SOCK_STREAM, 0));
}

int connection_listen(uint32_t address, uint16_t *port, uint32_t peer, const md5_key *key) {
    struct sockaddr_in at = socket_place(address, *port);
    socklen_t length = sizeof at;
    int fd = new_socket();
    if (fd < 0) return -1;
    if (bind(fd, (struct sockaddr *)&at, sizeof at) != 0 || !md5_set(fd, peer, key) || listen(fd, 4) != 0 ||
        getsockname(fd, (struct sockaddr *)&at, &length) != 0) {
        close(fd);
        return -1;
    }
    *port = ntohs(at.sin_port);
    return fd;
}

int connection_accept(int listening, uint32_t *from) {
    struct sockaddr_in at = socket_place(0, 0);
    socklen_t length = sizeof at;
    int fd = prepared(accept(listening, (struct sockaddr *)&at, &length));
    *from = ntohl(at.sin_addr.s_addr);
    return fd;
}

void connection_begin(connection *c, int fd) {
    c->fd = fd;
    c->connecting = 0;
    c->in_length = 0;
    c->out_length = 0;
}

void connection_ask(connection *c, uint32_t from, uint32_t to, uint16_t port, const md5_key *key) {
    struct sockaddr_in ours = socket_place(from, 0), peers = socket_place(to, port);
    connection_begin(c, new_socket());
    if (c->fd < 0) return;
    c->connecting = 1;
    if (md5_set(c->fd, to, key) && bind(c->fd, (struct sockaddr *)&ours, sizeof ours) == 0) {
        if (connect(c->fd, (struct sockaddr *)&peers, sizeof peers) == 0 || errno == EINPROGRESS) return;
    }
    connection_close(c);
}

void connection_close(connection *c) {
    if (c->fd >= 0) close(c->fd);
    connection_begin(c, -1);
}

short connection_events(const connection *c) {
    return (short)(POLLIN | (c->connecting || c->out_length > 0 ? POLLOUT : 0));
}

int connection_stands(connection *c) {
    int fault = 0;
    socklen_t length = sizeof fault;
    c->connecting = 0;
    return getsockopt(c->fd, SOL_SOCKET, SO_ERROR, &fault, &length) == 0 && fault == 0;
}

static int would_block(void) {
    return errno == EAGAIN || errno == EWOULDBLOCK || errno == EINTR;
}

int connection_read(connection *c) {
    ssize_t n = recv(c->fd, c->in + c->in_length, sizeof c->in - c->in_length, 0);
    if (n < 0) return would_block();
    c->in_length += (size_t)n;
    return n > 0;
}

int connection_flush(connection *c) {
    ssize_t n = send(c->fd, c->out, c->out_length, MSG_NOSIGNAL);
    if (n < 0) return would_block();
    c->out_length -= (size_t)n;
    memmove(c->out, c->out + n, c->out_length);
    return 1;
}

int connection_send(connection *c, uint32_t lsr, const uint8_t *msg, size_t length) {
    if (sizeof c->out - c->out_length < LDP_FT_PDU_HEADER + length) return 0;
    wire_put_header(c->out + c->out_length, length, lsr);
    memcpy(c->out + c->out_length + LDP_FT_PDU_HEADER, msg, length);
    c->out_length += LDP_FT_PDU_HEADER + length;
    return connection_flush(c);
}

pdu_state connection_pdu(const connection *c, size_t *length) {
    if (c->in_length < 4) return PDU_INCOMPLETE;
    uint32_t field = wire_get16(c->in + 2);
    if (wire_get16(c->in) != 1 || field > MAX_PDU_LENGTH) return PDU_BAD;
    *length = field + 4;
    return c->in_length < *length ? PDU_INCOMPLETE : PDU_WHOLE;
}

void connection_drop(connection *c, size_t length) {
    c->in_length -= length;
    memmove(c->in, c->in + length, c->in_length);
}
