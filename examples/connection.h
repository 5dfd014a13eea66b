/* One TCP connection: PDUs taken from its bytes, and messages put into PDUs. Nothing blocks: bytes that do not leave at once wait here. */
#ifndef CONNECTION_H
#define CONNECTION_H

#include "ldp_ft.h"
#include "md5.h"

#include <netinet/in.h>

#define MAX_PDU_LENGTH LDP_FT_DEFAULT_MAX_PDU /* ours: what a PDU length field that comes may say */
#define OUTPUT_ROOM 65536                     /* more than the 64 messages that can be held, each in a PDU of its own */

typedef struct {
    int fd;         /* -1: there is none */
    int connecting; /* 1: it was asked for and does not stand yet */
    uint8_t in[MAX_PDU_LENGTH + 4];
    size_t in_length;
    uint8_t out[OUTPUT_ROOM];
    size_t out_length;
} connection;

typedef enum { PDU_INCOMPLETE, PDU_WHOLE, PDU_BAD } pdu_state;

struct sockaddr_in socket_place(uint32_t address, uint16_t port);

/* A socket that listens there, from its start signed for the peer if there is a key; *port 0 is any that is free, and the one taken is given back. -1 where
   it failed. */
int connection_listen(uint32_t address, uint16_t *port, uint32_t peer, const md5_key *key);
/* The socket of a connection that was asked for, and the address that it comes from; -1 where there is none. */
int connection_accept(int listening, uint32_t *from);
/* A connection begins that stands on this socket; or is asked for, signed if there is a key, and then fd is -1 where that failed. */
void connection_begin(connection *c, int fd);
void connection_ask(connection *c, uint32_t from, uint32_t to, uint16_t port, const md5_key *key);
void connection_close(connection *c);

/* The events that poll is to wait for. */
short connection_events(const connection *c);

/* These answer 0 where the connection is gone. */
int connection_stands(connection *c);
int connection_read(connection *c);
int connection_flush(connection *c);
int connection_send(connection *c, uint32_t lsr, const uint8_t *msg, size_t length);

/* Whether a whole PDU has come, and its length; PDU_BAD where what comes is none that we take. */
pdu_state connection_pdu(const connection *c, size_t *length);
/* The first bytes of what came are done with. */
void connection_drop(connection *c, size_t length);

#endif
