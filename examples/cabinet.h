/* The owner of one session: its image and store, its connection, its timers, and the labels that it wants to give. */
#ifndef CABINET_H
#define CABINET_H

#include "connection.h"
#include "ids.h"
#include "store.h"
#include "wire.h"

#define NEVER INT64_MAX

/* A label that we want the peer to have, or want back. */
typedef struct {
    uint32_t label;
    uint8_t fec[WIRE_FEC_ROOM]; /* the FEC TLV's value */
    size_t fec_len;
    int taken_back;  /* 1: it is to be withdrawn, and not given again before free_at */
    int released;    /* 1: the peer has released it: it is not given again while this state is kept */
    int sent;        /* 1: a plain peer was told on this connection */
    int answers;     /* 1: it answers the peer's Request with that ID */
    uint32_t request_id;
    int64_t free_at; /* of one taken back: NEVER until the peer's Release has come */
} offer;

/* What a Request of ours asks for; the image has its ID as long as it is open. */
typedef struct {
    uint32_t id;
    uint8_t fec[WIRE_FEC_ROOM];
    size_t fec_len;
} request;

/* A Request of the peer's that is not answered. */
typedef struct {
    uint32_t id;
    char fec[WIRE_PREFIX_TEXT];
} peer_request;

/* A label of a plain peer's; with fault tolerance the image has these. */
typedef struct {
    uint32_t label;
    char fec[WIRE_PREFIX_TEXT];
} plain_binding;

typedef struct {
    uint32_t our_lsr, peer_lsr; /* router IDs; label space 0 */
    uint16_t keepalive_time;    /* seconds, ours; the same at every open */
    int published;              /* 1: our Init is in the form of RFC 3479, 0: in the draft's */
    uint32_t proposal;          /* for how long we propose to keep the state: milliseconds in the published form, else seconds */
} cabinet_settings;

typedef struct {
    cabinet_settings settings;
    store store;
    ldp_ft_session session;
    connection link;
    ids ids;
    uint8_t init[LDP_FT_INIT_ROOM]; /* ours, until it has left */
    size_t init_length;
    int unacknowledged;   /* a numbered message was taken since our last acknowledgement */
    int64_t agreed;       /* the KeepAlive time of both, milliseconds */
    int64_t keepalive_at; /* deadlines, in milliseconds of the clock; NEVER where none runs */
    int64_t silent_at;
    int64_t release_at;
    int64_t failed_at;    /* when the session that was up last lost its connection; NEVER while it is up */
    int64_t timeout;      /* the agreed one, milliseconds, 0 for ever; it is remembered when the state is given up */
    int64_t retry_at;     /* not before this is a connection asked for */
    int64_t retry_after;
    offer offers[LDP_FT_LABEL_WORDS];
    size_t offer_count;
    request requests[LDP_FT_LABEL_WORDS];
    size_t request_count;
    peer_request asked[LDP_FT_LABEL_WORDS];
    size_t asked_count;
    plain_binding bindings[LDP_FT_LABEL_WORDS];
    size_t binding_count;
} cabinet;

/* Milliseconds of a clock that is never set. */
int64_t now(void);
/* A line of the log. */
void say(const char *format, ...);

/* ---- cabinet.c: the session ---- */
void cabinet_begin(cabinet *c, const char *path, cabinet_settings settings);
/* A connection is asked for: what is to come of it does not take longer than our KeepAlive time. */
void cabinet_await(cabinet *c);
/* A connection that the peer asked for and on which its Init has come takes the place of the one that there is. */
void cabinet_admit(cabinet *c, const connection *link);
/* The connection that we asked for stands: our Init goes first. */
void cabinet_connected(cabinet *c);
/* Bytes have come. */
void cabinet_read(cabinet *c);
/* The connection is gone, or is to go. */
void cabinet_lost(cabinet *c, const char *why);
/* What the timers ask for; and the first deadline. */
void cabinet_tick(cabinet *c);
int64_t cabinet_deadline(const cabinet *c);

/* ---- what the library leaves to its owner: that the peer speaks, and to us ---- */
/* True where a PDU's header bears the peer's LDP identifier. */
int cabinet_is_peers(const cabinet_settings *s, const uint8_t *pdu);
/* True where a message is an Init with the protocol's version, a KeepAlive time, and our LDP identifier as the receiver's. */
int cabinet_init_suits(const cabinet_settings *s, ldp_ft_message m, const uint8_t *msg);

/* ---- for labels.c and requests.c ---- */
/* Submits a message of one of the kinds; 1 where it is held, and stored. */
int cabinet_submit(cabinet *c, const uint8_t *msg, size_t length);
/* Sends a message as it is, in a PDU of its own, if there is a connection. */
void cabinet_send_message(cabinet *c, const uint8_t *msg, size_t length);
/* Everything held that was not sent on this connection goes out. */
void cabinet_send_held(cabinet *c);
uint32_t cabinet_new_id(cabinet *c);

/* ---- labels.c: what we want, and what the peer says ---- */
void labels_give(cabinet *c, uint32_t label, wire_prefix prefix);
/* Gives a label as the answer to a Request of the peer's. */
void labels_answer(cabinet *c, uint32_t label, wire_prefix prefix, uint32_t request_id);
void labels_take_back(cabinet *c, uint32_t label);
/* Submits, or sends to a plain peer, what is wanted and is not yet so. */
void labels_reconcile(cabinet *c);
/* A message of the peer's was taken and is stored. */
void labels_act(cabinet *c, ldp_ft_message m, const uint8_t *msg);
/* The state is given up, here and at the peer: what we want is to be given anew. */
void labels_begin_anew(cabinet *c);
void labels_print(const cabinet *c);

/* ---- requests.c: what we ask for, and what the peer does ---- */
void requests_ask(cabinet *c, wire_prefix prefix);
void requests_abort(cabinet *c, uint32_t id);
/* A message of the peer's was taken and is stored. */
void requests_act(cabinet *c, ldp_ft_message m, const uint8_t *msg);
/* The Request of the peer's with that ID; NULL where none is unanswered. And it is answered. */
const peer_request *requests_find(const cabinet *c, uint32_t id);
void requests_answered(cabinet *c, uint32_t id);
void requests_begin_anew(cabinet *c);
void requests_print(const cabinet *c);

#endif
