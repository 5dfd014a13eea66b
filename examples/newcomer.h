/* A connection that was asked for from the peer's address, beside the session's own, which it does not touch until its Init has been judged. */
#ifndef NEWCOMER_H
#define NEWCOMER_H

#include "cabinet.h"

typedef struct {
    connection link; /* fd -1: there is none */
    uint32_t from;   /* the address that it comes from */
    int64_t until;   /* its Init is to have come by then; NEVER where there is none */
} newcomer;

void newcomer_begin(newcomer *n);
/* Takes a connection; one that waited here gives way, for a peer that connects anew has lost it. */
void newcomer_take(newcomer *n, int fd, uint32_t from, int64_t until);
/* Bytes have come. Whatever is no Init of the peer's to us is turned away; with the Init, and all that came with it, the connection becomes the session's. */
void newcomer_read(newcomer *n, cabinet *c);
/* It is closed, if there is one. */
void newcomer_turn_away(newcomer *n, const char *why);

#endif
