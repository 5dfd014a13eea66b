/* What the trials in this folder share: two cabinets with an image in memory and one on the medium, and what is expected of a call. */
#ifndef TRIAL_H
#define TRIAL_H

#include "ldp_ft.h"

/* The image in memory, what its store holds, the phase, and the form of FT Session that its Inits have. */
typedef struct {
    uint8_t image[LDP_FT_IMAGE_SIZE];
    uint8_t store[LDP_FT_IMAGE_SIZE];
    ldp_ft_session session;
    bool published;
} cabinet;

extern cabinet ours, peer;
extern uint8_t out[504]; /* what the last call wrote */

/* TLVs: the FEC 10.0.0.0/24, a Generic Label below 256, the ID of a Request, FT Protection and FT ACK with numbers below 256. */
#define FEC 0x01, 0x00, 0, 7, 2, 0, 1, 24, 10, 0, 0
#define LABEL(label) 0x02, 0x00, 0, 4, 0, 0, 0, label
#define ASKED(id) 0x06, 0x00, 0, 4, 0, 0, 0, id
#define NUMBER(number) 0x02, 0x03, 0, 4, 0, 0, 0, number
#define ACK(number) 0x05, 0x04, 0, 4, 0, 0, 0, number

/* A Mapping (type 0x00), Withdraw (0x02) or Release (0x03) of a label, as submitted, as sent with a number and ACK 0; message ID 9. */
#define OF_LABEL(type, label) {0x04, type, 0, 23, 0, 0, 0, 9, FEC, LABEL(label)}
#define OF_LABEL_SENT(type, label, number) {0x04, type, 0, 39, 0, 0, 0, 9, FEC, LABEL(label), NUMBER(number), ACK(0)}

/* A Request and an Abort of one, as submitted; the Abort's own message ID is 14. */
#define REQUEST(id) {0x04, 0x01, 0, 15, 0, 0, 0, id, FEC}
#define ABORT(id) {0x04, 0x04, 0, 23, 0, 0, 0, 14, FEC, ASKED(id)}

/* A Notification with a status, E and F clear, about a message ID. */
#define STATUS(code, id) {0x00, 0x01, 0, 18, 0, 0, 0, 13, 0x03, 0x00, 0, 10, 0, 0, 0, code, 0, 0, 0, id, 0, 0}

/* Our Init, byte by byte: both ends take their parameters by one header, and would not notice if two of them were swapped. Message ID 0x11223344,
   KeepAlive time 30, maximum PDU length 4096, receiver 10.0.0.1:3 and 5 seconds; where state is kept R is set, and the ACK. In the form of RFC 3479
   5,000 milliseconds, S set, and no recovery time. */
#define ID_AND_PARAMETERS 0x11, 0x22, 0x33, 0x44, 0x05, 0x00, 0, 14, 0, 1, 0, 30, 0, 0, 0x10, 0x00, 10, 0, 0, 1, 0, 3
#define FRESH_INIT {0x02, 0x00, 0, 30, ID_AND_PARAMETERS, 0x85, 0x03, 0, 4, 0x00, 0, 0, 5}
#define RESUMING_INIT(number) {0x02, 0x00, 0, 38, ID_AND_PARAMETERS, 0x85, 0x03, 0, 4, 0x80, 0, 0, 5, ACK(number)}
#define MILLISECONDS_5000 0, 0, 0x13, 0x88
#define PUBLISHED_FRESH_INIT {0x02, 0x00, 0, 38, ID_AND_PARAMETERS, 0x85, 0x03, 0, 12, 0x00, 0x08, 0, 0, MILLISECONDS_5000, 0, 0, 0, 0}
#define PUBLISHED_RESUMING_INIT(number) {0x02, 0x00, 0, 46, ID_AND_PARAMETERS, 0x85, 0x03, 0, 12, 0x80, 0x08, 0, 0, MILLISECONDS_5000, 0, 0, 0, 0, ACK(number)}
extern const uint8_t fresh_init[34];

void expect(uint32_t found, uint32_t wanted, const char *what);
void expect_written(size_t length, const uint8_t *wanted, size_t wanted_length, const char *what);

/* The label word of that code; 0 where the code is 0. */
uint32_t word(uint32_t label, uint32_t code);

/* A formatted image, all of it stored; its Inits are in the draft's form. */
void begin(cabinet *c);
void store_block(cabinet *c, uint32_t block);
/* Keeps the session, stores what the outcome says, and gives the length of what may then leave. */
size_t settle(cabinet *c, ldp_ft_outcome o, uint32_t answer, const char *what);
/* Power is cut and comes back: what was stored is all that there is. State is kept. */
void power_cut(cabinet *c);
void connection_fails(cabinet *c);
/* Both Inits cross, as they are given here, and both ends are UP_FT: resumed where the Inits are longer than fresh ones. */
void connect_both(const uint8_t *our_init, const uint8_t *peers_init, size_t length);
/* The same with Inits of two lengths, and the flags of both sessions then. */
void connect_forms(const uint8_t *our_init, size_t our_length, const uint8_t *peers_init, size_t peers_length, uint32_t flags);
/* Both cabinets begin with new images and connect. */
void begin_both(void);

/* A message is submitted and answered so; 0 is stored. */
ldp_ft_outcome submit(cabinet *c, const uint8_t *msg, size_t length, uint32_t answer, const char *what);
/* The next message goes out, into `out`; its length. */
size_t send_one(cabinet *c, const char *what);
void nothing_unsent(cabinet *c);
/* What `out` holds, or other bytes, are received and answered so. */
void receive(cabinet *c, const uint8_t *msg, size_t length, uint32_t answer, const char *what);
/* A KeepAlive with the acknowledgement of all that was taken goes over. */
void acknowledge(cabinet *from, cabinet *to);
/* So many milliseconds have passed, and the phase is this one then. */
void time_passes(cabinet *c, uint32_t elapsed, uint32_t phase);
/* All that one end has to send arrives at the other. */
void pass_on_all(cabinet *from, cabinet *to);

void session_trial(void);
void request_trial(void);
void left_out_trial(void);
void label_trial(void);
void prefix_trial(void);
void plain_trial(void);
void image_trial(void);
void format_trial(void);
void published_trial(void);
void convert_trial(void);
void reading_trial(void);
void text_trial(void);

#endif
