/* Bytes of LDP that the owner writes and reads himself: PDU headers, label messages, addresses, prefixes. The high byte comes first. */
#ifndef WIRE_H
#define WIRE_H

#include <stddef.h>
#include <stdint.h>

#define WIRE_FEC_ROOM 8     /* the FEC TLV's value for one IPv4 prefix has at most so many bytes */
#define WIRE_PREFIX_TEXT 32 /* room for the text of a FEC */
#define WIRE_ADDRESS_TEXT 16

/* Status codes, E clear, of Notifications about a Label Request. */
#define WIRE_NO_ROUTE 0x0000000Du
#define WIRE_REQUEST_ABORTED 0x00000015u

typedef struct {
    uint32_t address; /* 10.0.0.1 is 0x0A000001 */
    uint32_t length;  /* 0 to 32 bits */
} wire_prefix;

uint32_t wire_get16(const uint8_t *at);
uint32_t wire_get32(const uint8_t *at);
void wire_put16(uint8_t *at, uint32_t number);
void wire_put32(uint8_t *at, uint32_t number);

/* The header of a PDU whose messages have so many bytes; label space 0. */
void wire_put_header(uint8_t *pdu, size_t messages, uint32_t lsr);

/* A TLV's type and length; the next byte is its value's first. */
uint8_t *wire_put_tlv(uint8_t *at, uint32_t type, size_t length);

/* The head of a message whose TLVs have so many bytes; the next byte is theirs. */
uint8_t *wire_put_message(uint8_t *msg, uint32_t type, size_t tlvs, uint32_t id);

/* The FEC TLV's value for one prefix; its length. */
size_t wire_fec(uint8_t *fec, wire_prefix prefix);

/* A Mapping, Withdraw or Release of a label; its length, 23 more than fec_len. */
size_t wire_label_message(uint8_t *msg, uint32_t type, uint32_t id, const uint8_t *fec, size_t fec_len, uint32_t label);

/* A Mapping that answers the Request with that ID; its length, 31 more than fec_len. */
size_t wire_answer_message(uint8_t *msg, uint32_t id, const uint8_t *fec, size_t fec_len, uint32_t label, uint32_t request_id);

/* A Notification about a Label Request of the peer's, which answers the message with that ID and type; its length, 30. */
size_t wire_request_notification(uint8_t *msg, uint32_t id, uint32_t status, uint32_t about_id, uint32_t about_type, uint32_t request_id);

/* A Label Request, and an Abort of the Request with that ID; their lengths, 12 and 20 more than fec_len. */
size_t wire_request_message(uint8_t *msg, uint32_t id, const uint8_t *fec, size_t fec_len);
size_t wire_abort_message(uint8_t *msg, uint32_t id, const uint8_t *fec, size_t fec_len, uint32_t request_id);

/* An Address message with one IPv4 address; its length, 18. */
size_t wire_address_message(uint8_t *msg, uint32_t id, uint32_t address);

/* True where a TLV is Common Session Parameters. */
int wire_is_parameters(const uint8_t *tlv);

/* "10.0.0.1" and "10.0.0.0/24"; 0 where the text is neither. */
void wire_address_text(uint32_t address, char text[WIRE_ADDRESS_TEXT]);
int wire_read_address(const char *text, uint32_t *address);
int wire_read_prefix(const char *text, wire_prefix *prefix);

/* The first element of a FEC in words: "10.0.0.0/24", "every FEC", or "another FEC". */
void wire_fec_text(const uint8_t *fec, size_t fec_len, char text[WIRE_PREFIX_TEXT]);

#endif
