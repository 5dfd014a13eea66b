#include "wire.h"

#include "ldp_ft.h"

#include <stdio.h>
#include <string.h>

#define FEC_TLV 0x0100
#define ADDRESS_LIST_TLV 0x0101
#define GENERIC_LABEL_TLV 0x0200
#define STATUS_TLV 0x0300
#define PARAMETERS_TLV 0x0500
#define REQUEST_ID_TLV 0x0600
#define WILDCARD_ELEMENT 1
#define PREFIX_ELEMENT 2
#define IPV4_FAMILY 1

uint32_t wire_get16(const uint8_t *at) {
    return (uint32_t)at[0] << 8 | at[1];
}

uint32_t wire_get32(const uint8_t *at) {
    return wire_get16(at) << 16 | wire_get16(at + 2);
}

void wire_put16(uint8_t *at, uint32_t number) {
    at[0] = (uint8_t)(number >> 8);
    at[1] = (uint8_t)number;
}

void wire_put32(uint8_t *at, uint32_t number) {
    wire_put16(at, number >> 16);
    wire_put16(at + 2, number);
}

void wire_put_header(uint8_t *pdu, size_t messages, uint32_t lsr) {
    wire_put16(pdu, 1);
    wire_put16(pdu + 2, (uint32_t)messages + 6);
    wire_put32(pdu + 4, lsr);
    wire_put16(pdu + 8, 0);
}

uint8_t *wire_put_tlv(uint8_t *at, uint32_t type, size_t length) {
    wire_put16(at, type);
    wire_put16(at + 2, (uint32_t)length);
    return at + 4;
}

uint8_t *wire_put_message(uint8_t *msg, uint32_t type, size_t tlvs, uint32_t id) {
    wire_put16(msg, type);
    wire_put16(msg + 2, (uint32_t)tlvs + 4);
    wire_put32(msg + 4, id);
    return msg + 8;
}

size_t wire_fec(uint8_t *fec, wire_prefix prefix) {
    uint8_t address[4];
    size_t bytes = (prefix.length + 7) / 8;
    fec[0] = PREFIX_ELEMENT;
    wire_put16(fec + 1, IPV4_FAMILY);
    fec[3] = (uint8_t)prefix.length;
    wire_put32(address, prefix.address);
    memcpy(fec + 4, address, bytes);
    return 4 + bytes;
}

/* A message that begins with a FEC and has so many bytes of TLVs behind it; the next byte is theirs. */
static uint8_t *put_fec_message(uint8_t *msg, uint32_t type, uint32_t id, const uint8_t *fec, size_t fec_len, size_t behind) {
    uint8_t *at = wire_put_message(msg, type, 4 + fec_len + behind, id);
    at = wire_put_tlv(at, FEC_TLV, fec_len);
    memcpy(at, fec, fec_len);
    return at + fec_len;
}

/* The last TLV of a message, with a number; the message's length. */
static size_t put_last_number(const uint8_t *msg, uint8_t *at, uint32_t type, uint32_t number) {
    at = wire_put_tlv(at, type, 4);
    wire_put32(at, number);
    return (size_t)(at + 4 - msg);
}

size_t wire_label_message(uint8_t *msg, uint32_t type, uint32_t id, const uint8_t *fec, size_t fec_len, uint32_t label) {
    return put_last_number(msg, put_fec_message(msg, type, id, fec, fec_len, 8), GENERIC_LABEL_TLV, label);
}

size_t wire_answer_message(uint8_t *msg, uint32_t id, const uint8_t *fec, size_t fec_len, uint32_t label, uint32_t request_id) {
    uint8_t *at = wire_put_tlv(put_fec_message(msg, LDP_FT_TYPE_MAPPING, id, fec, fec_len, 8 + 8), GENERIC_LABEL_TLV, 4);
    wire_put32(at, label);
    return put_last_number(msg, at + 4, REQUEST_ID_TLV, request_id);
}

size_t wire_request_notification(uint8_t *msg, uint32_t id, uint32_t status, uint32_t about_id, uint32_t about_type, uint32_t request_id) {
    uint8_t *at = wire_put_tlv(wire_put_message(msg, LDP_FT_TYPE_NOTIFICATION, 14 + 8, id), STATUS_TLV, 10);
    wire_put32(at, status);
    wire_put32(at + 4, about_id);
    wire_put16(at + 8, about_type);
    return put_last_number(msg, at + 10, REQUEST_ID_TLV, request_id);
}

size_t wire_request_message(uint8_t *msg, uint32_t id, const uint8_t *fec, size_t fec_len) {
    return (size_t)(put_fec_message(msg, LDP_FT_TYPE_REQUEST, id, fec, fec_len, 0) - msg);
}

size_t wire_abort_message(uint8_t *msg, uint32_t id, const uint8_t *fec, size_t fec_len, uint32_t request_id) {
    return put_last_number(msg, put_fec_message(msg, LDP_FT_TYPE_ABORT, id, fec, fec_len, 8), REQUEST_ID_TLV, request_id);
}

size_t wire_address_message(uint8_t *msg, uint32_t id, uint32_t address) {
    uint8_t *at = wire_put_message(msg, LDP_FT_TYPE_ADDRESS, 4 + 6, id);
    at = wire_put_tlv(at, ADDRESS_LIST_TLV, 6);
    wire_put16(at, IPV4_FAMILY);
    wire_put32(at + 2, address);
    return (size_t)(at + 6 - msg);
}

int wire_is_parameters(const uint8_t *tlv) {
    return (wire_get16(tlv) & 0x3FFF) == PARAMETERS_TLV;
}

void wire_address_text(uint32_t address, char text[WIRE_ADDRESS_TEXT]) {
    snprintf(text, WIRE_ADDRESS_TEXT, "%u.%u.%u.%u", address >> 24, address >> 16 & 255, address >> 8 & 255, address & 255);
}

int wire_read_address(const char *text, uint32_t *address) {
    unsigned a, b, c, d;
    char behind;
    if (sscanf(text, "%3u.%3u.%3u.%3u%c", &a, &b, &c, &d, &behind) != 4) return 0;
    if (a > 255 || b > 255 || c > 255 || d > 255) return 0;
    *address = (uint32_t)a << 24 | (uint32_t)b << 16 | (uint32_t)c << 8 | (uint32_t)d;
    return 1;
}

int wire_read_prefix(const char *text, wire_prefix *prefix) {
    char address[16];
    unsigned length;
    char behind;
    if (sscanf(text, "%15[0-9.]/%2u%c", address, &length, &behind) != 2 || length > 32) return 0;
    prefix->length = length;
    return wire_read_address(address, &prefix->address);
}

/* The bits of an address that a prefix of that length has. */
static uint32_t mask_of(uint32_t length) {
    return length == 0 ? 0 : UINT32_MAX << (32 - length);
}

void wire_fec_text(const uint8_t *fec, size_t fec_len, char text[WIRE_PREFIX_TEXT]) {
    uint8_t address[4] = {0};
    char masked[WIRE_ADDRESS_TEXT];
    size_t bytes = fec_len < 4 ? 0 : (fec[3] + 7u) / 8;
    if (fec_len == 1 && fec[0] == WILDCARD_ELEMENT) {
        snprintf(text, WIRE_PREFIX_TEXT, "every FEC");
        return;
    }
    if (fec_len < 4 || fec[0] != PREFIX_ELEMENT || wire_get16(fec + 1) != IPV4_FAMILY || bytes > 4 || fec_len < 4 + bytes) {
        snprintf(text, WIRE_PREFIX_TEXT, "another FEC");
        return;
    }
    memcpy(address, fec + 4, bytes);
    wire_address_text(wire_get32(address) & mask_of(fec[3]), masked);
    snprintf(text, WIRE_PREFIX_TEXT, "%s/%u", masked, fec[3]);
}
