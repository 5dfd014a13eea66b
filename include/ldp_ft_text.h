/*
 * ldp_ft_text.h: the numbers of ldp_ft.h in words, for logs and for people. A number that ldp_ft.h does not name is "unknown".
 */
#ifndef LDP_FT_TEXT_H
#define LDP_FT_TEXT_H

#include "ldp_ft.h"

/* What an answer says. */
static inline const char *ldp_ft_answer_text(uint32_t answer) {
    switch (answer) {
    case LDP_FT_DONE: return "done";
    case LDP_FT_WRONG_PHASE: return "not in this phase";
    case LDP_FT_ZERO_DISTANCE: return "distance of a zero number";
    case LDP_FT_LENGTH_OUT_OF_RANGE: return "message shorter than 8 or longer than 480 bytes";
    case LDP_FT_MALFORMED: return "malformed message or PDU";
    case LDP_FT_KIND_NOT_SENT: return "no kind that is submitted, an FT TLV, or no label";
    case LDP_FT_LABEL_NOT_ALLOWED: return "the label or the Request does not allow the message";
    case LDP_FT_STORE_FULL: return "64 messages are held";
    case LDP_FT_NOTHING_UNSENT: return "nothing unsent, or nothing held there";
    case LDP_FT_OUTPUT_TOO_SHORT: return "output too short";
    case LDP_FT_BAD_BLOCK: return "the check of a block is wrong";
    case LDP_FT_BAD_FIELD: return "a field of a block is out of range";
    case LDP_FT_WRONG_SIZE: return "wrong size of the image";
    case LDP_FT_NO_LABEL_WORD: return "no label word free";
    case LDP_FT_REQUESTS_STOPPED: return "the peer has no label resources";
    case LDP_FT_REQUEST_OUTSIDE_UP_FT: return "a Request outside UP_FT";
    case LDP_FT_NOT_CONVERTIBLE: return "no place for it in the other version of the image";
    case LDP_FT_OUT_OF_TURN: return "number out of turn";
    case LDP_FT_NO_WORD_FOR_MAPPING: return "no label word free for a received Mapping";
    case LDP_FT_MALFORMED_RECEIVED: return "malformed message received, or an Init out of place";
    case LDP_FT_BAD_INIT: return "Init without parameters, or without the acknowledgement to resume";
    case LDP_FT_ZERO_NUMBER: return "protected message with number zero";
    case LDP_FT_FT_TLV_IN_PLAIN: return "FT TLV on a plain session";
    case LDP_FT_PROTECTION_WRONG: return "message protected that must not be";
    case LDP_FT_PROTECTION_MISSING: return "message not protected that must be";
    case LDP_FT_ACK_SEQUENCE_ERROR: return "acknowledgement of a number that was not given";
    case LDP_FT_PARAMETERS_CHANGED: return "the peer resumes with other parameters";
    case LDP_FT_STATUS_FATAL: return "the peer ends the session";
    default: return "unknown";
    }
}

static inline const char *ldp_ft_phase_text(uint32_t phase) {
    switch (phase) {
    case LDP_FT_IDLE: return "Idle";
    case LDP_FT_INIT_WAIT: return "InitWait";
    case LDP_FT_UP_FT: return "UpFT";
    case LDP_FT_UP_PLAIN: return "UpPlain";
    case LDP_FT_FAILED: return "Failed";
    default: return "unknown";
    }
}

/* The kind of a message; 0 is "no kind". */
static inline const char *ldp_ft_kind_text(uint32_t kind) {
    switch (kind) {
    case LDP_FT_KIND_NONE: return "no kind";
    case LDP_FT_KIND_MAPPING: return "Label Mapping";
    case LDP_FT_KIND_WITHDRAW: return "Label Withdraw";
    case LDP_FT_KIND_RELEASE: return "Label Release";
    case LDP_FT_KIND_ADDRESS: return "Address";
    case LDP_FT_KIND_ADDRESS_WITHDRAW: return "Address Withdraw";
    case LDP_FT_KIND_RESOURCES_AVAILABLE: return "Label Resources Available";
    case LDP_FT_KIND_REQUEST: return "Label Request";
    case LDP_FT_KIND_ABORT: return "Label Abort Request";
    case LDP_FT_KIND_NO_RESOURCES: return "No Label Resources";
    default: return "unknown";
    }
}

/* The code of a label word (LDP_FT_WORD_CODE). */
static inline const char *ldp_ft_code_text(uint32_t code) {
    switch (code) {
    case LDP_FT_CODE_FREE: return "free";
    case LDP_FT_CODE_GIVEN: return "given";
    case LDP_FT_CODE_WITHDRAWING: return "withdrawing";
    case LDP_FT_CODE_USING: return "using";
    case LDP_FT_CODE_ASKED_BACK: return "asked back";
    case LDP_FT_CODE_RELEASING: return "releasing";
    case LDP_FT_CODE_UNPROTECTED: return "using without protection";
    case LDP_FT_CODE_REQUEST: return "open Request";
    case LDP_FT_CODE_WITHDRAWN_ACKED: return "withdrawn and acknowledged";
    case LDP_FT_CODE_WITHDRAWN_RELEASED: return "withdrawn and released";
    default: return "unknown";
    }
}

/* The message type, U masked off, by RFC 3036's names. */
static inline const char *ldp_ft_type_text(uint32_t type) {
    switch (type) {
    case LDP_FT_TYPE_NOTIFICATION: return "Notification";
    case LDP_FT_TYPE_HELLO: return "Hello";
    case LDP_FT_TYPE_INITIALIZATION: return "Initialization";
    case LDP_FT_TYPE_KEEPALIVE: return "KeepAlive";
    case LDP_FT_TYPE_ADDRESS: return "Address";
    case LDP_FT_TYPE_ADDRESS_WITHDRAW: return "Address Withdraw";
    case LDP_FT_TYPE_MAPPING: return "Label Mapping";
    case LDP_FT_TYPE_REQUEST: return "Label Request";
    case LDP_FT_TYPE_WITHDRAW: return "Label Withdraw";
    case LDP_FT_TYPE_RELEASE: return "Label Release";
    case LDP_FT_TYPE_ABORT: return "Label Abort Request";
    default: return "unknown";
    }
}

#endif
