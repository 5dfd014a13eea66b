//! Names beside numbers: message types, TLVs, status codes (RFC 3036 and its extensions), label codes, answers.

const MESSAGE_TYPES: &[(u32, &str)] = &[
    (0x0001, "Notification"),
    (0x0100, "Hello"),
    (0x0200, "Initialization"),
    (0x0201, "KeepAlive"),
    (0x0202, "Capability"),
    (0x0300, "Address"),
    (0x0301, "Address Withdraw"),
    (0x0400, "Label Mapping"),
    (0x0401, "Label Request"),
    (0x0402, "Label Withdraw"),
    (0x0403, "Label Release"),
    (0x0404, "Label Abort Request"),
];

const TLVS: &[(u32, &str)] = &[
    (0x0100, "FEC"),
    (0x0101, "Address List"),
    (0x0103, "Hop Count"),
    (0x0104, "Path Vector"),
    (0x0200, "Generic Label"),
    (0x0201, "ATM Label"),
    (0x0202, "Frame Relay Label"),
    (0x0203, "FT Protection"),
    (0x0300, "Status"),
    (0x0301, "Extended Status"),
    (0x0302, "Returned PDU"),
    (0x0303, "Returned Message"),
    (0x0304, "Returned TLVs"),
    (0x0400, "Common Hello Parameters"),
    (0x0401, "IPv4 Transport Address"),
    (0x0402, "Configuration Sequence Number"),
    (0x0403, "IPv6 Transport Address"),
    (0x0500, "Common Session Parameters"),
    (0x0501, "ATM Session Parameters"),
    (0x0502, "Frame Relay Session Parameters"),
    (0x0503, "FT Session"),
    (0x0504, "FT ACK"),
    (0x0505, "FT Cork"),
    (0x0506, "Dynamic Capability Announcement"),
    (0x050B, "Typed Wildcard FEC Capability"),
    (0x0600, "Label Request Message ID"),
    (0x0603, "Unrecognized Notification Capability"),
    (0x0701, "Dual-Stack Capability"),
];

/// The low 30 bits of a status code. 0x1A to 0x23 are the fault tolerance extension's, as published.
const STATUSES: &[(u32, &str)] = &[
    (0x00, "Success"),
    (0x01, "Bad LDP Identifier"),
    (0x02, "Bad Protocol Version"),
    (0x03, "Bad PDU Length"),
    (0x04, "Unknown Message Type"),
    (0x05, "Bad Message Length"),
    (0x06, "Unknown TLV"),
    (0x07, "Bad TLV Length"),
    (0x08, "Malformed TLV Value"),
    (0x09, "Hold Timer Expired"),
    (0x0A, "Shutdown"),
    (0x0B, "Loop Detected"),
    (0x0C, "Unknown FEC"),
    (0x0D, "No Route"),
    (0x0E, "No Label Resources"),
    (0x0F, "Label Resources Available"),
    (0x10, "Session Rejected / No Hello"),
    (0x11, "Session Rejected / Parameters Advertisement Mode"),
    (0x12, "Session Rejected / Parameters Max PDU Length"),
    (0x13, "Session Rejected / Parameters Label Range"),
    (0x14, "KeepAlive Timer Expired"),
    (0x15, "Label Request Aborted"),
    (0x16, "Missing Message Parameters"),
    (0x17, "Unsupported Address Family"),
    (0x18, "Session Rejected / Bad KeepAlive Time"),
    (0x19, "Internal Error"),
    (0x1A, "No LDP Session"),
    (0x1B, "Zero FT Sequence Number"),
    (0x1C, "Unexpected TLV / Session Not FT"),
    (0x1D, "Unexpected TLV / Label Not FT"),
    (0x1E, "Missing FT Protection TLV"),
    (0x1F, "FT ACK Sequence Error"),
    (0x20, "Temporary Shutdown"),
    (0x21, "FT Sequence Numbers Exhausted"),
    (0x22, "FT Session Parameters Changed"),
    (0x23, "Unexpected FT Cork TLV"),
    (0x2E, "Unsupported Capability"),
    (0x2F, "End of LIB"),
];

/// What a code says of its label: whose it is, and the code's name as include/ldp_ft_text.h has it.
const LABEL_CODES: &[(u32, &str)] = &[
    (1, "ours, given"),
    (2, "ours, withdrawing"),
    (3, "the peer's, using"),
    (4, "the peer's, asked back"),
    (5, "the peer's, releasing"),
    (6, "the peer's, using without protection"),
    (8, "ours, withdrawn and acknowledged"),
    (9, "ours, withdrawn and released"),
];

/// What has to come before a label with a code is free or ours again, where it waits for something.
const WAITS: &[(u32, &str)] = &[
    (2, "the peer's acknowledgement of our Withdraw, and its Release"),
    (4, "our Release"),
    (5, "the peer's acknowledgement of our Release"),
    (8, "the peer's Release"),
    (9, "the peer's acknowledgement of our Withdraw"),
];

fn name_in(table: &[(u32, &'static str)], number: u32) -> Option<&'static str> {
    table.iter().find(|(known, _)| *known == number).map(|(_, name)| *name)
}

/// A message type, its U bit masked off.
pub fn message_type(number: u32) -> &'static str {
    name_in(MESSAGE_TYPES, number).unwrap_or("unknown message")
}

/// A TLV type, its U and F bits masked off.
pub fn tlv(number: u16) -> &'static str {
    name_in(TLVS, u32::from(number)).unwrap_or("unknown TLV")
}

/// A status code, its E and F bits masked off.
pub fn status(code: u32) -> &'static str {
    name_in(STATUSES, code).unwrap_or("unknown status")
}

/// A label word's code.
pub fn label_code(code: u32) -> &'static str {
    name_in(LABEL_CODES, code).unwrap_or("unknown code")
}

/// What a label with a code waits for.
pub fn waits_for(code: u32) -> Option<&'static str> {
    name_in(WAITS, code)
}
