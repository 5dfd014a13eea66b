//! What the programs and the tests share: LDP messages and PDUs byte by byte, a store in a file, hexadecimal, options.

#![forbid(unsafe_code)]

pub mod hex;
pub mod options;
pub mod store;
pub mod wire;
