//! Generated inputs: stored states, messages, damaged images, and calls that fit them or do not.

pub mod calls;
pub mod damage;
pub mod fecs;
pub mod inits;
pub mod malformed;
pub mod messages;
pub mod pairs;
pub mod states;
