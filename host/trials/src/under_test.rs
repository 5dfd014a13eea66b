//! What is tested, measured and run. One line decides it.

pub use ldp_ft::Library as UnderTest;
