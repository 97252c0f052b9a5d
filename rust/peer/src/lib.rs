//! An independent implementation of the V3 safe file, of replay and of the login table, written for
//! the tests alone.
//!
//! It shares no code with the proved library. It is plain and allocates freely;
//! the tests compare its answers with the library's.

pub mod body;
pub mod chain;
pub mod fields;
pub mod hmac;
pub mod json;
pub mod random;
pub mod replay;
pub mod safe;
pub mod saved;
pub mod sha256;
pub mod stretch;
pub mod table;
pub mod text;
pub mod twofish;
