//! What the tests share: lent memory between guards, and each call with its answer and all
//! memory afterwards, from the library and from the independent implementation.
#![allow(dead_code)]

pub mod bodies;
pub mod calls;
pub mod compiled;
pub mod elsewhere;
pub mod fenced;
pub mod guarded;
pub mod header;
pub mod making;
pub mod painted;
pub mod tables;
pub mod traces;
pub mod uuids;
pub mod walks;
