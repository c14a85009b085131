//! The walk program over the given files of varisat 0.2.2.
//!
//! - `lent`: the buffers and the state as document 01 lends them.
//! - `judge`: refusals 1, 2 and 3, from document 01.
//! - `mirrors`: the given structures' private fields, opened.
//! - `source`: loads lent buffers into the given structures and writes them back.
//! - `calls`: each call: judged and refused by document 01, carried out by the given functions.
//! - `walk`: reading lines and printing.
pub mod calls;
pub mod judge;
pub mod lent;
pub mod mirrors;
pub mod source;
pub mod walk;
