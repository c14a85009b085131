//! A safe wrapper over Mihorempo, the verified clause store.
//!
//! The store holds the clauses of a SAT solver and cleans them up while the search goes on; every clause that goes is on
//! record. Its functions are proved against the definitions of the project's crates; this crate is ordinary Rust that owns
//! the buffers, lends them, and turns numbers into types.
//!
//! - [`Store`] owns the store's buffers, with chosen [`Capacities`]; a method for each call.
//! - [`Host`] is the solver's side: assignment, reasons, levels, trail.
//! - [`Refusal`] is why a call was refused, by the numbers of the project's table. A refused call changes nothing.
//! - [`ffi`] has the declarations; [`layout`] checks them against a table and against the library, before the first store is made.
//!
//! `examples/toy_search.rs` drives a small search through it.
#![deny(missing_docs)]
#![deny(unsafe_op_in_unsafe_fn)]

pub mod ffi;
pub mod layout;

mod host;
mod kinds;
mod store;

pub use host::Host;
pub use kinds::{ClauseRef, Lit, Reason, Refusal, Tier, Var};
pub use store::{Assessed, Capacities, Fields, Kind, Line, Store};
