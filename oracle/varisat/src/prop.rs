//! Stand-in for the module around the given prop/assignment.rs.
pub mod assignment;
pub mod graph;
pub mod watch;

pub use assignment::{backtrack, enqueue_assignment, full_restart, restart, Assignment, Trail};
pub use graph::{ImplGraph, ImplNode, Reason};
pub use watch::Watchlists;
