//! Stand-in: the two fields that proof.rs reads.
use crate::solver::SolverError;

#[derive(Default)]
pub struct SolverState {
    pub solver_invoked: bool,
    pub solver_error: Option<SolverError>,
}
