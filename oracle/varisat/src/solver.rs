//! Stand-in: the errors that proof.rs sets.
use std::io;

#[derive(Debug)]
pub enum SolverError {
    ProofIoError { cause: io::Error },
    ProofProcessorError { cause: String },
}
