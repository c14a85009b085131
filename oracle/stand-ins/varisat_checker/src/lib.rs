//! Stand-in for the crate `varisat_checker`: nothing is checked, each step goes to the processors.
use std::fmt;

use varisat_formula::Lit;
use varisat_internal_proof::ProofStep;

pub trait ProofProcessor {
    fn process_step(&mut self, step: &ProofStep);
}

#[derive(Debug)]
pub enum CheckerError {
    CheckFailed { step: u64, debug_step: String },
    ProofProcessorError { cause: String },
}

impl fmt::Display for CheckerError {
    fn fmt(&self, to: &mut fmt::Formatter) -> fmt::Result {
        write!(to, "{:?}", self)
    }
}

#[derive(Default)]
pub struct Checker<'a> {
    processors: Vec<&'a mut dyn ProofProcessor>,
}

impl<'a> Checker<'a> {
    pub fn new() -> Checker<'a> {
        Checker::default()
    }

    pub fn add_processor(&mut self, processor: &'a mut dyn ProofProcessor) {
        self.processors.push(processor)
    }

    pub fn add_clause(&mut self, clause: &[Lit]) -> Result<(), CheckerError> {
        internal::SelfChecker::self_check_step(self, ProofStep::AddClause { clause })
    }
}

pub mod internal {
    use super::{Checker, CheckerError, ProofStep};

    pub trait SelfChecker {
        fn self_check_step(&mut self, step: ProofStep) -> Result<(), CheckerError>;
        fn self_check_delayed_steps(&mut self) -> Result<(), CheckerError>;
    }

    impl<'a> SelfChecker for Checker<'a> {
        fn self_check_step(&mut self, step: ProofStep) -> Result<(), CheckerError> {
            for processor in self.processors.iter_mut() {
                processor.process_step(&step);
            }
            Ok(())
        }

        fn self_check_delayed_steps(&mut self) -> Result<(), CheckerError> {
            Ok(())
        }
    }
}
