//! Stand-in for the crate `varisat_internal_proof`: the proof steps that the given files make.
//!
//! A hash here tells what was hashed: `clause_hash` keeps the literals it was given and returns
//! their number in the upper half, `lit_hash` returns the code in the lower half. So a unit step,
//! which holds only a hash of the reason's clause, still tells that clause.
use std::cell::RefCell;

use varisat_formula::{Lit, Var};

pub type ClauseHash = u64;

thread_local! {
    static HASHED: RefCell<Vec<Vec<Lit>>> = const { RefCell::new(Vec::new()) };
}

pub fn clause_hash(lits: &[Lit]) -> ClauseHash {
    HASHED.with(|hashed| {
        let mut hashed = hashed.borrow_mut();
        hashed.push(lits.to_vec());
        (hashed.len() as ClauseHash) << 32
    })
}

pub fn lit_hash(lit: Lit) -> ClauseHash {
    lit.code() as ClauseHash
}

/// The literals and the single literal that a unit step's hash was made of.
pub fn hashed(hash: ClauseHash) -> (Vec<Lit>, Lit) {
    HASHED.with(|hashed| {
        (
            hashed.borrow()[(hash >> 32) as usize - 1].clone(),
            Lit::from_code((hash & 0xFFFF_FFFF) as usize),
        )
    })
}

/// Forgets all that was hashed.
pub fn forget_hashed() {
    HASHED.with(|hashed| hashed.borrow_mut().clear())
}

#[derive(Copy, Clone, Eq, PartialEq, Debug)]
pub enum DeleteClauseProof {
    Redundant,
    Simplified,
    Satisfied,
}

#[derive(Copy, Clone, Debug)]
pub enum ProofStep<'a> {
    SolverVarName {
        global: Var,
        solver: Option<Var>,
    },
    UserVarName {
        global: Var,
        user: Option<Var>,
    },
    DeleteVar {
        var: Var,
    },
    ChangeSamplingMode {
        var: Var,
        sample: bool,
    },
    AddClause {
        clause: &'a [Lit],
    },
    AtClause {
        redundant: bool,
        clause: &'a [Lit],
        propagation_hashes: &'a [ClauseHash],
    },
    UnitClauses {
        units: &'a [(Lit, ClauseHash)],
    },
    DeleteClause {
        clause: &'a [Lit],
        proof: DeleteClauseProof,
    },
    ChangeHashBits {
        bits: u32,
    },
    Model {
        assignment: &'a [Lit],
    },
    Assumptions {
        assumptions: &'a [Lit],
    },
    FailedAssumptions {
        failed_core: &'a [Lit],
        propagation_hashes: &'a [ClauseHash],
    },
    End,
}

pub mod binary_format {
    use std::io::{self, Write};

    use super::ProofStep;

    /// Proof files are left out.
    pub fn write_step<'s>(_target: &mut impl Write, _step: &'s ProofStep<'s>) -> io::Result<()> {
        unimplemented!("proof files are left out")
    }
}
