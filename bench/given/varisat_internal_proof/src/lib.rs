//! Stand-in for the crate `varisat_internal_proof`: the proof steps of oracle's stand-in, with a hash
//! that is a number and allocates nothing.
use varisat_formula::{Lit, Var};

pub type ClauseHash = u64;

/// One multiplication for each literal, joined so that their order does not count.
pub fn clause_hash(lits: &[Lit]) -> ClauseHash {
    lits.iter().fold(0, |hash, &lit| hash ^ lit_hash(lit))
}

pub fn lit_hash(lit: Lit) -> ClauseHash {
    (!(lit.code() as u64)).wrapping_mul(0x9E37_79B9_7F4A_7C15)
}

#[derive(Copy, Clone, Eq, PartialEq, Debug)]
pub enum DeleteClauseProof {
    Redundant,
    Simplified,
    Satisfied,
}

#[derive(Copy, Clone, Debug)]
pub enum ProofStep<'a> {
    SolverVarName {
        global: Var,
        solver: Option<Var>,
    },
    UserVarName {
        global: Var,
        user: Option<Var>,
    },
    DeleteVar {
        var: Var,
    },
    ChangeSamplingMode {
        var: Var,
        sample: bool,
    },
    AddClause {
        clause: &'a [Lit],
    },
    AtClause {
        redundant: bool,
        clause: &'a [Lit],
        propagation_hashes: &'a [ClauseHash],
    },
    UnitClauses {
        units: &'a [(Lit, ClauseHash)],
    },
    DeleteClause {
        clause: &'a [Lit],
        proof: DeleteClauseProof,
    },
    ChangeHashBits {
        bits: u32,
    },
    Model {
        assignment: &'a [Lit],
    },
    Assumptions {
        assumptions: &'a [Lit],
    },
    FailedAssumptions {
        failed_core: &'a [Lit],
        propagation_hashes: &'a [ClauseHash],
    },
    End,
}

pub mod binary_format {
    use std::io::{self, Write};

    use super::ProofStep;

    /// Proof files are left out.
    pub fn write_step<'s>(_target: &mut impl Write, _step: &'s ProofStep<'s>) -> io::Result<()> {
        unimplemented!("proof files are left out")
    }
}
