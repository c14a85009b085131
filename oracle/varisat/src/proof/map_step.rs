//! Stand-in: a step with its variables and hashes mapped.
use varisat_formula::{Lit, Var};
use varisat_internal_proof::{ClauseHash, ProofStep};

#[derive(Default)]
pub struct MapStep {
    lits: Vec<Lit>,
    hashes: Vec<ClauseHash>,
    units: Vec<(Lit, ClauseHash)>,
}

impl MapStep {
    pub fn map_lits(&mut self, lits: &[Lit], map_var: impl Fn(Var) -> Var) -> &[Lit] {
        self.lits.clear();
        self.lits.extend(lits.iter().map(|lit| lit.map_var(&map_var)));
        &self.lits
    }

    pub fn map<'s>(
        &'s mut self,
        step: &ProofStep,
        map_var: impl Fn(Var) -> Var,
        map_hash: impl Fn(ClauseHash) -> ClauseHash,
    ) -> ProofStep<'s> {
        match *step {
            ProofStep::AddClause { clause } => ProofStep::AddClause {
                clause: self.map_lits(clause, map_var),
            },
            ProofStep::AtClause {
                redundant,
                clause,
                propagation_hashes,
            } => {
                self.hashes.clear();
                self.hashes.extend(propagation_hashes.iter().map(|&hash| map_hash(hash)));
                self.map_lits(clause, map_var);
                ProofStep::AtClause {
                    redundant,
                    clause: &self.lits,
                    propagation_hashes: &self.hashes,
                }
            }
            ProofStep::UnitClauses { units } => {
                self.units.clear();
                self.units.extend(
                    units
                        .iter()
                        .map(|&(lit, hash)| (lit.map_var(&map_var), map_hash(hash))),
                );
                ProofStep::UnitClauses { units: &self.units }
            }
            ProofStep::DeleteClause { clause, proof } => ProofStep::DeleteClause {
                clause: self.map_lits(clause, map_var),
                proof,
            },
            ProofStep::SolverVarName { global, solver } => {
                ProofStep::SolverVarName { global, solver }
            }
            ProofStep::UserVarName { global, user } => ProofStep::UserVarName { global, user },
            ProofStep::DeleteVar { var } => ProofStep::DeleteVar { var },
            ProofStep::ChangeSamplingMode { var, sample } => {
                ProofStep::ChangeSamplingMode { var, sample }
            }
            ProofStep::ChangeHashBits { bits } => ProofStep::ChangeHashBits { bits },
            ProofStep::Model { assignment } => ProofStep::Model {
                assignment: self.map_lits(assignment, map_var),
            },
            ProofStep::Assumptions { assumptions } => ProofStep::Assumptions {
                assumptions: self.map_lits(assumptions, map_var),
            },
            ProofStep::FailedAssumptions {
                failed_core,
                propagation_hashes,
            } => {
                self.hashes.clear();
                self.hashes.extend(propagation_hashes.iter().map(|&hash| map_hash(hash)));
                self.map_lits(failed_core, map_var);
                ProofStep::FailedAssumptions {
                    failed_core: &self.lits,
                    propagation_hashes: &self.hashes,
                }
            }
            ProofStep::End => ProofStep::End,
        }
    }
}
