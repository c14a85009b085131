//! What README.md says of variables' names: after the whole of the given `unit_simplify`, a step
//! that names an assigned variable ends the program.
use oracle_walk::mirrors;
use oracle_walk::source::{lits, Recorder};
use partial_ref::Ref;
use varisat::clause::{db, ClauseHeader, Tier};
use varisat::context::Context;
use varisat::proof;
use varisat::prop::{assignment::enqueue_assignment, Reason};
use varisat::unit_simplify::{prove_units, unit_simplify};
use varisat::variables::solver_from_user;
use varisat_formula::{Lit, Var};
use varisat_internal_proof::{DeleteClauseProof, ProofStep};

#[test]
#[should_panic(expected = "no existing global var for solver var")]
fn a_removed_variable_has_no_name() {
    mirrors::check();
    let mut recorder = Recorder::default();
    let mut ctx = Context::default();
    ctx.proof.add_processor(&mut recorder);
    for var in 0..4 {
        solver_from_user(Ref::new(&mut ctx), Var::from_index(var), false);
    }
    enqueue_assignment(Ref::new(&mut ctx), Lit::from_code(0), Reason::Unit);
    assert!(prove_units(Ref::new(&mut ctx)));
    unit_simplify(Ref::new(&mut ctx));
    let mut header = ClauseHeader::new();
    header.set_tier(Tier::Local);
    let clause = lits(&[0, 2, 4]);
    let at = db::add_clause(Ref::new(&mut ctx), header, &clause);
    assert!(db::try_delete_clause(Ref::new(&mut ctx), at));
    proof::add_step(
        Ref::new(&mut ctx),
        true,
        &ProofStep::DeleteClause {
            clause: &clause,
            proof: DeleteClauseProof::Redundant,
        },
    );
}
