//! The given Rust: a store loaded into its structures, one function around each call that is
//! measured, and what it left held against what this library left.
use partial_ref::Ref;
use varisat::clause::{assess, db, gc, reduce, ClauseHeader, ClauseRef, Tier};
use varisat::context::Context;
use varisat::prop::{assignment::enqueue_assignment, Reason};
use varisat::unit_simplify;
use varisat::variables::solver_from_user;
use varisat_checker::ProofProcessor;
use varisat_formula::{Lit, Var};
use varisat_internal_proof::{DeleteClauseProof, ProofStep};

use crate::mirrors::{self, clause_ref, offset};
use crate::stores::{Clauses, Store};

/// Turns proof steps into the record's words: kind, length, literals.
pub struct Recorder {
    pub words: Vec<u32>,
}

impl Recorder {
    /// With room for all that is to come.
    pub fn new(k: &Store) -> Recorder {
        Recorder {
            words: Vec::with_capacity(k.rec.len()),
        }
    }

    fn line(&mut self, kind: u32, lits: &[Lit]) {
        self.words.push(kind);
        self.words.push(lits.len() as u32);
        self.words.extend(lits.iter().map(|lit| lit.code() as u32));
    }
}

impl ProofProcessor for Recorder {
    fn process_step(&mut self, step: &ProofStep) {
        match *step {
            ProofStep::AtClause {
                redundant, clause, ..
            } => self.line(if redundant { 3 } else { 2 }, clause),
            ProofStep::DeleteClause { clause, proof } => {
                let kind = match proof {
                    DeleteClauseProof::Redundant => 4,
                    DeleteClauseProof::Satisfied => 5,
                    DeleteClauseProof::Simplified => 6,
                };
                self.line(kind, clause)
            }
            _ => (),
        }
    }
}

pub fn lits(codes: &[u32]) -> Vec<Lit> {
    let lit = |&code: &u32| Lit::from_code(code as usize);
    codes.iter().map(lit).collect()
}

fn refs(list: &[u32], room: usize) -> Vec<ClauseRef> {
    let mut refs = Vec::with_capacity(room);
    refs.extend(list.iter().map(|&at| clause_ref(at)));
    refs
}

fn reason_of(kind: u8, value: u32) -> Reason {
    match kind {
        0 => Reason::None,
        1 => Reason::Unit,
        2 => Reason::Binary([Lit::from_code(value as usize)]),
        3 => Reason::Long(clause_ref(value)),
        _ => Reason::RemovedUnit,
    }
}

/// A context that holds the store and the host's side. Vectors have the room that is lent, so that
/// none grows while it is measured but those that the given functions make. With a recorder the
/// proof is active.
pub fn load<'a>(k: &Store, recorder: Option<&'a mut Recorder>) -> Context<'a> {
    let mut ctx = Context::default();
    let state = &k.state;
    for var in 0..state.vars {
        let var = Var::from_index(var);
        assert_eq!(solver_from_user(Ref::new(&mut ctx), var, false), var);
        // The last loop of `unit_simplify` is not part of the store: so it takes no variable away.
        ctx.variables.var_data_solver_mut(var).assumed = true;
    }
    if let Some(recorder) = recorder {
        ctx.proof.add_processor(recorder);
    }
    ctx.clause_activity = mirrors::activity(mirrors::Activity {
        bump: state.bump,
        inv_decay: state.inv_decay,
    });
    let mut buffer = Vec::with_capacity(k.words.len());
    buffer.extend_from_slice(&k.words[..state.words]);
    ctx.clause_alloc = mirrors::alloc(mirrors::Alloc { buffer });
    ctx.clause_db = mirrors::db(mirrors::Db {
        clauses: refs(k.used_clauses(), k.clauses.len()),
        by_tier: std::array::from_fn(|tier| refs(k.tier(tier), k.local.len())),
        count_by_tier: state.counts,
        garbage_size: state.garbage,
    });
    let row = |code: usize| {
        let mut row = Vec::with_capacity(k.room());
        row.extend(lits(k.row(code)));
        row
    };
    ctx.binary_clauses = mirrors::binary(mirrors::Binary {
        by_lit: (0..2 * state.vars).map(row).collect(),
        count: state.binary,
    });
    for &code in &k.trail[..k.assigned] {
        let lit = Lit::from_code(code as usize);
        enqueue_assignment(Ref::new(&mut ctx), lit, Reason::Unit);
    }
    for var in 0..state.vars {
        let value = [Some(false), Some(true), None][k.values[var] as usize];
        ctx.assignment.set_var(Var::from_index(var), value);
        let node = &mut ctx.impl_graph.nodes[var];
        node.reason = reason_of(k.kinds[var], k.reasons[var]);
        node.level = k.levels[var];
    }
    for _ in 0..k.level {
        ctx.trail.new_decision_level();
    }
    ctx
}

/// With a recorder, which lives on.
pub fn load_recorded(k: &Store) -> (Context<'static>, &'static Recorder) {
    let recorder: *mut Recorder = Box::leak(Box::new(Recorder::new(k)));
    // The recorder is read after the context is gone.
    unsafe { (load(k, Some(&mut *recorder)), &*recorder) }
}

/// The same words, lists, counts, rows, numbers and reasons on both sides.
pub fn same(what: &str, k: &Store, ctx: Context) {
    let words = mirrors::of_alloc(ctx.clause_alloc).buffer;
    assert!(words == k.words[..k.state.words], "{what}: words");
    let db = mirrors::of_db(ctx.clause_db);
    let equal = |list: &[ClauseRef], own: &[u32]| {
        list.len() == own.len() && list.iter().zip(own).all(|(&a, &b)| offset(a) == b)
    };
    assert!(equal(&db.clauses, k.used_clauses()), "{what}: clause list");
    for tier in 0..4 {
        assert!(
            equal(&db.by_tier[tier], k.tier(tier)),
            "{what}: tier {tier}"
        );
    }
    assert_eq!(db.count_by_tier, k.state.counts, "{what}: counts");
    assert_eq!(db.garbage_size, k.state.garbage, "{what}: garbage");
    let rows = mirrors::of_binary(ctx.binary_clauses);
    for (code, row) in rows.by_lit.iter().enumerate() {
        assert!(row[..] == lits(k.row(code)), "{what}: row {code}");
    }
    assert_eq!(rows.count, k.state.binary, "{what}: binary count");
    let activity = mirrors::of_activity(ctx.clause_activity);
    assert_eq!(activity.bump.to_bits(), k.state.bump.to_bits());
    assert_eq!(activity.inv_decay.to_bits(), k.state.inv_decay.to_bits());
    for (var, node) in ctx.impl_graph.nodes.iter().enumerate() {
        let own = reason_of(k.kinds[var], k.reasons[var]);
        assert!(node.reason == own, "{what}: reason of {var}");
    }
}

/// The same record on both sides.
pub fn same_record(what: &str, k: &Store, recorder: &Recorder) {
    let own = &k.rec[..k.state.recorded];
    assert!(recorder.words == own, "{what}: record");
    assert!(!own.is_empty(), "{what}: nothing was struck");
}

// ---- measured

fn tier_of(number: usize) -> Tier {
    [Tier::Irred, Tier::Core, Tier::Mid, Tier::Local][number]
}

#[inline(always)]
fn add(ctx: &mut Context, c: &Clauses, lits: &[Lit], calls: usize) {
    let mut from = 0;
    for i in 0..calls {
        let mut header = ClauseHeader::new();
        header.set_tier(tier_of(c.tiers[i]));
        header.set_glue(c.glues[i]);
        db::add_clause(Ref::new(ctx), header, &lits[from..c.ends[i]]);
        from = c.ends[i];
    }
}

#[inline(never)]
#[export_name = "measured_given_add"]
pub fn add_all(ctx: &mut Context, c: &Clauses, lits: &[Lit]) {
    crate::distinct(101);
    add(ctx, c, lits, c.len())
}

#[inline(never)]
#[export_name = "measured_few_add"]
pub fn add_few(ctx: &mut Context, c: &Clauses, lits: &[Lit], calls: usize) {
    crate::distinct(102);
    add(ctx, c, lits, calls)
}

#[inline(always)]
fn bump(ctx: &mut Context, locals: &[ClauseRef]) {
    for &cref in locals {
        assess::bump_clause(Ref::new(ctx), cref);
    }
}

#[inline(never)]
#[export_name = "measured_given_bump"]
pub fn bump_all(ctx: &mut Context, locals: &[ClauseRef]) {
    crate::distinct(103);
    bump(ctx, locals)
}

#[inline(never)]
#[export_name = "measured_few_bump"]
pub fn bump_few(ctx: &mut Context, locals: &[ClauseRef]) {
    crate::distinct(104);
    bump(ctx, locals)
}

#[inline(never)]
#[export_name = "measured_given_reduce"]
pub fn reduce_locals(ctx: &mut Context) {
    crate::distinct(105);
    reduce::reduce_locals(Ref::new(ctx))
}

#[inline(never)]
#[export_name = "measured_silent_reduce"]
pub fn reduce_locals_silent(ctx: &mut Context) {
    crate::distinct(106);
    reduce::reduce_locals(Ref::new(ctx))
}

#[inline(never)]
#[export_name = "measured_given_collect"]
pub fn collect_garbage(ctx: &mut Context) {
    crate::distinct(107);
    gc::collect_garbage(Ref::new(ctx))
}

#[inline(never)]
#[export_name = "measured_given_simplify"]
pub fn simplify(ctx: &mut Context) {
    crate::distinct(108);
    unit_simplify::unit_simplify(Ref::new(ctx))
}

#[inline(never)]
#[export_name = "measured_silent_simplify"]
pub fn simplify_silent(ctx: &mut Context) {
    crate::distinct(109);
    unit_simplify::unit_simplify(Ref::new(ctx))
}

/// `unit_simplify` on a store without clauses: its last loop, which is not part of the store.
#[inline(never)]
#[export_name = "measured_loop_simplify"]
pub fn simplify_nothing(ctx: &mut Context) {
    crate::distinct(110);
    unit_simplify::unit_simplify(Ref::new(ctx))
}
