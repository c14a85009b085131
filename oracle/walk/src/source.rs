//! Loads what is lent into the given structures, and writes them back by document 01's layout.
use partial_ref::Ref;
use varisat::clause::ClauseRef;
use varisat::context::Context;
use varisat::prop::{assignment::enqueue_assignment, Reason};
use varisat::variables::solver_from_user;
use varisat_checker::ProofProcessor;
use varisat_formula::{Lit, Var};
use varisat_internal_proof::{forget_hashed, hashed, DeleteClauseProof, ProofStep};

use crate::judge::Parts;
use crate::lent::Lent;
use crate::mirrors::{self, clause_ref, offset};

/// Turns proof steps into the record's words: kind, length, literals.
#[derive(Default)]
pub struct Recorder {
    pub words: Vec<u32>,
}

impl Recorder {
    pub fn line(&mut self, kind: u32, literals: impl IntoIterator<Item = u32>) {
        let literals: Vec<u32> = literals.into_iter().collect();
        self.words.push(kind);
        self.words.push(literals.len() as u32);
        self.words.extend(literals);
    }
}

pub fn codes(literals: &[Lit]) -> Vec<u32> {
    literals.iter().map(|lit| lit.code() as u32).collect()
}

pub fn lits(codes: &[u32]) -> Vec<Lit> {
    codes
        .iter()
        .map(|&code| Lit::from_code(code as usize))
        .collect()
}

impl ProofProcessor for Recorder {
    fn process_step(&mut self, step: &ProofStep) {
        match *step {
            ProofStep::UnitClauses { units } => {
                for &(unit, hash) in units {
                    let (rest, of) = hashed(hash);
                    assert_eq!(of, unit);
                    let rest = codes(&rest);
                    self.line(1, std::iter::once(unit.code() as u32).chain(rest));
                }
            }
            ProofStep::AtClause {
                redundant, clause, ..
            } => self.line(if redundant { 3 } else { 2 }, codes(clause)),
            ProofStep::DeleteClause { clause, proof } => {
                let kind = match proof {
                    DeleteClauseProof::Redundant => 4,
                    DeleteClauseProof::Satisfied => 5,
                    DeleteClauseProof::Simplified => 6,
                };
                self.line(kind, codes(clause))
            }
            // Names of variables are no part of the record.
            ProofStep::SolverVarName { .. }
            | ProofStep::UserVarName { .. }
            | ProofStep::DeleteVar { .. } => (),
            _ => panic!("no call of the store makes this step: {:?}", step),
        }
    }
}

fn reason_of(kind: u8, value: u32) -> Reason {
    match kind {
        0 => Reason::None,
        1 => Reason::Unit,
        2 => Reason::Binary([Lit::from_code(value as usize)]),
        3 => Reason::Long(clause_ref(value)),
        4 => Reason::RemovedUnit,
        _ => panic!("a kind that does not pass"),
    }
}

fn kind_and_value(reason: Reason) -> (u8, u32) {
    match reason {
        Reason::None => (0, 0),
        Reason::Unit => (1, 0),
        Reason::Binary([lit]) => (2, lit.code() as u32),
        Reason::Long(cref) => (3, offset(cref)),
        Reason::RemovedUnit => (4, 0),
    }
}

fn refs(list: &[u32]) -> Vec<ClauseRef> {
    list.iter().map(|&at| clause_ref(at)).collect()
}

/// A context that holds what the call is lent. What is not lent stays empty.
pub fn load<'a>(lent: &Lent, parts: Parts, recorder: &'a mut Recorder) -> Context<'a> {
    let mut ctx = Context::default();
    let state = &lent.state;
    forget_hashed();
    ctx.proof.add_processor(recorder);
    ctx.clause_activity = mirrors::activity(mirrors::Activity {
        bump: f32::from_bits(state.bump),
        inv_decay: f32::from_bits(state.inverse),
    });
    // The variables, solver and global names alike, by the given functions.
    if parts.host || parts.levels {
        for var in 0..state.vars {
            let var = Var::from_index(var);
            let solver = solver_from_user(Ref::new(&mut ctx), var, false);
            assert_eq!(solver, var);
        }
    }
    if parts.words {
        ctx.clause_alloc = mirrors::alloc(mirrors::Alloc {
            buffer: lent.used_words().to_vec(),
        });
        let tiers = |tier: usize| {
            if parts.tiers {
                lent.list(1 + tier)
            } else {
                &[]
            }
        };
        ctx.clause_db = mirrors::db(mirrors::Db {
            clauses: refs(lent.list(0)),
            by_tier: std::array::from_fn(|tier| refs(tiers(tier))),
            count_by_tier: state.counts,
            garbage_size: state.garbage,
        });
    }
    if parts.rows {
        ctx.binary_clauses = mirrors::binary(mirrors::Binary {
            by_lit: (0..2 * state.vars)
                .map(|code| lits(lent.row(code)))
                .collect(),
            count: state.binary,
        });
    }
    if parts.levels {
        for var in 0..state.vars {
            ctx.impl_graph.nodes[var].level = lent.levels[var];
        }
    }
    if parts.host {
        for &code in lent.used_trail() {
            let var = code as usize / 2;
            enqueue_assignment(
                Ref::new(&mut ctx),
                Lit::from_code(code as usize),
                reason_of(lent.kinds[var], lent.reasons[var]),
            );
        }
        for var in 0..state.vars {
            let value = match lent.values[var] {
                0 => Some(false),
                1 => Some(true),
                _ => None,
            };
            ctx.assignment.set_var(Var::from_index(var), value);
            let node = &mut ctx.impl_graph.nodes[var];
            node.reason = reason_of(lent.kinds[var], lent.reasons[var]);
            node.level = lent.levels[var];
        }
        for _ in 0..lent.level {
            ctx.trail.new_decision_level();
        }
    }
    ctx
}

/// A buffer's used part becomes `new`; what is given up at its end becomes 0.
fn put(buffer: &mut [u32], used: usize, new: &[u32]) {
    buffer[..new.len()].copy_from_slice(new);
    if new.len() < used {
        buffer[new.len()..used].fill(0);
    }
}

/// The finished context, taken apart.
pub struct Finished {
    pub disabled: bool,
    words: Vec<u32>,
    lists: [Vec<u32>; 5],
    counts: [usize; 4],
    garbage: usize,
    rows: Vec<Vec<u32>>,
    binary: usize,
    activity: mirrors::Activity,
    reasons: Vec<Reason>,
    levels: Vec<u32>,
    values: Vec<Option<bool>>,
    trail: Vec<u32>,
    level: usize,
}

pub fn finish(ctx: Context) -> Finished {
    let db = mirrors::of_db(ctx.clause_db);
    let offsets = |list: &[ClauseRef]| -> Vec<u32> { list.iter().map(|&c| offset(c)).collect() };
    let rows = mirrors::of_binary(ctx.binary_clauses);
    Finished {
        disabled: ctx.watchlists.disabled,
        words: mirrors::of_alloc(ctx.clause_alloc).buffer,
        lists: std::array::from_fn(|list| {
            offsets(if list == 0 {
                &db.clauses
            } else {
                &db.by_tier[list - 1]
            })
        }),
        counts: db.count_by_tier,
        garbage: db.garbage_size,
        rows: rows.by_lit.iter().map(|row| codes(row)).collect(),
        binary: rows.count,
        activity: mirrors::of_activity(ctx.clause_activity),
        reasons: ctx.impl_graph.nodes.iter().map(|n| n.reason).collect(),
        levels: ctx.impl_graph.nodes.iter().map(|n| n.level).collect(),
        values: ctx.assignment.assignment().to_vec(),
        trail: codes(ctx.trail.trail()),
        level: ctx.trail.current_level(),
    }
}

/// Refusal 11 where the finished call lacks room; otherwise everything is written back.
pub fn write_back(
    lent: &mut Lent,
    parts: Parts,
    finished: &Finished,
    recorder: &Recorder,
) -> Result<(), u32> {
    let rooms = &lent.rooms;
    let lists = if parts.tiers { 5 } else { 1 };
    let row_room = lent.row_room();
    let lacks_words = parts.words
        && (finished.words.len() > rooms.words
            || (0..lists).any(|list| finished.lists[list].len() > rooms.lists[list]));
    let lacks_rows = parts.rows && finished.rows.iter().any(|row| row.len() > row_room);
    let record_end = lent.state.record + recorder.words.len();
    let lacks_record = parts.record && record_end > rooms.record;
    assert!(parts.record || recorder.words.is_empty());
    if lacks_words || lacks_rows || lacks_record {
        return Err(11);
    }

    if parts.words {
        put(&mut lent.words, lent.state.words, &finished.words);
        lent.state.words = finished.words.len();
        for list in 0..lists {
            put(
                &mut lent.lists[list],
                lent.state.lists[list],
                &finished.lists[list],
            );
            lent.state.lists[list] = finished.lists[list].len();
        }
        lent.state.counts = finished.counts;
        lent.state.garbage = finished.garbage;
    }
    lent.state.bump = finished.activity.bump.to_bits();
    lent.state.inverse = finished.activity.inv_decay.to_bits();
    if parts.rows {
        for (code, row) in finished.rows.iter().enumerate() {
            let from = code * row_room;
            put(
                &mut lent.rows[from..from + row_room],
                lent.row_counts[code] as usize,
                row,
            );
            lent.row_counts[code] = row.len() as u32;
        }
        lent.state.binary = finished.binary;
    }
    if parts.record {
        lent.record[lent.state.record..record_end].copy_from_slice(&recorder.words);
        lent.state.record = record_end;
    }
    if parts.host {
        for var in 0..lent.state.vars {
            let before = reason_of(lent.kinds[var], lent.reasons[var]);
            if finished.reasons[var] != before {
                (lent.kinds[var], lent.reasons[var]) = kind_and_value(finished.reasons[var]);
            }
            assert_eq!(lent.levels[var], finished.levels[var]);
            let value = [Some(false), Some(true), None][lent.values[var] as usize];
            assert_eq!(value, finished.values[var]);
        }
        put(&mut lent.trail, lent.trail_used, &finished.trail);
        lent.trail_used = finished.trail.len();
        assert_eq!(lent.level as usize, finished.level);
    }
    Ok(())
}
