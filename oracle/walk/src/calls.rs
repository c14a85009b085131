//! Each call: judged and refused by document 01, carried out by the given functions.
use partial_ref::Ref;
use varisat::clause::{
    assess_learned_clause, bump_clause, collect_garbage, db, decay_clause_activities, reduce,
    ClauseActivity, ClauseHeader, Tier,
};
use varisat::context::Context;
use varisat::unit_simplify::{prove_units, unit_simplify};
use varisat_formula::Lit;

use crate::judge::{clause_given, judge, vars_in_range, Parts, NOTHING};
use crate::lent::{lent_vars, Lent};
use crate::mirrors::{self, clause_ref, offset};
use crate::source::{codes, finish, lits, load, write_back, Recorder};

pub type Answer<T> = Result<T, u32>;

const WORDS: Parts = Parts {
    words: true,
    ..NOTHING
};
const STORE: Parts = Parts {
    tiers: true,
    ..WORDS
};
const ROWS: Parts = Parts {
    rows: true,
    ..NOTHING
};
const STRIKING: Parts = Parts {
    record: true,
    host: true,
    ..STORE
};

fn judged(lent: &Lent, parts: Parts) -> Answer<()> {
    match judge(lent, parts) {
        Some(number) => Err(number),
        None => Ok(()),
    }
}

fn refuse_if(wrong: bool, number: u32) -> Answer<()> {
    if wrong {
        Err(number)
    } else {
        Ok(())
    }
}

/// Runs `call` on what is lent; writes back where it is not refused. The second answer says whether
/// `disable` was called.
fn carry_out<T>(
    lent: &mut Lent,
    parts: Parts,
    call: impl FnOnce(&mut Context) -> Answer<T>,
    added: impl FnOnce(&mut Recorder),
) -> Answer<(T, bool)> {
    let mut recorder = Recorder::default();
    let (answer, finished) = {
        let mut ctx = load(lent, parts, &mut recorder);
        let answer = call(&mut ctx)?;
        (answer, finish(ctx))
    };
    added(&mut recorder);
    write_back(lent, parts, &finished, &recorder)?;
    Ok((answer, finished.disabled))
}

fn nothing_added(_: &mut Recorder) {}

fn tier_of(tier: u32) -> Tier {
    match tier {
        0 => Tier::Irred,
        1 => Tier::Core,
        2 => Tier::Mid,
        _ => Tier::Local,
    }
}

/// "Starting judges for 1 and 12 only." The decay is 0.5.
pub fn start(lent: &mut Lent, vars: usize) -> Answer<()> {
    refuse_if(!vars_in_range(vars) || lent_vars(vars) != vars, 1)?;
    let mut floats = ClauseActivity::default();
    floats.set_decay(0.5);
    let floats = mirrors::of_activity(floats);

    let rooms = lent.rooms.clone();
    lent.words[..rooms.words].fill(0);
    for list in 0..5 {
        lent.lists[list][..rooms.lists[list]].fill(0);
    }
    lent.rows[..rooms.rows].fill(0);
    lent.row_counts[..2 * vars].fill(0);
    lent.record[..rooms.record].fill(0);
    lent.state.vars = vars;
    lent.state.words = 0;
    lent.state.lists = [0; 5];
    lent.state.record = 0;
    lent.state.counts = [0; 4];
    lent.state.garbage = 0;
    lent.state.binary = 0;
    lent.state.bump = floats.bump.to_bits();
    lent.state.inverse = floats.inv_decay.to_bits();
    Ok(())
}

pub fn add_long(lent: &mut Lent, tier: u32, glue: u32, literals: &[u32]) -> Answer<u32> {
    judged(lent, STORE)?;
    refuse_if(
        literals.len() < 3 || !clause_given(literals, lent.state.vars),
        4,
    )?;
    refuse_if(tier > 3 || (tier == 0 && glue > 0), 5)?;
    let mut header = ClauseHeader::new();
    header.set_tier(tier_of(tier));
    header.set_glue(glue as usize);
    let (at, disabled) = carry_out(
        lent,
        STORE,
        |ctx| Ok(db::add_clause(Ref::new(ctx), header, &lits(literals))),
        nothing_added,
    )?;
    assert!(!disabled);
    Ok(offset(at))
}

pub fn add_binary(lent: &mut Lent, literals: &[u32]) -> Answer<()> {
    judged(lent, ROWS)?;
    refuse_if(
        literals.len() != 2 || !clause_given(literals, lent.state.vars),
        4,
    )?;
    let both = lits(literals);
    carry_out(
        lent,
        ROWS,
        |ctx| {
            ctx.binary_clauses.add_binary_clause([both[0], both[1]]);
            Ok(())
        },
        nothing_added,
    )?;
    Ok(())
}

pub fn implied(lent: &Lent, literal: u32) -> Answer<Vec<u32>> {
    judged(lent, ROWS)?;
    refuse_if(literal as usize >= 2 * lent.state.vars, 4)?;
    let mut recorder = Recorder::default();
    let ctx = load(lent, ROWS, &mut recorder);
    Ok(codes(
        ctx.binary_clauses.implied(Lit::from_code(literal as usize)),
    ))
}

pub fn literals(lent: &Lent, at: u32) -> Answer<Vec<u32>> {
    judged(lent, WORDS)?;
    refuse_if(!lent.is_live(at), 6)?;
    let mut recorder = Recorder::default();
    let ctx = load(lent, WORDS, &mut recorder);
    Ok(codes(ctx.clause_alloc.clause(clause_ref(at)).lits()))
}

pub fn set_tier(lent: &mut Lent, at: u32, tier: u32) -> Answer<()> {
    judged(lent, STORE)?;
    refuse_if(tier > 3, 5)?;
    refuse_if(!lent.is_live(at), 6)?;
    let old = lent.tier(at) as u32;
    refuse_if(old != tier && (old == 0 || tier == 0), 7)?;
    carry_out(
        lent,
        STORE,
        |ctx| {
            db::set_clause_tier(Ref::new(ctx), clause_ref(at), tier_of(tier));
            Ok(())
        },
        nothing_added,
    )?;
    Ok(())
}

/// "deletion as `try_delete_clause`, which also records the strike (added)"
pub fn delete(lent: &mut Lent, at: u32) -> Answer<bool> {
    judged(lent, STRIKING)?;
    refuse_if(!lent.is_live(at), 6)?;
    refuse_if(lent.tier(at) == 0, 7)?;
    let literals = lent.literals(at).to_vec();
    let ((), disabled) = carry_out(
        lent,
        STRIKING,
        |ctx| refuse_if(!db::try_delete_clause(Ref::new(ctx), clause_ref(at)), 8),
        |recorder| recorder.line(4, literals),
    )?;
    Ok(disabled)
}

pub fn bump(lent: &mut Lent, at: u32) -> Answer<()> {
    let parts = Parts {
        levels: true,
        ..STORE
    };
    judged(lent, parts)?;
    refuse_if(!lent.is_live(at), 6)?;
    carry_out(
        lent,
        parts,
        |ctx| {
            bump_clause(Ref::new(ctx), clause_ref(at));
            Ok(())
        },
        nothing_added,
    )?;
    Ok(())
}

pub fn decay(lent: &mut Lent) -> Answer<()> {
    judged(lent, STORE)?;
    carry_out(
        lent,
        STORE,
        |ctx| {
            decay_clause_activities(Ref::new(ctx));
            Ok(())
        },
        nothing_added,
    )?;
    Ok(())
}

pub fn reduce_locals(lent: &mut Lent) -> Answer<bool> {
    judged(lent, STRIKING)?;
    let ((), disabled) = carry_out(
        lent,
        STRIKING,
        |ctx| {
            reduce::reduce_locals(Ref::new(ctx));
            Ok(())
        },
        nothing_added,
    )?;
    Ok(disabled)
}

pub fn reduce_mids(lent: &mut Lent) -> Answer<()> {
    judged(lent, STORE)?;
    carry_out(
        lent,
        STORE,
        |ctx| {
            reduce::reduce_mids(Ref::new(ctx));
            Ok(())
        },
        nothing_added,
    )?;
    Ok(())
}

pub fn collect(lent: &mut Lent) -> Answer<bool> {
    let parts = Parts {
        host: true,
        ..STORE
    };
    judged(lent, parts)?;
    let ((), disabled) = carry_out(
        lent,
        parts,
        |ctx| {
            collect_garbage(Ref::new(ctx));
            Ok(())
        },
        nothing_added,
    )?;
    Ok(disabled)
}

pub fn units(lent: &mut Lent) -> Answer<bool> {
    let parts = Parts {
        host: true,
        record: true,
        ..WORDS
    };
    judged(lent, parts)?;
    let (new, _) = carry_out(
        lent,
        parts,
        |ctx| Ok(prove_units(Ref::new(ctx))),
        nothing_added,
    )?;
    Ok(new)
}

pub fn simplify(lent: &mut Lent) -> Answer<bool> {
    let parts = Parts {
        rows: true,
        ..STRIKING
    };
    judged(lent, parts)?;
    refuse_if(lent.level > 0 || lent.trail_used > 0, 9)?;
    refuse_if(some_clause_lacks(lent), 10)?;
    let ((), disabled) = carry_out(
        lent,
        parts,
        |ctx| {
            unit_simplify(Ref::new(ctx));
            Ok(())
        },
        nothing_added,
    )?;
    Ok(disabled)
}

/// "a live long or a binary clause has no true literal and fewer than two unassigned"
pub fn some_clause_lacks(lent: &Lent) -> bool {
    let lacks = |clause: &[u32]| {
        !clause.iter().any(|&code| lent.is_true(code))
            && clause
                .iter()
                .filter(|&&code| lent.is_unassigned(code))
                .count()
                < 2
    };
    let long = lent.live().iter().any(|&at| lacks(lent.literals(at)));
    long || (0..2 * lent.state.vars).any(|code| {
        lent.row(code)
            .iter()
            .any(|&other| lacks(&[code as u32 ^ 1, other]))
    })
}

pub fn empty(lent: &mut Lent) -> Answer<()> {
    judged(
        lent,
        Parts {
            record: true,
            ..NOTHING
        },
    )?;
    lent.record[..lent.state.record].fill(0);
    lent.state.record = 0;
    Ok(())
}

/// The tier and the stored glue of a learned clause. Gets V and the levels.
pub fn assess(lent: &Lent, literals: &[u32]) -> Answer<(u32, usize)> {
    let parts = Parts {
        levels: true,
        ..NOTHING
    };
    let vars = lent.state.vars;
    refuse_if(!vars_in_range(vars) || lent.lent_vars() != vars, 1)?;
    refuse_if(!crate::judge::host_passes(lent, parts), 3)?;
    refuse_if(literals.is_empty() || !clause_given(literals, vars), 4)?;
    let mut recorder = Recorder::default();
    let mut ctx = load(lent, parts, &mut recorder);
    let header = assess_learned_clause(Ref::new(&mut ctx), &lits(literals));
    Ok((header.tier() as u32, header.glue()))
}

/// A clause view over a slice of words.
pub struct View {
    pub header: ClauseHeader,
    pub literals: Vec<u32>,
}

/// "a place has a literal if it is below the length word and word 3 + place is in the slice. Over
/// fewer than three words it shows every field 0 and no literal."
pub fn view(slice: &[u32]) -> View {
    if slice.len() < 3 {
        return View {
            header: ClauseHeader::new(),
            literals: vec![],
        };
    }
    let header = mirrors::header([slice[0], slice[1], slice[2]]);
    let literals = slice[3..].iter().copied().take(header.len()).collect();
    View { header, literals }
}
