//! Document 01's example, every refusal, and that a refused call changes nothing.

use mihorempo::{ffi, Capacities, ClauseRef, Host, Kind, Lit, Reason, Refusal, Store, Tier};

fn lits(codes: &[u32]) -> Vec<Lit> {
    codes.iter().map(|&code| Lit(code)).collect()
}

fn store(vars: usize) -> Store {
    Store::new(vars, 0.5, Capacities::default()).unwrap()
}

// ---- the example

#[test]
fn the_example_of_document_01() {
    let mut store = store(4);
    let mut host = Host::new(4);
    assert_eq!(store.add_clause(Tier::Irred, 0, &lits(&[0, 2, 4])), Ok(ClauseRef(0)));
    assert!(host.assign(Lit(1), Reason::Unit));
    assert_eq!(store.prove_units(&mut host), Ok(true));
    assert!(host.trail().is_empty());
    assert_eq!(host.reason(Lit(1).var()), Reason::Removed);
    assert_eq!(store.unit_simplify(&host), Ok(()));

    // used=6 garbage=6 live=0 binary=1 count0=0 count1=0 count2=0 count3=0 record=9
    let state = *store.state();
    assert_eq!((state.words, state.garbage, state.binary, state.counts, state.recorded), (6, 6, 1, [0; 4], 9));
    assert_eq!(store.clause_refs().count(), 0);
    assert_eq!(store.binary_clauses(), [[Lit(2), Lit(4)]]);
    let lines: Vec<(Kind, Vec<Lit>)> = store.record().map(|line| (line.kind, line.lits.to_vec())).collect();
    assert_eq!(lines, [(Kind::EnteredOriginal, lits(&[2, 4])), (Kind::StruckSimplified, lits(&[0, 2, 4]))]);
}

// ---- what each call does when it is not refused

#[test]
fn clauses_are_held_and_shown() {
    let mut store = store(5);
    let host = Host::new(5);
    let first = store.add_clause(Tier::Irred, 0, &lits(&[0, 2, 4])).unwrap();
    let second = store.add_clause(Tier::Mid, 3, &lits(&[1, 5, 9, 6])).unwrap();
    assert_eq!((first, second), (ClauseRef(0), ClauseRef(6)));
    assert_eq!(store.clause_lits(second).unwrap(), lits(&[1, 5, 9, 6]));
    let fields = store.view_fields(second);
    assert_eq!((fields.tier, fields.glue, fields.len, fields.deleted, fields.active), (Tier::Mid, 3, 4, false, false));
    assert_eq!(store.view_literal(second, 3), Ok(Lit(6)));
    assert_eq!(store.view_literal(second, 4), Err(Refusal::Clause));

    store.set_clause_tier(second, Tier::Local).unwrap();
    assert_eq!((store.count(Tier::Mid), store.count(Tier::Local)), (0, 1));
    store.bump_clause(&host, second).unwrap();
    let fields = store.view_fields(second);
    assert_eq!((fields.activity, fields.active, fields.glue, fields.tier), (1.0, true, 1, Tier::Core));
    store.decay().unwrap();
    assert_eq!(store.state().activity.bump, 2.0);
    store.set_decay(0.25).unwrap();
    assert_eq!(store.state().activity.inv_decay, 4.0);

    store.delete_clause(&host, second).unwrap();
    assert_eq!(store.clause_refs().collect::<Vec<_>>(), [first]);
    assert_eq!(store.clause_lits(second), Err(Refusal::Reference));
    let line = store.record().next().unwrap();
    assert_eq!((line.kind, line.lits), (Kind::StruckRedundant, &lits(&[1, 5, 9, 6])[..]));
    store.empty_record().unwrap();
    assert_eq!(store.record().count(), 0);
}

#[test]
fn assessing_goes_by_levels() {
    let store = store(9);
    let mut host = Host::new(9);
    // levels 1 to 8 for variables 0 to 7; variable 8 stays at level 0
    for var in 0..8 {
        host.new_level();
        host.assign(Lit(2 * var), Reason::Unit);
    }
    let assessed = |codes: &[u32]| store.assess_learned_clause(&host, &lits(codes)).map(|a| (a.tier, a.glue));
    assert_eq!(assessed(&[0]), Ok((Tier::Core, 0)));
    assert_eq!(assessed(&[0, 2, 4]), Ok((Tier::Core, 2)));
    assert_eq!(assessed(&[0, 2, 4, 6]), Ok((Tier::Mid, 3)));
    assert_eq!(assessed(&[0, 2, 4, 6, 8, 10, 12]), Ok((Tier::Mid, 6)));
    assert_eq!(assessed(&[0, 2, 4, 6, 8, 10, 12, 14]), Ok((Tier::Local, 7)));
    assert_eq!(assessed(&[]), Err(Refusal::Clause));
    assert_eq!(assessed(&[0, 1]), Err(Refusal::Clause));
}

#[test]
fn half_of_the_locals_go_and_the_words_close_up() {
    let mut store = store(6);
    let mut host = Host::new(6);
    let crefs: Vec<ClauseRef> = [[0, 2, 4], [0, 2, 6], [0, 2, 8], [0, 2, 10], [0, 4, 6]]
        .iter()
        .map(|codes| store.add_clause(Tier::Local, 7, &lits(codes)).unwrap())
        .collect();
    // the least active is asserting, so the next two go
    for (bumps, &cref) in crefs.iter().enumerate() {
        for _ in 0..bumps {
            store.bump_clause(&host, cref).unwrap();
        }
        // all levels are 0, so the first bump made it Core
        store.set_clause_tier(cref, Tier::Local).unwrap();
    }
    host.new_level();
    for code in [3, 5] {
        assert!(host.assign(Lit(code), Reason::Unit));
    }
    assert!(host.assign(Lit(0), Reason::Long(crefs[0])));
    assert_eq!(store.reduce_locals(&host), Ok(true));
    let left: Vec<ClauseRef> = store.clause_refs().collect();
    assert_eq!(left, [crefs[0], crefs[3], crefs[4]]);
    assert_eq!(store.collect_garbage(&mut host), Ok(false));
    store.delete_clause(&host, crefs[3]).unwrap();
    assert_eq!(store.collect_garbage(&mut host), Ok(true));
    assert_eq!(store.state().words, 12);
    assert_eq!(host.reason(Lit(0).var()), Reason::Long(ClauseRef(0)));
    assert_eq!(store.clause_lits(ClauseRef(6)).unwrap(), lits(&[0, 4, 6]));
    store.reduce_mids().unwrap();
}

#[test]
fn a_new_start_takes_another_number_of_variables() {
    let mut store = store(4);
    store.add_binary_clause(&lits(&[0, 2])).unwrap();
    let before = store.clone();
    assert_eq!(store.start(0, 0.5), Err(Refusal::Size));
    assert_eq!(store.start(1 << 20, 0.5), Err(Refusal::Size));
    assert_eq!(store.start(4, f32::NAN), Err(Refusal::Decay));
    assert_eq!(store, before);
    store.start(7, 0.5).unwrap();
    assert_eq!((store.vars(), store.binary_clauses().len()), (7, 0));
    store.add_binary_clause(&lits(&[13, 2])).unwrap();
    assert_eq!(store.binary_clauses(), [[Lit(2), Lit(13)]]);
}

// ---- every number of the table, each with nothing changed

/// Runs a call that must be refused with `number`, and compares everything before and after.
fn refused<T: std::fmt::Debug>(
    number: u32,
    store: &mut Store,
    host: &mut Host,
    call: impl FnOnce(&mut Store, &mut Host) -> Result<T, Refusal>,
) {
    let (store_before, host_before) = (store.clone(), host.clone());
    let heard = call(store, host).unwrap_err();
    assert_eq!(heard, Refusal::from_number(number).unwrap());
    assert_eq!(heard.number(), number);
    assert_eq!((&*store, &*host), (&store_before, &host_before));
}

#[test]
fn each_refusal_is_reached_and_changes_nothing() {
    let small = Capacities { words: 14, clauses: 3, tiers: [2; 4], row: 1, record: 12 };
    let mut s = Store::new(4, 0.5, small).unwrap();
    let mut h = Host::new(4);
    let original = s.add_clause(Tier::Irred, 0, &lits(&[0, 2, 4])).unwrap();
    let learned = s.add_clause(Tier::Core, 1, &lits(&[1, 3, 5])).unwrap();
    s.add_binary_clause(&lits(&[0, 2])).unwrap();

    // 1: a host with another number of variables; a start with too many
    refused(1, &mut s, &mut Host::new(3), |s, h| s.unit_simplify(h));
    refused(1, &mut s, &mut h, |s, _| s.start(65_537, 0.5));
    // 3: a reason that is no clause
    let mut wrong = h.clone();
    wrong.assign(Lit(0), Reason::Long(ClauseRef(999)));
    refused(3, &mut s, &mut wrong, |s, h| s.prove_units(h));
    refused(3, &mut s, &mut wrong, |s, h| s.collect_garbage(h));
    refused(3, &mut s, &mut wrong, |s, h| s.reduce_locals(h));
    // 4
    refused(4, &mut s, &mut h, |s, _| s.add_clause(Tier::Irred, 0, &lits(&[0, 2])));
    refused(4, &mut s, &mut h, |s, _| s.add_clause(Tier::Irred, 0, &lits(&[0, 2, 8])));
    refused(4, &mut s, &mut h, |s, _| s.add_clause(Tier::Irred, 0, &lits(&[0, 2, 3])));
    refused(4, &mut s, &mut h, |s, _| s.add_binary_clause(&lits(&[0, 2, 4])));
    refused(4, &mut s, &mut h, |s, _| s.implied(Lit(8)).map(|part| part.len()));
    refused(4, &mut s, &mut h, |s, _| s.view_literal(ClauseRef(0), 3));
    refused(4, &mut s, &mut h, |s, h| s.assess_learned_clause(h, &lits(&[0, 9])));
    // 5
    refused(5, &mut s, &mut h, |s, _| s.add_clause(Tier::Irred, 1, &lits(&[0, 2, 6])));
    // 6
    for gone in [1, 3, 6 + 6, 1 << 30] {
        refused(6, &mut s, &mut h, |s, _| s.clause_lits(ClauseRef(gone)).map(|part| part.len()));
        refused(6, &mut s, &mut h, |s, h| s.delete_clause(h, ClauseRef(gone)));
        refused(6, &mut s, &mut h, |s, h| s.bump_clause(h, ClauseRef(gone)));
        refused(6, &mut s, &mut h, |s, _| s.set_clause_tier(ClauseRef(gone), Tier::Mid));
    }
    // 7
    refused(7, &mut s, &mut h, |s, h| s.delete_clause(h, original));
    refused(7, &mut s, &mut h, |s, _| s.set_clause_tier(original, Tier::Core));
    refused(7, &mut s, &mut h, |s, _| s.set_clause_tier(learned, Tier::Irred));
    // 8: 3 and 5 false, 1 true for that
    let mut asserting = h.clone();
    asserting.new_level();
    assert!(asserting.assign(Lit(2), Reason::Unit) && asserting.assign(Lit(4), Reason::Unit));
    assert!(asserting.assign(Lit(1), Reason::Long(learned)));
    refused(8, &mut s, &mut asserting, |s, h| s.delete_clause(h, learned));
    // 9: above level 0; with a trail
    refused(9, &mut s, &mut asserting, |s, h| s.unit_simplify(h));
    let mut trailed = h.clone();
    trailed.assign(Lit(6), Reason::Unit);
    refused(9, &mut s, &mut trailed, |s, h| s.unit_simplify(h));
    // 10: {0, 2} with 0 false is open
    let mut open = h.clone();
    open.assign(Lit(1), Reason::Unit);
    let mut other = s.clone();
    other.prove_units(&mut open).unwrap();
    refused(10, &mut other, &mut open, |s, h| s.unit_simplify(h));
    // 11: the words, a row, a tier's list, the record
    refused(11, &mut s, &mut h, |s, _| s.add_clause(Tier::Irred, 0, &lits(&[0, 2, 6])));
    refused(11, &mut s, &mut h, |s, _| s.add_binary_clause(&lits(&[0, 4])));
    let short = Capacities { record: 4, ..Capacities::default() };
    let mut t = Store::new(4, 0.5, short).unwrap();
    let cref = t.add_clause(Tier::Local, 9, &lits(&[0, 2, 4])).unwrap();
    refused(11, &mut t, &mut h, |s, h| s.delete_clause(h, cref));
    // 12
    for decay in [1.0, 0.0625, 0.0, -0.5, 2.0, f32::INFINITY, f32::NAN] {
        refused(12, &mut s, &mut h, |s, _| s.set_decay(decay));
        refused(12, &mut s, &mut h, |s, _| s.start(4, decay));
    }
}

/// 2 can't be reached through `Store`, which holds passing stores only; here the library is lent a broken one.
#[test]
fn a_broken_store_is_refused_with_2() {
    let mut state = *store(4).state();
    state.garbage = 1; // no words are used
    let mut words = [5u32; 6];
    let mut lists = [[7u32; 2]; 5];
    let (clauses, tiers) = lists.split_at_mut(1);
    let (irred, rest) = tiers.split_at_mut(1);
    let (core, rest) = rest.split_at_mut(1);
    let (mid, local) = rest.split_at_mut(1);
    // SAFETY: the slices are this function's own, and apart.
    let reply = unsafe {
        ffi::mihorempo_reduce_mids(
            state,
            words.as_mut_ptr(), 6, clauses[0].as_mut_ptr(), 2,
            irred[0].as_mut_ptr(), 2, core[0].as_mut_ptr(), 2,
            mid[0].as_mut_ptr(), 2, local[0].as_mut_ptr(), 2,
        )
    };
    assert_eq!(reply, ffi::Reply { number: 2, answer: 0, state });
    assert_eq!((words, lists), ([5; 6], [[7; 2]; 5]));
    assert_eq!(Refusal::from_number(2), Some(Refusal::Store));
}

#[test]
fn numbers_and_refusals_are_one_to_one() {
    for number in 1..=12 {
        assert_eq!(Refusal::from_number(number).unwrap().number(), number);
    }
    assert_eq!((Refusal::from_number(0), Refusal::from_number(13)), (None, None));
}
