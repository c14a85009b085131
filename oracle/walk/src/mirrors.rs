//! The given structures keep their fields private, and the given files stay as they are. So each
//! structure that is filled or read here has a mirror with the same fields in the same order, into
//! which it is turned as it stands. That a mirror shows what it should is tried by `check` at every
//! start of a program, on structures filled by the given functions.
use std::mem::transmute;

use partial_ref::Ref;
use varisat::binary::BinaryClauses;
use varisat::clause::{db, ClauseActivity, ClauseAlloc, ClauseDb, ClauseHeader, ClauseRef, Tier};
use varisat::context::Context;
use varisat_formula::Lit;

#[derive(Default)]
pub struct Alloc {
    pub buffer: Vec<u32>,
}

#[derive(Default)]
pub struct Db {
    pub clauses: Vec<ClauseRef>,
    pub by_tier: [Vec<ClauseRef>; 4],
    pub count_by_tier: [usize; 4],
    pub garbage_size: usize,
}

#[derive(Default)]
pub struct Binary {
    pub by_lit: Vec<Vec<Lit>>,
    pub count: usize,
}

#[derive(Default)]
pub struct Activity {
    pub bump: f32,
    pub inv_decay: f32,
}

pub fn alloc(mirror: Alloc) -> ClauseAlloc {
    unsafe { transmute(mirror) }
}

pub fn of_alloc(alloc: ClauseAlloc) -> Alloc {
    unsafe { transmute(alloc) }
}

pub fn db(mirror: Db) -> ClauseDb {
    unsafe { transmute(mirror) }
}

pub fn of_db(db: ClauseDb) -> Db {
    unsafe { transmute(db) }
}

pub fn binary(mirror: Binary) -> BinaryClauses {
    unsafe { transmute(mirror) }
}

pub fn of_binary(binary: BinaryClauses) -> Binary {
    unsafe { transmute(binary) }
}

pub fn activity(mirror: Activity) -> ClauseActivity {
    unsafe { transmute(mirror) }
}

pub fn of_activity(activity: ClauseActivity) -> Activity {
    unsafe { transmute(activity) }
}

pub fn clause_ref(offset: u32) -> ClauseRef {
    unsafe { transmute(offset) }
}

pub fn offset(cref: ClauseRef) -> u32 {
    unsafe { transmute(cref) }
}

pub fn header(words: [u32; 3]) -> ClauseHeader {
    unsafe { transmute(words) }
}

/// Tier lists, counts, garbage, words, rows and floats that the given functions made, read through
/// the mirrors; then the same way back, read by the given functions.
pub fn check() {
    let lits = |codes: &[usize]| -> Vec<Lit> { codes.iter().map(|&c| Lit::from_code(c)).collect() };
    let mut ctx = Context::default();
    let tiers = [Tier::Irred, Tier::Local, Tier::Mid, Tier::Local, Tier::Core];
    for (place, &tier) in tiers.iter().enumerate() {
        let mut header = ClauseHeader::new();
        header.set_tier(tier);
        header.set_activity(place as f32);
        header.set_glue(place);
        let at = db::add_clause(Ref::new(&mut ctx), header, &lits(&[0, 2, 4, 7]));
        assert_eq!(offset(at), 7 * place as u32);
        assert_eq!(clause_ref(7 * place as u32), at);
    }
    db::set_clause_tier(Ref::new(&mut ctx), clause_ref(21), Tier::Core);
    db::delete_clause(Ref::new(&mut ctx), clause_ref(7));

    let db = of_db(std::mem::take(&mut ctx.clause_db));
    let offsets = |list: &[ClauseRef]| -> Vec<u32> { list.iter().map(|&c| offset(c)).collect() };
    assert_eq!(offsets(&db.clauses), [0, 7, 14, 21, 28]);
    assert_eq!(offsets(&db.by_tier[0]), [0]);
    assert_eq!(offsets(&db.by_tier[1]), [28, 21]);
    assert_eq!(offsets(&db.by_tier[2]), [14]);
    assert_eq!(offsets(&db.by_tier[3]), [7, 21]);
    assert_eq!(db.count_by_tier, [1, 2, 1, 0]);
    assert_eq!(db.garbage_size, 7);

    let buffer = of_alloc(std::mem::take(&mut ctx.clause_alloc)).buffer;
    assert_eq!(buffer.len(), 35);
    assert_eq!(buffer[7..14], [1.0f32.to_bits(), 16 + 4 + 3, 4, 0, 2, 4, 7]);
    assert_eq!(buffer[21..24], [3.0f32.to_bits(), 3 * 16 + 1, 4]);
    let back = alloc(Alloc { buffer });
    assert!(back.header(clause_ref(7)).deleted());
    assert_eq!(back.header(clause_ref(21)).glue(), 3);
    assert_eq!(back.clause(clause_ref(28)).lits(), &lits(&[0, 2, 4, 7])[..]);

    let mut rows = BinaryClauses::default();
    rows.set_var_count(3);
    rows.add_binary_clause([Lit::from_code(0), Lit::from_code(5)]);
    let rows = of_binary(rows);
    assert_eq!(rows.by_lit.len(), 6);
    assert_eq!(rows.by_lit[1], lits(&[5]));
    assert_eq!(rows.by_lit[4], lits(&[0]));
    assert_eq!(rows.count, 1);
    let rows = binary(rows);
    assert_eq!(
        (rows.implied(Lit::from_code(4)), rows.count()),
        (&lits(&[0])[..], 1)
    );

    let mut floats = ClauseActivity::default();
    floats.set_decay(0.25);
    let floats = of_activity(floats);
    assert_eq!((floats.bump, floats.inv_decay), (1.0, 4.0));

    let header = header([5.0f32.to_bits(), 1024 + 16 * 9 + 8 + 2, 6]);
    assert_eq!(
        (header.activity(), header.len(), header.glue()),
        (5.0, 6, 9)
    );
    assert!(header.active() && header.mark() && !header.deleted() && header.tier() == Tier::Mid);
}
