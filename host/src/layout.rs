//! The declarations of [`crate::ffi`] against a table of sizes and offsets, and against the library itself.
//!
//! The check runs once, before the first store is made. The table says where the C rules put each field on x86-64. The round
//! trip lends the library a state whose numbers all differ: the library names each number by its place, and refused calls
//! give the same state back.

use crate::ffi::*;
use std::mem::{align_of, size_of, MaybeUninit};
use std::ptr::addr_of;
use std::sync::Once;

macro_rules! offset {
    ($struct:ty, $field:ident) => {{
        let place = MaybeUninit::<$struct>::uninit();
        let base = place.as_ptr();
        // SAFETY: only the field's address is taken, inside the place; nothing is read.
        let field = unsafe { addr_of!((*base).$field) };
        field as usize - base as usize
    }};
}

macro_rules! table {
    ($($struct:ident size $size:literal align $align:literal { $($field:ident $at:literal),* $(,)? })*) => {
        /// Each line: what it speaks of, what the table says, what this crate's declaration has.
        fn table() -> Vec<(&'static str, usize, usize)> {
            vec![$(
                (concat!(stringify!($struct), " size"), $size, size_of::<$struct>()),
                (concat!(stringify!($struct), " alignment"), $align, align_of::<$struct>()),
                $((concat!(stringify!($struct), ".", stringify!($field)), $at, offset!($struct, $field)),)*
            )*]
        }
    };
}

table! {
    ClauseActivity size 8 align 4 { bump 0, inv_decay 4 }
    State size 120 align 8 { vars 0, words 8, clauses 16, tiers 24, recorded 56, counts 64, garbage 96, binary 104, activity 112 }
    Reply size 128 align 8 { number 0, answer 4, state 8 }
    UnitsReply size 136 align 8 { number 0, answer 4, state 8, assigned 128 }
    AssessedNumbers size 12 align 4 { number 0, tier 4, glue 8 }
    DecayNumbers size 12 align 4 { number 0, activity 4 }
    Part size 24 align 8 { number 0, start 8, len 16 }
    FieldNumbers size 28 align 4 { activity 0, tier 4, deleted 8, mark 12, glue 16, active 20, len 24 }
    PlaceNumbers size 8 align 4 { number 0, literal 4 }
}

/// A state whose sixteen numbers all differ; its used lengths are above the buffers that are lent with it here.
fn probe() -> State {
    State {
        vars: 101,
        words: 102,
        clauses: 103,
        tiers: [104, 105, 106, 107],
        recorded: 108,
        counts: [109, 110, 111, 112],
        garbage: 113,
        binary: 114,
        activity: ClauseActivity { bump: 1.5, inv_decay: 2.5 },
    }
}

/// The probe's numbers in the order that the library lists them, floats as their bits.
fn probe_numbers() -> Vec<usize> {
    let mut numbers: Vec<usize> = (101..=114).collect();
    numbers.push(1.5f32.to_bits() as usize);
    numbers.push(2.5f32.to_bits() as usize);
    numbers
}

fn expect(what: &str, holds: bool) -> Result<(), String> {
    if holds {
        Ok(())
    } else {
        Err(format!("the static library and its declarations disagree on {what}"))
    }
}

/// Compares the declarations with the table, then with the library. The error names the first disagreement.
pub fn check() -> Result<(), String> {
    for (what, wanted, found) in table() {
        expect(&format!("{what}: {wanted} in the table, {found} here"), wanted == found)?;
    }
    let state = probe();
    for (place, number) in probe_numbers().into_iter().enumerate() {
        // SAFETY: no slice is lent.
        let found = unsafe { mihorempo_state_number(state, place) };
        expect(&format!("number {place} of the state"), found == number)?;
    }
    expect("the number of the state's numbers", unsafe { mihorempo_state_number(state, 16) } == 0)?;

    // A record shorter than its used length: refused with 1, the state as it was.
    let mut record = [7u32; 3];
    // SAFETY: the slice is this function's own.
    let reply = unsafe { mihorempo_empty_record(state, record.as_mut_ptr(), record.len()) };
    expect("a reply", reply == Reply { number: 1, answer: 0, state } && record == [7; 3])?;

    // The same for `prove_units`, with nine slices and a used length of its own.
    let words = [0u32; 1];
    let mut kinds = [0u8; 1];
    let mut reasons = [0u32; 1];
    let mut trail = [0u32; 1];
    // SAFETY: the slices are this function's own, and apart.
    let units = unsafe {
        mihorempo_prove_units(
            state,
            words.as_ptr(), 1, words.as_ptr(), 1,
            record.as_mut_ptr(), 3,
            [2u8; 1].as_ptr(), 1, kinds.as_mut_ptr(), 1,
            reasons.as_mut_ptr(), 1, [0u32; 1].as_ptr(), 1,
            trail.as_mut_ptr(), 1, 115, 116,
        )
    };
    expect("a reply of prove_units", units == UnitsReply { number: 1, answer: 0, state, assigned: 115 })?;

    // Assessing: three levels, so glue 3 - 1, tier Core.
    let levels = [1u32, 2, 3];
    let lits = [0u32, 3, 4];
    // SAFETY: the slices are this function's own.
    let assessed = unsafe { mihorempo_assess_learned_clause(3, levels.as_ptr(), 3, lits.as_ptr(), 3) };
    expect("what assessing gives", assessed == AssessedNumbers { number: 0, tier: 1, glue: 2 })?;

    // Setting the decay: 12 for a decay of 1, else its inverse.
    // SAFETY: no slice is lent.
    let (refused, set) = unsafe { (mihorempo_set_decay(state.activity, 1.0), mihorempo_set_decay(state.activity, 0.5)) };
    expect("a refused decay", refused == DecayNumbers { number: 12, activity: state.activity })?;
    expect("a set decay", set == DecayNumbers { number: 0, activity: ClauseActivity { bump: 1.5, inv_decay: 2.0 } })?;

    // The view of a clause: tier 2, deleted, mark, glue 5, active, length 1; word 1 is 2 + 4 + 8 + 5 * 16 + 1024.
    let clause = [9u32, 2 + 4 + 8 + 5 * 16 + 1024, 1, 77];
    // SAFETY: the slice is this function's own.
    let (fields, first, second) = unsafe {
        (
            mihorempo_view_fields(clause.as_ptr(), 4),
            mihorempo_view_literal(clause.as_ptr(), 4, 0),
            mihorempo_view_literal(clause.as_ptr(), 4, 1),
        )
    };
    expect(
        "a view's fields",
        fields == FieldNumbers { activity: 9, tier: 2, deleted: 1, mark: 1, glue: 5, active: 1, len: 1 },
    )?;
    expect("a view's literal", first == PlaceNumbers { number: 0, literal: 77 })?;
    expect("a view's place", second == PlaceNumbers { number: 4, literal: 0 })?;

    // A part: two variables, four rows of room 2; the row of code 3 holds the literal 0, the row of code 1 the literal 2.
    let pair = State {
        vars: 2,
        binary: 1,
        activity: ClauseActivity { bump: 1.0, inv_decay: 2.0 },
        ..state
    };
    let rows = [0u32, 0, 2, 0, 0, 0, 0, 0];
    let counts = [0u32, 1, 0, 1];
    // SAFETY: the slices are this function's own.
    let part = unsafe { mihorempo_implied(pair, rows.as_ptr(), 8, counts.as_ptr(), 4, 3) };
    expect("a part", part == Part { number: 0, start: 6, len: 1 })
}

/// Runs [`check`] once.
///
/// # Panics
///
/// Where a declaration doesn't fit the library: nothing that this crate would do is then safe.
pub fn ensure() {
    static CHECKED: Once = Once::new();
    CHECKED.call_once(|| {
        if let Err(what) = check() {
            panic!("{what}");
        }
    });
}

#[cfg(test)]
mod tests {
    #[test]
    fn declarations_fit() {
        super::check().unwrap();
    }
}
