//! The declarations of the static library's functions and structs.
//!
//! Nothing checks a declaration against the library's source; [`crate::layout`] checks sizes, offsets and the order of
//! fields at start-up. A slice passes as a pointer and a length.
//!
//! # Safety
//!
//! Each function reads and writes only the slices it is lent. A caller sees to it that each pointer is aligned, not null
//! and good for its length (also of an empty slice), and that no slice that is written overlaps another.

/// Bump and inverse decay.
#[repr(C)]
#[derive(Clone, Copy, Debug, PartialEq)]
pub struct ClauseActivity {
    /// What a bump adds to an activity.
    pub bump: f32,
    /// What a decay multiplies `bump` by.
    pub inv_decay: f32,
}

/// The store's state, by value.
#[repr(C)]
#[derive(Clone, Copy, Debug, PartialEq)]
pub struct State {
    /// The number of variables.
    pub vars: usize,
    /// The used length of the words.
    pub words: usize,
    /// The used length of the clause list.
    pub clauses: usize,
    /// The used lengths of the four tier lists.
    pub tiers: [usize; 4],
    /// The used length of the record.
    pub recorded: usize,
    /// The live clauses of each tier.
    pub counts: [usize; 4],
    /// Words given up by deleted clauses.
    pub garbage: usize,
    /// The binary clauses.
    pub binary: usize,
    /// Bump and inverse decay.
    pub activity: ClauseActivity,
}

/// What most calls give back: the number (0 where the call was done), the answer as a number (0 where it says nothing) and the state.
#[repr(C)]
#[derive(Clone, Copy, Debug, PartialEq)]
pub struct Reply {
    /// 0, or the number of the refusal.
    pub number: u32,
    /// The new clause's reference, or 1 for "rebuild the watch lists".
    pub answer: u32,
    /// The state afterwards.
    pub state: State,
}

/// What `prove_units` gives back.
#[repr(C)]
#[derive(Clone, Copy, Debug, PartialEq)]
pub struct UnitsReply {
    /// 0, or the number of the refusal.
    pub number: u32,
    /// 1 for a new unit.
    pub answer: u32,
    /// The state afterwards.
    pub state: State,
    /// The trail's used length afterwards.
    pub assigned: usize,
}

/// What assessing gives back.
#[repr(C)]
#[derive(Clone, Copy, Debug, PartialEq, Eq)]
pub struct AssessedNumbers {
    /// 0, or the number of the refusal.
    pub number: u32,
    /// The tier's number.
    pub tier: u32,
    /// The glue that the new header will have.
    pub glue: u32,
}

/// What setting the decay gives back.
#[repr(C)]
#[derive(Clone, Copy, Debug, PartialEq)]
pub struct DecayNumbers {
    /// 0, or the number of the refusal.
    pub number: u32,
    /// Bump and inverse decay afterwards.
    pub activity: ClauseActivity,
}

/// A part of a lent buffer.
#[repr(C)]
#[derive(Clone, Copy, Debug, PartialEq, Eq)]
pub struct Part {
    /// 0, or the number of the refusal.
    pub number: u32,
    /// Where the part starts in the buffer; 0 where refused.
    pub start: usize,
    /// Its length; 0 where refused.
    pub len: usize,
}

/// The fields that a clause view shows.
#[repr(C)]
#[derive(Clone, Copy, Debug, PartialEq, Eq)]
pub struct FieldNumbers {
    /// The activity's bits.
    pub activity: u32,
    /// The tier's number.
    pub tier: u32,
    /// 1 for a deleted clause.
    pub deleted: u32,
    /// The mark.
    pub mark: u32,
    /// The glue.
    pub glue: u32,
    /// 1 for an active clause.
    pub active: u32,
    /// The length word.
    pub len: u32,
}

/// The literal that a clause view shows at a place.
#[repr(C)]
#[derive(Clone, Copy, Debug, PartialEq, Eq)]
pub struct PlaceNumbers {
    /// 0, or 4 where the place has no literal.
    pub number: u32,
    /// The literal's code.
    pub literal: u32,
}

#[allow(missing_docs)] // each is documented at the method of `Store` that calls it
extern "C" {
    pub fn mihorempo_start(
        s: State, vars: usize, decay: f32,
        words: *mut u32, words_len: usize, clauses: *mut u32, clauses_len: usize,
        irred: *mut u32, irred_len: usize, core: *mut u32, core_len: usize,
        mid: *mut u32, mid_len: usize, local: *mut u32, local_len: usize,
        rows: *mut u32, rows_len: usize, counts: *mut u32, counts_len: usize,
        rec: *mut u32, rec_len: usize,
    ) -> Reply;

    pub fn mihorempo_add_clause(
        s: State,
        words: *mut u32, words_len: usize, clauses: *mut u32, clauses_len: usize,
        irred: *mut u32, irred_len: usize, core: *mut u32, core_len: usize,
        mid: *mut u32, mid_len: usize, local: *mut u32, local_len: usize,
        tier: usize, glue: usize, lits: *const u32, lits_len: usize,
    ) -> Reply;

    pub fn mihorempo_set_clause_tier(
        s: State,
        words: *mut u32, words_len: usize, clauses: *mut u32, clauses_len: usize,
        irred: *mut u32, irred_len: usize, core: *mut u32, core_len: usize,
        mid: *mut u32, mid_len: usize, local: *mut u32, local_len: usize,
        cref: u32, tier: usize,
    ) -> Reply;

    pub fn mihorempo_delete_clause(
        s: State,
        words: *mut u32, words_len: usize, clauses: *mut u32, clauses_len: usize,
        irred: *mut u32, irred_len: usize, core: *mut u32, core_len: usize,
        mid: *mut u32, mid_len: usize, local: *mut u32, local_len: usize,
        rec: *mut u32, rec_len: usize,
        values: *const u8, values_len: usize, kinds: *const u8, kinds_len: usize,
        reasons: *const u32, reasons_len: usize, levels: *const u32, levels_len: usize,
        trail: *const u32, trail_len: usize, assigned: usize, level: usize,
        cref: u32,
    ) -> Reply;

    pub fn mihorempo_add_binary_clause(
        s: State,
        rows: *mut u32, rows_len: usize, counts: *mut u32, counts_len: usize,
        lits: *const u32, lits_len: usize,
    ) -> Reply;

    pub fn mihorempo_implied(
        s: State,
        rows: *const u32, rows_len: usize, counts: *const u32, counts_len: usize,
        lit: u32,
    ) -> Part;

    pub fn mihorempo_clause_lits(
        s: State,
        words: *const u32, words_len: usize, clauses: *const u32, clauses_len: usize,
        cref: u32,
    ) -> Part;

    pub fn mihorempo_assess_learned_clause(
        vars: usize, levels: *const u32, levels_len: usize, lits: *const u32, lits_len: usize,
    ) -> AssessedNumbers;

    pub fn mihorempo_bump_clause(
        s: State,
        words: *mut u32, words_len: usize, clauses: *mut u32, clauses_len: usize,
        irred: *mut u32, irred_len: usize, core: *mut u32, core_len: usize,
        mid: *mut u32, mid_len: usize, local: *mut u32, local_len: usize,
        levels: *const u32, levels_len: usize, cref: u32,
    ) -> Reply;

    pub fn mihorempo_decay(
        s: State,
        words: *mut u32, words_len: usize, clauses: *mut u32, clauses_len: usize,
        irred: *const u32, irred_len: usize, core: *const u32, core_len: usize,
        mid: *const u32, mid_len: usize, local: *const u32, local_len: usize,
    ) -> Reply;

    pub fn mihorempo_set_decay(activity: ClauseActivity, decay: f32) -> DecayNumbers;

    pub fn mihorempo_reduce_locals(
        s: State,
        words: *mut u32, words_len: usize, clauses: *mut u32, clauses_len: usize,
        irred: *mut u32, irred_len: usize, core: *mut u32, core_len: usize,
        mid: *mut u32, mid_len: usize, local: *mut u32, local_len: usize,
        rec: *mut u32, rec_len: usize,
        values: *const u8, values_len: usize, kinds: *const u8, kinds_len: usize,
        reasons: *const u32, reasons_len: usize, levels: *const u32, levels_len: usize,
        trail: *const u32, trail_len: usize, assigned: usize, level: usize,
    ) -> Reply;

    pub fn mihorempo_reduce_mids(
        s: State,
        words: *mut u32, words_len: usize, clauses: *mut u32, clauses_len: usize,
        irred: *mut u32, irred_len: usize, core: *mut u32, core_len: usize,
        mid: *mut u32, mid_len: usize, local: *mut u32, local_len: usize,
    ) -> Reply;

    pub fn mihorempo_collect_garbage(
        s: State,
        words: *mut u32, words_len: usize, clauses: *mut u32, clauses_len: usize,
        irred: *mut u32, irred_len: usize, core: *mut u32, core_len: usize,
        mid: *mut u32, mid_len: usize, local: *mut u32, local_len: usize,
        values: *const u8, values_len: usize, kinds: *const u8, kinds_len: usize,
        reasons: *mut u32, reasons_len: usize, levels: *const u32, levels_len: usize,
        trail: *const u32, trail_len: usize, assigned: usize, level: usize,
    ) -> Reply;

    pub fn mihorempo_prove_units(
        s: State,
        words: *const u32, words_len: usize, clauses: *const u32, clauses_len: usize,
        rec: *mut u32, rec_len: usize,
        values: *const u8, values_len: usize, kinds: *mut u8, kinds_len: usize,
        reasons: *mut u32, reasons_len: usize, levels: *const u32, levels_len: usize,
        trail: *mut u32, trail_len: usize, assigned: usize, level: usize,
    ) -> UnitsReply;

    pub fn mihorempo_unit_simplify(
        s: State,
        words: *mut u32, words_len: usize, clauses: *mut u32, clauses_len: usize,
        irred: *mut u32, irred_len: usize, core: *mut u32, core_len: usize,
        mid: *mut u32, mid_len: usize, local: *mut u32, local_len: usize,
        rows: *mut u32, rows_len: usize, counts: *mut u32, counts_len: usize,
        rec: *mut u32, rec_len: usize,
        values: *const u8, values_len: usize, kinds: *const u8, kinds_len: usize,
        reasons: *const u32, reasons_len: usize, levels: *const u32, levels_len: usize,
        trail: *const u32, trail_len: usize, assigned: usize, level: usize,
    ) -> Reply;

    pub fn mihorempo_empty_record(s: State, rec: *mut u32, rec_len: usize) -> Reply;

    pub fn mihorempo_view_fields(words: *const u32, words_len: usize) -> FieldNumbers;

    pub fn mihorempo_view_literal(words: *const u32, words_len: usize, place: usize) -> PlaceNumbers;

    pub fn mihorempo_state_number(s: State, place: usize) -> usize;
}
