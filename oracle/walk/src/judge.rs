//! Refusals 1, 2 and 3, from document 01. "Each condition is judged exactly where all it speaks of
//! is lent."
use std::collections::{HashMap, HashSet};

use crate::lent::{Lent, CLAUSES, TRAIL};

/// What a call is lent beside the state.
#[derive(Copy, Clone, Default)]
pub struct Parts {
    /// The words and the clause list.
    pub words: bool,
    pub tiers: bool,
    pub rows: bool,
    pub record: bool,
    /// The whole host side.
    pub host: bool,
    /// The levels alone.
    pub levels: bool,
}

pub const NOTHING: Parts = Parts {
    words: false,
    tiers: false,
    rows: false,
    record: false,
    host: false,
    levels: false,
};

pub const RESCALE_LIMIT: f32 = f32::MAX / 16.0;

/// The lowest of 1, 2 and 3 that is to be given, if any.
pub fn judge(lent: &Lent, parts: Parts) -> Option<u32> {
    if !sizes_fit(lent, parts) {
        Some(1)
    } else if !store_passes(lent, parts) {
        Some(2)
    } else if !host_passes(lent, parts) {
        Some(3)
    } else {
        None
    }
}

pub fn vars_in_range(vars: usize) -> bool {
    (1..=65_536).contains(&vars)
}

/// The contrary of refusal 1. The store buffers' maxima lie above every length of the walk.
pub fn sizes_fit(lent: &Lent, parts: Parts) -> bool {
    let state = &lent.state;
    let rooms = &lent.rooms;
    if !vars_in_range(state.vars) {
        return false;
    }
    let per_variable = parts.host || parts.levels || parts.rows;
    if per_variable && lent.lent_vars() != state.vars {
        return false;
    }
    if parts.host && (TRAIL < state.vars || lent.trail_used > TRAIL) {
        return false;
    }
    if parts.words && (state.words > rooms.words || state.lists[CLAUSES] > rooms.lists[CLAUSES]) {
        return false;
    }
    if parts.tiers && (1..5).any(|list| state.lists[list] > rooms.lists[list]) {
        return false;
    }
    if parts.record && state.record > rooms.record {
        return false;
    }
    if parts.rows {
        let room = lent.row_room();
        if (0..2 * state.vars).any(|code| lent.row_counts[code] as usize > room) {
            return false;
        }
    }
    true
}

/// The contrary of refusal 2, where refusal 1 is not given.
pub fn store_passes(lent: &Lent, parts: Parts) -> bool {
    let state = &lent.state;
    let bump = f32::from_bits(state.bump);
    let inverse = f32::from_bits(state.inverse);
    if !(bump >= 0.0 && state.bump != (-0.0f32).to_bits() && bump < RESCALE_LIMIT) {
        return false;
    }
    if !(inverse > 1.0 && inverse < 16.0) {
        return false;
    }
    (!parts.words || words_pass(lent))
        && (!parts.tiers || tiers_pass(lent))
        && (!parts.rows || rows_pass(lent))
}

fn words_pass(lent: &Lent) -> bool {
    let state = &lent.state;
    let used = state.words;
    let list = lent.list(CLAUSES);
    for (place, &at) in list.iter().enumerate() {
        let at = at as usize;
        if at + 3 > used {
            return false;
        }
        let end = at + 3 + lent.words[at + 2] as usize;
        let bound = match list.get(place + 1) {
            Some(&next) => used.min(next as usize),
            None => used,
        };
        if end > bound {
            return false;
        }
    }
    let mut counts = [0; 4];
    let mut live_words = 0;
    for at in lent.live() {
        if !clause_passes(lent, at) {
            return false;
        }
        counts[lent.tier(at)] += 1;
        live_words += lent.literals(at).len() + 3;
    }
    counts == state.counts && state.garbage + live_words <= used
}

/// "A live clause has 3 to V literals in range with different variables, mark 0, spare bits 0, an
/// activity from +0 to the rescale limit (not -0). An original has glue 0."
fn clause_passes(lent: &Lent, at: u32) -> bool {
    let vars = lent.state.vars;
    let literals = lent.literals(at);
    if literals.len() < 3 || !clause_given(literals, vars) {
        return false;
    }
    let word = lent.words[at as usize + 1];
    let mark = word >> 3 & 1;
    let glue = word >> 4 & 63;
    if mark != 0 || word >> 11 != 0 || (word & 3 == 0 && glue != 0) {
        return false;
    }
    let bits = lent.words[at as usize];
    let activity = f32::from_bits(bits);
    activity >= 0.0 && bits != (-0.0f32).to_bits() && activity <= RESCALE_LIMIT
}

/// At most V literals, in range, of different variables.
pub fn clause_given(literals: &[u32], vars: usize) -> bool {
    let mut seen = HashSet::new();
    literals.len() <= vars
        && literals
            .iter()
            .all(|&code| (code as usize) < 2 * vars && seen.insert(code / 2))
}

fn tiers_pass(lent: &Lent) -> bool {
    let live: Vec<u32> = lent.live();
    let live_set: HashSet<u32> = live.iter().copied().collect();
    let mut inside = vec![false; lent.state.words];
    for &at in &live {
        let end = at as usize + 3 + lent.literals(at).len();
        inside[at as usize..end].fill(true);
    }
    for tier in 0..4 {
        let entries = lent.list(1 + tier);
        let entry_set: HashSet<u32> = entries.iter().copied().collect();
        if live
            .iter()
            .any(|&at| lent.tier(at) == tier && !entry_set.contains(&at))
        {
            return false;
        }
        for &entry in entries {
            if live_set.contains(&entry) {
                continue;
            }
            let word_1 = entry as usize + 1;
            if entry as usize + 3 > lent.state.words
                || lent.words[word_1] >> 2 & 1 == 0
                || inside[word_1]
            {
                return false;
            }
        }
    }
    true
}

fn rows_pass(lent: &Lent) -> bool {
    let vars = lent.state.vars;
    let mut times: HashMap<(u32, u32), usize> = HashMap::new();
    let mut entries = 0;
    for code in 0..2 * vars {
        for &other in lent.row(code) {
            if other as usize >= 2 * vars || other as usize / 2 == code / 2 {
                return false;
            }
            entries += 1;
            *times.entry((code as u32 ^ 1, other)).or_default() += 1;
        }
    }
    let symmetric = times
        .iter()
        .all(|(&(a, b), &count)| times.get(&(b, a)) == Some(&count));
    symmetric && 2 * lent.state.binary == entries
}

/// The contrary of refusal 3, where refusals 1 and 2 are not given.
pub fn host_passes(lent: &Lent, parts: Parts) -> bool {
    let vars = lent.state.vars;
    let levels_pass = lent.levels[..lent.lent_vars()]
        .iter()
        .all(|&level| level as usize <= vars);
    if (parts.host || parts.levels) && !levels_pass {
        return false;
    }
    if !parts.host {
        return true;
    }
    if lent.level as usize > vars {
        return false;
    }
    if lent.values[..vars].iter().any(|&value| value > 2) {
        return false;
    }
    if lent.kinds[..vars].iter().any(|&kind| kind > 4) {
        return false;
    }
    let mut on_trail = vec![false; vars];
    for &code in lent.used_trail() {
        let var = code as usize / 2;
        if var >= vars || !lent.is_true(code) || on_trail[var] {
            return false;
        }
        on_trail[var] = true;
        if !(1..=3).contains(&lent.kinds[var]) || lent.levels[var] > lent.level {
            return false;
        }
        if !reason_passes(lent, code) {
            return false;
        }
    }
    (0..vars).all(|var| lent.values[var] == 2 || on_trail[var] || lent.kinds[var] == 4)
}

/// "a trail literal's long reason is live and has that literal first, and all other literals of its
/// reason are false"
fn reason_passes(lent: &Lent, code: u32) -> bool {
    let var = code as usize / 2;
    let value = lent.reasons[var];
    match lent.kinds[var] {
        2 => (value as usize) < 2 * lent.state.vars && lent.is_false(value),
        3 => {
            if !lent.is_live(value) {
                return false;
            }
            let literals = lent.literals(value);
            literals[0] == code && literals[1..].iter().all(|&other| lent.is_false(other))
        }
        _ => true,
    }
}
