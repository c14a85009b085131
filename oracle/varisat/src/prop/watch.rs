//! Stand-in: watch lists are left out; what stays is whether `disable` was called.
use varisat_formula::Lit;

use crate::clause::ClauseRef;

#[derive(Default)]
pub struct Watchlists {
    pub disabled: bool,
}

impl Watchlists {
    pub fn set_var_count(&mut self, _count: usize) {}

    pub fn watch_clause(&mut self, _cref: ClauseRef, _lits: [Lit; 2]) {}

    pub fn disable(&mut self) {
        self.disabled = true
    }
}
