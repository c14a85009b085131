//! The host's side: what a solver knows of each variable, and its trail.

use crate::kinds::{Lit, Reason, Var};

/// The assignment, the reasons, the levels and the trail of a solver.
///
/// ```
/// use mihorempo::{Host, Lit, Reason};
///
/// let mut host = Host::new(3);
/// assert!(host.assign(Lit(1), Reason::Unit));
/// assert_eq!(host.value(Lit(0)), Some(false));
/// assert_eq!(host.trail(), &[Lit(1)]);
/// assert!(!host.assign(Lit(0), Reason::Unit)); // variable 0 has its value already
/// ```
#[derive(Clone, Debug, PartialEq, Eq)]
pub struct Host {
    pub(crate) values: Vec<u8>,
    pub(crate) kinds: Vec<u8>,
    pub(crate) reasons: Vec<u32>,
    pub(crate) levels: Vec<u32>,
    pub(crate) trail: Vec<u32>,
    pub(crate) assigned: usize,
    pub(crate) level: usize,
}

impl Host {
    /// All variables unassigned, at level 0.
    pub fn new(vars: usize) -> Host {
        Host {
            values: vec![2; vars],
            kinds: vec![0; vars],
            reasons: vec![0; vars],
            levels: vec![0; vars],
            trail: vec![0; vars],
            assigned: 0,
            level: 0,
        }
    }

    /// The number of variables.
    pub fn vars(&self) -> usize {
        self.values.len()
    }

    /// The current level.
    pub fn level(&self) -> usize {
        self.level
    }

    /// The literals that were made true, in order, without the removed units.
    pub fn trail(&self) -> &[Lit] {
        crate::store::as_lits(&self.trail[..self.assigned])
    }

    /// Whether a literal is true; nothing where it is unassigned or no literal of this host.
    pub fn value(&self, lit: Lit) -> Option<bool> {
        match self.values.get(lit.var().0 as usize) {
            Some(0) => Some(lit.is_negative()),
            Some(1) => Some(!lit.is_negative()),
            _ => None,
        }
    }

    /// Why a variable has its value.
    ///
    /// # Panics
    ///
    /// Where the host has no such variable.
    pub fn reason(&self, var: Var) -> Reason {
        Reason::of(self.kinds[var.0 as usize], self.reasons[var.0 as usize])
    }

    /// The level at which a variable got its value.
    ///
    /// # Panics
    ///
    /// Where the host has no such variable.
    pub fn level_of(&self, var: Var) -> usize {
        self.levels[var.0 as usize] as usize
    }

    /// Begins a new level. One above the number of variables does not pass: a call that is lent it is refused with
    /// [`crate::Refusal::Host`].
    pub fn new_level(&mut self) {
        self.level += 1;
    }

    /// Makes a literal true at the current level, at the end of the trail. Says false, and does nothing, where the literal is
    /// out of range or has a value already.
    pub fn assign(&mut self, lit: Lit, reason: Reason) -> bool {
        let var = lit.var().0 as usize;
        if var >= self.values.len() || self.values[var] != 2 || self.assigned == self.trail.len() {
            return false;
        }
        self.values[var] = if lit.is_negative() { 0 } else { 1 };
        self.kinds[var] = reason.kind();
        self.reasons[var] = reason.value();
        self.levels[var] = self.level as u32;
        self.trail[self.assigned] = lit.0;
        self.assigned += 1;
        true
    }

    /// Takes back what was assigned above a level.
    pub fn backtrack(&mut self, level: usize) {
        while self.assigned > 0 {
            let var = (self.trail[self.assigned - 1] / 2) as usize;
            if self.levels[var] as usize <= level {
                break;
            }
            self.assigned -= 1;
            self.trail[self.assigned] = 0;
            self.values[var] = 2;
            self.kinds[var] = 0;
            self.reasons[var] = 0;
            self.levels[var] = 0;
        }
        if self.level > level {
            self.level = level;
        }
    }
}
