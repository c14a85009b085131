//! Stand-in for the crate `varisat_formula`: variables and literals. A literal's code is twice the
//! variable index, plus 1 if negated; literals order by code.
use std::ops::Not;

pub mod lit {
    /// Integer type of variables and literals.
    pub type LitIdx = u32;
}

use lit::LitIdx;

#[repr(transparent)]
#[derive(Copy, Clone, Eq, PartialEq, Ord, PartialOrd, Hash, Debug)]
pub struct Var {
    index: LitIdx,
}

impl Var {
    pub fn from_index(index: usize) -> Var {
        Var {
            index: index as LitIdx,
        }
    }

    pub fn index(self) -> usize {
        self.index as usize
    }

    pub const fn max_count() -> usize {
        (LitIdx::MAX >> 4) as usize + 1
    }
}

#[repr(transparent)]
#[derive(Copy, Clone, Eq, PartialEq, Ord, PartialOrd, Hash, Debug)]
pub struct Lit {
    code: LitIdx,
}

impl Lit {
    pub fn from_code(code: usize) -> Lit {
        Lit {
            code: code as LitIdx,
        }
    }

    pub fn code(self) -> usize {
        self.code as usize
    }

    pub fn var(self) -> Var {
        Var {
            index: self.code >> 1,
        }
    }

    pub fn index(self) -> usize {
        self.var().index()
    }

    pub fn is_negative(self) -> bool {
        self.code & 1 != 0
    }

    pub fn is_positive(self) -> bool {
        !self.is_negative()
    }

    pub fn map_var(self, map: impl FnOnce(Var) -> Var) -> Lit {
        Lit {
            code: map(self.var()).index << 1 | self.code & 1,
        }
    }
}

impl Not for Lit {
    type Output = Lit;
    fn not(self) -> Lit {
        Lit {
            code: self.code ^ 1,
        }
    }
}
