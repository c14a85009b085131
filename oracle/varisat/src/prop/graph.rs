//! Stand-in: reasons and levels, from document 01. "A reason is a kind byte and a value word: none
//! 0, unit 1, binary with the other literal 2, long with a reference 3, removed unit 4."
use partial_ref::{partial, PartialRef};

use varisat_formula::{lit::LitIdx, Lit, Var};

use crate::{
    clause::ClauseRef,
    context::{parts::*, Context},
};

#[derive(Copy, Clone, Eq, PartialEq, Debug)]
pub enum Reason {
    None,
    Unit,
    Binary([Lit; 1]),
    Long(ClauseRef),
    RemovedUnit,
}

impl Reason {
    /// The false literals of the reason's clause.
    pub fn lits<'out, 'a: 'out, 'b: 'out>(
        &'a self,
        ctx: &'b partial!('b Context, ClauseAllocP),
    ) -> &'out [Lit] {
        match self {
            Reason::None | Reason::Unit | Reason::RemovedUnit => &[],
            Reason::Binary(lit) => lit,
            // The propagated literal is always at position 0
            Reason::Long(cref) => &ctx.part(ClauseAllocP).clause(*cref).lits()[1..],
        }
    }

    pub fn is_unit(&self) -> bool {
        *self == Reason::Unit
    }
}

#[derive(Copy, Clone, Debug)]
pub struct ImplNode {
    pub reason: Reason,
    pub level: LitIdx,
    pub depth: LitIdx,
}

#[derive(Default)]
pub struct ImplGraph {
    pub nodes: Vec<ImplNode>,
}

impl ImplGraph {
    pub fn set_var_count(&mut self, count: usize) {
        self.nodes.resize(
            count,
            ImplNode {
                reason: Reason::None,
                level: 0,
                depth: 0,
            },
        );
    }

    pub fn reason(&self, var: Var) -> &Reason {
        &self.nodes[var.index()].reason
    }

    pub fn level(&self, var: Var) -> usize {
        self.nodes[var.index()].level as usize
    }

    pub fn update_reason(&mut self, var: Var, reason: Reason) {
        self.nodes[var.index()].reason = reason
    }

    /// "a new removed unit's value becomes 0, its level stays"
    pub fn update_removed_unit(&mut self, var: Var) {
        self.nodes[var.index()].reason = Reason::RemovedUnit
    }

    pub fn is_removed_unit(&self, var: Var) -> bool {
        self.nodes[var.index()].reason == Reason::RemovedUnit
    }
}
