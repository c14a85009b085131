//! Stand-in: maps of variables, both ways.
use varisat_formula::Var;

#[derive(Default)]
pub struct VarMap {
    mapping: Vec<Option<Var>>,
}

impl VarMap {
    pub fn get(&self, from: Var) -> Option<Var> {
        self.mapping.get(from.index()).copied().flatten()
    }

    /// One above the largest variable ever mapped.
    pub fn watermark(&self) -> usize {
        self.mapping.len()
    }

    fn insert(&mut self, into: Var, from: Var) {
        if self.mapping.len() <= from.index() {
            self.mapping.resize(from.index() + 1, None);
        }
        self.mapping[from.index()] = Some(into);
    }

    fn remove(&mut self, from: Var) -> Option<Var> {
        self.mapping.get_mut(from.index()).and_then(|into| into.take())
    }
}

#[derive(Default)]
pub struct VarBiMap {
    fwd: VarMap,
    bwd: VarMap,
}

impl VarBiMap {
    pub fn fwd(&self) -> &VarMap {
        &self.fwd
    }

    pub fn bwd(&self) -> &VarMap {
        &self.bwd
    }

    pub fn fwd_mut(&mut self) -> VarBiMapMut<'_> {
        VarBiMapMut {
            fwd: &mut self.fwd,
            bwd: &mut self.bwd,
        }
    }

    pub fn bwd_mut(&mut self) -> VarBiMapMut<'_> {
        VarBiMapMut {
            fwd: &mut self.bwd,
            bwd: &mut self.fwd,
        }
    }
}

pub struct VarBiMapMut<'a> {
    fwd: &'a mut VarMap,
    bwd: &'a mut VarMap,
}

impl<'a> VarBiMapMut<'a> {
    pub fn insert(&mut self, into: Var, from: Var) {
        self.fwd.insert(into, from);
        self.bwd.insert(from, into);
    }

    pub fn remove(&mut self, from: Var) -> Option<Var> {
        let into = self.fwd.remove(from);
        if let Some(into) = into {
            self.bwd.remove(into);
        }
        into
    }
}
