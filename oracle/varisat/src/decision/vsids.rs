//! Stand-in: decisions are no part of the store.
#[derive(Default)]
pub struct Vsids;

impl Vsids {
    pub fn set_var_count(&mut self, _count: usize) {}

    pub fn set_decay(&mut self, _decay: f32) {}
}
