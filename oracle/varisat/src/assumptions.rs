//! Stand-in: no assumptions.
#[derive(Default)]
pub struct Assumptions;

impl Assumptions {
    pub fn full_restart(&mut self) {}

    pub fn assumption_levels(&self) -> usize {
        0
    }
}
