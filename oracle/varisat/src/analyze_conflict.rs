//! Stand-in: conflict analysis is no part of the store.
#[derive(Default)]
pub struct AnalyzeConflict;

impl AnalyzeConflict {
    pub fn set_var_count(&mut self, _count: usize) {}
}
