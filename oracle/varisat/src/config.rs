//! Stand-in: the configuration that the given files read. The walk's decay is 0.5.
pub struct SolverConfig {
    pub clause_activity_decay: f32,
    pub vsids_decay: f32,
}

impl Default for SolverConfig {
    fn default() -> SolverConfig {
        SolverConfig {
            clause_activity_decay: 0.5,
            vsids_decay: 0.5,
        }
    }
}

pub struct SolverConfigUpdate;
