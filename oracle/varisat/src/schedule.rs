//! Stand-in: no schedule.
#[derive(Default)]
pub struct Schedule;
