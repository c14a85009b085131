//! Stand-in: no models.
#[derive(Default)]
pub struct Model;
