//! Stand-in for the crate `ordered_float`: floats in their order, a NaN above all others and equal
//! to itself.
use std::cmp::Ordering;

#[derive(Copy, Clone, Debug)]
pub struct OrderedFloat(pub f32);

impl Ord for OrderedFloat {
    fn cmp(&self, other: &OrderedFloat) -> Ordering {
        self.0
            .partial_cmp(&other.0)
            .unwrap_or_else(|| self.0.is_nan().cmp(&other.0.is_nan()))
    }
}

impl PartialOrd for OrderedFloat {
    fn partial_cmp(&self, other: &OrderedFloat) -> Option<Ordering> {
        Some(self.cmp(other))
    }
}

impl PartialEq for OrderedFloat {
    fn eq(&self, other: &OrderedFloat) -> bool {
        self.cmp(other) == Ordering::Equal
    }
}

impl Eq for OrderedFloat {}
