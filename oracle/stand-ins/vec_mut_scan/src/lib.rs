//! Stand-in for the crate `vec_mut_scan`: a scan over a vector that can remove the item it stands
//! at; what is not removed, or not reached, stays in order.
use std::ops::{Deref, DerefMut};

pub struct VecMutScan<'a, T> {
    vec: &'a mut Vec<T>,
    place: usize,
}

impl<'a, T> VecMutScan<'a, T> {
    pub fn new(vec: &'a mut Vec<T>) -> VecMutScan<'a, T> {
        VecMutScan { vec, place: 0 }
    }

    #[allow(clippy::should_implement_trait)]
    pub fn next<'s>(&'s mut self) -> Option<VecMutScanItem<'s, 'a, T>> {
        if self.place == self.vec.len() {
            return None;
        }
        self.place += 1;
        Some(VecMutScanItem { scan: self })
    }
}

/// So that `drop(scan)` ends the borrow where the given file says so.
impl<'a, T> Drop for VecMutScan<'a, T> {
    fn drop(&mut self) {}
}

/// The item that the scan passed last.
pub struct VecMutScanItem<'s, 'a, T> {
    scan: &'s mut VecMutScan<'a, T>,
}

impl<'s, 'a, T> VecMutScanItem<'s, 'a, T> {
    pub fn remove(self) -> T {
        self.scan.place -= 1;
        self.scan.vec.remove(self.scan.place)
    }
}

impl<'s, 'a, T> Deref for VecMutScanItem<'s, 'a, T> {
    type Target = T;
    fn deref(&self) -> &T {
        &self.scan.vec[self.scan.place - 1]
    }
}

impl<'s, 'a, T> DerefMut for VecMutScanItem<'s, 'a, T> {
    fn deref_mut(&mut self) -> &mut T {
        &mut self.scan.vec[self.scan.place - 1]
    }
}
