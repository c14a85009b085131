//! Stand-in for the crate `vec_mut_scan`: a scan over a vector that can remove the item it stands at;
//! what is not removed, or not reached, stays in order. Each item moves at most once, as in that crate
//! (oracle's stand-in moves all that lies behind at each removal).
use std::mem::forget;
use std::ops::{Deref, DerefMut};
use std::ptr;

pub struct VecMutScan<'a, T> {
    vec: &'a mut Vec<T>,
    base: *mut T,
    kept: usize,
    read: usize,
    len: usize,
}

impl<'a, T> VecMutScan<'a, T> {
    pub fn new(vec: &'a mut Vec<T>) -> VecMutScan<'a, T> {
        let len = vec.len();
        let base = vec.as_mut_ptr();
        // While the scan lasts the vector owns nothing.
        unsafe { vec.set_len(0) };
        VecMutScan {
            vec,
            base,
            kept: 0,
            read: 0,
            len,
        }
    }

    #[allow(clippy::should_implement_trait)]
    pub fn next<'s>(&'s mut self) -> Option<VecMutScanItem<'s, 'a, T>> {
        if self.read == self.len {
            return None;
        }
        Some(VecMutScanItem { scan: self })
    }
}

impl<'a, T> Drop for VecMutScan<'a, T> {
    fn drop(&mut self) {
        let behind = self.len - self.read;
        unsafe {
            ptr::copy(self.base.add(self.read), self.base.add(self.kept), behind);
            self.vec.set_len(self.kept + behind);
        }
    }
}

/// The item that the scan stands at.
pub struct VecMutScanItem<'s, 'a, T> {
    scan: &'s mut VecMutScan<'a, T>,
}

impl<'s, 'a, T> VecMutScanItem<'s, 'a, T> {
    pub fn remove(self) -> T {
        let item = unsafe { ptr::read(self.scan.base.add(self.scan.read)) };
        self.scan.read += 1;
        forget(self);
        item
    }
}

impl<'s, 'a, T> Drop for VecMutScanItem<'s, 'a, T> {
    fn drop(&mut self) {
        let scan = &mut *self.scan;
        if scan.kept != scan.read {
            unsafe {
                ptr::copy_nonoverlapping(scan.base.add(scan.read), scan.base.add(scan.kept), 1)
            };
        }
        scan.read += 1;
        scan.kept += 1;
    }
}

impl<'s, 'a, T> Deref for VecMutScanItem<'s, 'a, T> {
    type Target = T;
    fn deref(&self) -> &T {
        unsafe { &*self.scan.base.add(self.scan.read) }
    }
}

impl<'s, 'a, T> DerefMut for VecMutScanItem<'s, 'a, T> {
    fn deref_mut(&mut self) -> &mut T {
        unsafe { &mut *self.scan.base.add(self.scan.read) }
    }
}
