//! This library: what `bench_calls` exports, and one function around each that is measured.
use crate::stores::{Clauses, State, Store};

// A slice passes as a pointer and a length.
macro_rules! exported {
    ($($name:ident[$($part:ident)*]($($plain:ty),*) -> $result:ty;)*) => {
        extern "C" {
            $(fn $name(s: State, $($part: *mut (), _: usize,)* $(_: $plain),*) -> $result;)*
        }
    };
}

exported! {
    bench_judge_five[words clauses irred core mid local]() -> usize;
    bench_judge_five_levels[words clauses irred core mid local levels]() -> usize;
    bench_judge_five_host[words clauses irred core mid local values kinds reasons levels trail](usize, usize) -> usize;
    bench_judge_five_record_host[words clauses irred core mid local rec values kinds reasons levels trail](usize, usize) -> usize;
    bench_judge_all[words clauses irred core mid local rows counts rec values kinds reasons levels trail](usize, usize) -> usize;
    bench_add_clause[words clauses irred core mid local](usize, usize, *const u32, usize) -> State;
    bench_append_clause[words clauses irred core mid local](usize, usize, *const u32, usize) -> State;
    bench_bump_clause[words clauses irred core mid local levels](u32) -> State;
    bench_refuse_bump[words clauses irred core mid local levels](u32) -> usize;
    bench_bump[words clauses irred core mid local levels](u32) -> State;
    bench_reduce_locals[words clauses irred core mid local rec values kinds reasons levels trail](usize, usize) -> State;
    bench_refuse_reduce_locals[words clauses irred core mid local rec values kinds reasons levels trail](usize, usize) -> usize;
    bench_locals[words clauses irred core mid local rec values kinds reasons levels trail](usize, usize) -> State;
    bench_collect_garbage[words clauses irred core mid local values kinds reasons levels trail](usize, usize) -> State;
    bench_collect[words clauses irred core mid local values kinds reasons levels trail](usize, usize) -> State;
    bench_unit_simplify[words clauses irred core mid local rows counts rec values kinds reasons levels trail](usize, usize) -> State;
    bench_refuse_unit_simplify[words clauses irred core mid local rows counts rec values kinds reasons levels trail](usize, usize) -> usize;
    bench_simplify[words clauses irred core mid local rows counts rec values kinds reasons levels trail](usize, usize) -> State;
}

extern "C" {
    fn bench_lits_pass(vars: usize, lits: *const u32, _: usize) -> bool;
}

// The functions that have a `requires` are called on stores that `main` has judged before.
macro_rules! call {
    ($name:ident, $k:expr, [$($part:ident)*] $(, $plain:expr)*) => {
        unsafe {
            $name($k.state, $($k.$part.as_mut_ptr() as *mut (), $k.$part.len(),)* $($plain),*)
        }
    };
}

// ---- the judging

#[inline(never)]
#[export_name = "measured_judge_add"]
pub fn judge_five(k: &mut Store) -> usize {
    crate::distinct(1);
    call!(bench_judge_five, k, [words clauses irred core mid local])
}

#[inline(never)]
#[export_name = "measured_judge_bump"]
pub fn judge_five_levels(k: &mut Store) -> usize {
    crate::distinct(2);
    call!(bench_judge_five_levels, k, [words clauses irred core mid local levels])
}

#[inline(never)]
#[export_name = "measured_judge_collect"]
pub fn judge_five_host(k: &mut Store) -> usize {
    crate::distinct(3);
    call!(bench_judge_five_host, k, [words clauses irred core mid local values kinds reasons levels trail], k.assigned, k.level)
}

#[inline(never)]
#[export_name = "measured_judge_reduce"]
pub fn judge_five_record_host(k: &mut Store) -> usize {
    crate::distinct(4);
    call!(bench_judge_five_record_host, k, [words clauses irred core mid local rec values kinds reasons levels trail], k.assigned, k.level)
}

#[inline(never)]
#[export_name = "measured_judge_simplify"]
pub fn judge_simplify(k: &mut Store) -> usize {
    crate::distinct(5);
    judge_all(k)
}

#[inline(never)]
#[export_name = "measured_judge_all"]
pub fn judge_all_of_collect(k: &mut Store) -> usize {
    crate::distinct(6);
    judge_all(k)
}

/// Not measured: whether a store passes before it is handed to functions that trust it.
pub fn passes(k: &mut Store) -> bool {
    judge_all(k) == 0
}

#[inline(always)]
fn judge_all(k: &mut Store) -> usize {
    call!(bench_judge_all, k, [words clauses irred core mid local rows counts rec values kinds reasons levels trail], k.assigned, k.level)
}

// ---- adding

#[inline(never)]
#[export_name = "measured_step_add"]
pub fn step_add(k: &mut Store, c: &Clauses) {
    crate::distinct(7);
    let mut from = 0;
    for i in 0..c.len() {
        let lits = &c.lits[from..c.ends[i]];
        from = c.ends[i];
        k.state = call!(bench_append_clause, k, [words clauses irred core mid local], c.tiers[i], c.glues[i], lits.as_ptr(), lits.len());
    }
}

#[inline(never)]
#[export_name = "measured_refuse_add"]
pub fn refuse_add(k: &mut Store, c: &Clauses, calls: usize) -> bool {
    crate::distinct(8);
    let mut passed = true;
    for i in 0..calls {
        let lits = c.lits(i);
        passed &= unsafe { bench_lits_pass(k.state.vars, lits.as_ptr(), lits.len()) };
    }
    passed
}

#[inline(never)]
#[export_name = "measured_call_add"]
pub fn call_add(k: &mut Store, c: &Clauses, calls: usize) {
    crate::distinct(9);
    for i in 0..calls {
        let lits = c.lits(i);
        k.state = call!(bench_add_clause, k, [words clauses irred core mid local], c.tiers[i], c.glues[i], lits.as_ptr(), lits.len());
    }
}

// ---- bumping

#[inline(never)]
#[export_name = "measured_step_bump"]
pub fn step_bump(k: &mut Store, locals: &[u32]) {
    crate::distinct(10);
    for &at in locals {
        k.state = call!(bench_bump, k, [words clauses irred core mid local levels], at);
    }
}

#[inline(never)]
#[export_name = "measured_refuse_bump"]
pub fn refuse_bump(k: &mut Store, locals: &[u32]) -> usize {
    crate::distinct(11);
    let mut refused = 0;
    for &at in locals {
        refused += call!(bench_refuse_bump, k, [words clauses irred core mid local levels], at);
    }
    refused
}

#[inline(never)]
#[export_name = "measured_call_bump"]
pub fn call_bump(k: &mut Store, locals: &[u32]) {
    crate::distinct(12);
    for &at in locals {
        k.state = call!(bench_bump_clause, k, [words clauses irred core mid local levels], at);
    }
}

// ---- reducing locals

#[inline(never)]
#[export_name = "measured_step_reduce"]
pub fn step_reduce(k: &mut Store) {
    crate::distinct(13);
    k.state = call!(bench_locals, k, [words clauses irred core mid local rec values kinds reasons levels trail], k.assigned, k.level)
}

#[inline(never)]
#[export_name = "measured_refuse_reduce"]
pub fn refuse_reduce(k: &mut Store) -> usize {
    crate::distinct(14);
    call!(bench_refuse_reduce_locals, k, [words clauses irred core mid local rec values kinds reasons levels trail], k.assigned, k.level)
}

#[inline(never)]
#[export_name = "measured_call_reduce"]
pub fn call_reduce(k: &mut Store) {
    crate::distinct(15);
    k.state = call!(bench_reduce_locals, k, [words clauses irred core mid local rec values kinds reasons levels trail], k.assigned, k.level)
}

// ---- collecting

#[inline(never)]
#[export_name = "measured_step_collect"]
pub fn step_collect(k: &mut Store) {
    crate::distinct(16);
    k.state = call!(bench_collect, k, [words clauses irred core mid local values kinds reasons levels trail], k.assigned, k.level)
}

#[inline(never)]
#[export_name = "measured_call_collect"]
pub fn call_collect(k: &mut Store) {
    crate::distinct(17);
    k.state = call!(bench_collect_garbage, k, [words clauses irred core mid local values kinds reasons levels trail], k.assigned, k.level)
}

// ---- simplifying

#[inline(never)]
#[export_name = "measured_step_simplify"]
pub fn step_simplify(k: &mut Store) {
    crate::distinct(18);
    k.state = call!(bench_simplify, k, [words clauses irred core mid local rows counts rec values kinds reasons levels trail], k.assigned, k.level)
}

#[inline(never)]
#[export_name = "measured_refuse_simplify"]
pub fn refuse_simplify(k: &mut Store) -> usize {
    crate::distinct(19);
    call!(bench_refuse_unit_simplify, k, [words clauses irred core mid local rows counts rec values kinds reasons levels trail], k.assigned, k.level)
}

#[inline(never)]
#[export_name = "measured_call_simplify"]
pub fn call_simplify(k: &mut Store) {
    crate::distinct(20);
    k.state = call!(bench_unit_simplify, k, [words clauses irred core mid local rows counts rec values kinds reasons levels trail], k.assigned, k.level)
}
