//! One driver for both: `bench time N` writes the best time of several runs of each measured
//! function, in nanoseconds; `bench once N` runs each once, to be counted from outside. Both first
//! hold every result of this library against the given Rust's.
mod given;
#[path = "../../../oracle/walk/src/mirrors.rs"]
mod mirrors;
mod ours;
mod stores;

use std::time::Instant;

use mirrors::clause_ref;
use stores::Clauses;

/// Judged calls of adding and bumping that are measured.
pub const FEW: usize = 10;

/// Calls of what adding is refused for that are measured.
pub const SOME: usize = 1_000;

/// Runs `work` on a new `make` as often as asked, and prints the best time.
fn measure<T>(
    runs: usize,
    name: &str,
    mut make: impl FnMut() -> T,
    mut work: impl FnMut(&mut T),
) -> T {
    let mut best = u128::MAX;
    let mut last = None;
    for _ in 0..runs {
        let mut made = make();
        let start = Instant::now();
        work(&mut made);
        best = best.min(start.elapsed().as_nanos());
        last = Some(made);
    }
    println!("{name} {best}");
    last.unwrap()
}

/// Keeps the compiler from making one function of two measured ones that do the same.
#[inline(always)]
pub fn distinct(number: u32) {
    std::hint::black_box(number);
}

fn main() {
    let args: Vec<String> = std::env::args().collect();
    let (mode, n) = (&args[1][..], args[2].parse::<usize>().unwrap());
    let runs = match mode {
        "time" => 15,
        "once" => 1,
        _ => panic!("time or once"),
    };
    mirrors::check();
    let c = Clauses::new(n);
    let all_lits = given::lits(&c.lits);
    println!("clauses {n}");
    println!("vars {}", c.vars);

    // Adding all clauses to an empty store.
    let empty = c.empty();
    assert!(ours::passes(&mut empty.clone()));
    let k = measure(
        runs,
        "step_add",
        || empty.clone(),
        |k| ours::step_add(k, &c),
    );
    let ctx = measure(
        runs,
        "given_add",
        || given::load(&empty, None),
        |ctx| given::add_all(ctx, &c, &all_lits),
    );
    assert_eq!(k.state.clauses, n);
    given::same("add", &k, ctx);
    println!("words {}", k.state.words);
    let some = SOME.min(n);
    println!("some_add {some}");
    measure(
        runs,
        "refuse_add",
        || empty.clone(),
        |k| assert!(ours::refuse_add(k, &c, some)),
    );

    // A few more, judged.
    let filled = c.filled();
    assert!(ours::passes(&mut filled.clone()));
    println!("few {FEW}");
    let k = measure(
        runs,
        "call_add",
        || filled.clone(),
        |k| ours::call_add(k, &c, FEW),
    );
    let ctx = measure(
        runs,
        "few_add",
        || given::load(&filled, None),
        |ctx| given::add_few(ctx, &c, &all_lits, FEW),
    );
    assert_eq!(k.state.clauses, n + FEW);
    given::same("add judged", &k, ctx);
    measure(
        runs,
        "judge_add",
        || filled.clone(),
        |k| assert_eq!(ours::judge_five(k), 0),
    );

    // Bumping each Local.
    let locals = filled.locals();
    let refs: Vec<_> = locals.iter().map(|&at| clause_ref(at)).collect();
    println!("bumps {}", locals.len());
    measure(
        runs,
        "refuse_bump",
        || filled.clone(),
        |k| assert_eq!(ours::refuse_bump(k, &locals), 0),
    );
    let k = measure(
        runs,
        "step_bump",
        || filled.clone(),
        |k| ours::step_bump(k, &locals),
    );
    let ctx = measure(
        runs,
        "given_bump",
        || given::load(&filled, None),
        |ctx| given::bump_all(ctx, &refs),
    );
    println!("bumped_down {}", filled.state.counts[3] - k.state.counts[3]);
    given::same("bump", &k, ctx);
    let k = measure(
        runs,
        "call_bump",
        || filled.clone(),
        |k| ours::call_bump(k, &locals[..FEW]),
    );
    let ctx = measure(
        runs,
        "few_bump",
        || given::load(&filled, None),
        |ctx| given::bump_few(ctx, &refs[..FEW]),
    );
    given::same("bump judged", &k, ctx);
    measure(
        runs,
        "judge_bump",
        || filled.clone(),
        |k| assert_eq!(ours::judge_five_levels(k), 0),
    );

    // Reducing locals.
    let trailed = c.with_trail(c.filled());
    println!("trail {}", trailed.assigned);
    let long = trailed.kinds.iter().filter(|&&kind| kind == 3).count();
    println!("long_reasons {long}");
    measure(
        runs,
        "judge_reduce",
        || trailed.clone(),
        |k| assert_eq!(ours::judge_five_record_host(k), 0),
    );
    measure(
        runs,
        "refuse_reduce",
        || trailed.clone(),
        |k| assert_eq!(ours::refuse_reduce(k), 0),
    );
    let k = measure(runs, "step_reduce", || trailed.clone(), ours::step_reduce);
    let whole = measure(runs, "call_reduce", || trailed.clone(), ours::call_reduce);
    let (ctx, recorder) = measure(
        runs,
        "given_reduce",
        || given::load_recorded(&trailed),
        |(ctx, _)| given::reduce_locals(ctx),
    );
    measure(
        runs,
        "silent_reduce",
        || given::load(&trailed, None),
        given::reduce_locals_silent,
    );
    given::same("reduce", &k, ctx);
    given::same_record("reduce", &k, recorder);
    assert!(k == whole, "reduce judged");
    println!(
        "struck_locals {}",
        trailed.state.counts[3] - k.state.counts[3]
    );

    // Collecting, where more than half is garbage.
    let garbage = c.with_deleted(c.with_trail(c.filled()), 60);
    println!("garbage {}", garbage.state.garbage);
    measure(
        runs,
        "judge_collect",
        || garbage.clone(),
        |k| assert_eq!(ours::judge_five_host(k), 0),
    );
    measure(
        runs,
        "judge_all",
        || garbage.clone(),
        |k| assert_eq!(ours::judge_all_of_collect(k), 0),
    );
    let k = measure(runs, "step_collect", || garbage.clone(), ours::step_collect);
    let whole = measure(runs, "call_collect", || garbage.clone(), ours::call_collect);
    let ctx = measure(
        runs,
        "given_collect",
        || given::load(&garbage, None),
        given::collect_garbage,
    );
    assert_eq!(k.state.garbage, 0);
    given::same("collect", &k, ctx);
    assert!(k == whole, "collect judged");

    // Simplifying by some units.
    let units = c.with_units(c.with_deleted(c.filled(), 5));
    println!(
        "known {}",
        units.values.iter().filter(|&&value| value < 2).count()
    );
    measure(
        runs,
        "judge_simplify",
        || units.clone(),
        |k| assert_eq!(ours::judge_simplify(k), 0),
    );
    measure(
        runs,
        "refuse_simplify",
        || units.clone(),
        |k| assert_eq!(ours::refuse_simplify(k), 0),
    );
    let k = measure(runs, "step_simplify", || units.clone(), ours::step_simplify);
    let whole = measure(runs, "call_simplify", || units.clone(), ours::call_simplify);
    let (ctx, recorder) = measure(
        runs,
        "given_simplify",
        || given::load_recorded(&units),
        |(ctx, _)| given::simplify(ctx),
    );
    measure(
        runs,
        "silent_simplify",
        || given::load(&units, None),
        given::simplify_silent,
    );
    given::same("simplify", &k, ctx);
    given::same_record("simplify", &k, recorder);
    assert!(k == whole, "simplify judged");
    println!("recorded_simplify {}", k.state.recorded);
    println!(
        "struck_simplify {}",
        units.state.counts.iter().sum::<usize>() - k.state.counts.iter().sum::<usize>()
    );
    let mut nothing = c.empty();
    nothing.values = units.values.clone();
    nothing.kinds = units.kinds.clone();
    measure(
        runs,
        "loop_simplify",
        || given::load(&nothing, None),
        given::simplify_nothing,
    );
}
