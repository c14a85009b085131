//! Random sequences of calls: each clause is added or entered as often as it is held or struck, originals and redundant
//! clauses apart, and a refused call changes nothing.

use mihorempo::{Capacities, ClauseRef, Host, Kind, Lit, Reason, Refusal, Store, Tier};
use std::collections::BTreeMap;

/// A small generator of numbers, the same on every machine.
struct Numbers(u64);

impl Numbers {
    fn below(&mut self, n: usize) -> usize {
        self.0 = self.0.wrapping_mul(6_364_136_223_846_793_005).wrapping_add(1_442_695_040_888_963_407);
        ((self.0 >> 33) % n as u64) as usize
    }

    /// Up to `most` literals of different variables.
    fn clause(&mut self, vars: usize, most: usize) -> Vec<Lit> {
        let mut left: Vec<usize> = (0..vars).collect();
        let n = self.below(most + 1).min(vars);
        (0..n)
            .map(|_| {
                let at = self.below(left.len());
                let var = left.swap_remove(at);
                Lit((2 * var + self.below(2)) as u32)
            })
            .collect()
    }
}

/// How often each clause, as a sorted list, was counted.
type Count = BTreeMap<Vec<Lit>, i64>;

fn note(count: &mut Count, lits: &[Lit], times: i64) {
    let mut key = lits.to_vec();
    key.sort();
    let entry = count.entry(key.clone()).or_insert(0);
    *entry += times;
    if *entry == 0 {
        count.remove(&key);
    }
}

/// Added or entered, less struck: originals and redundant clauses.
#[derive(Default)]
struct Books {
    original: Count,
    redundant: Count,
    read: usize,
    lines: usize,
}

impl Books {
    /// Reads the lines of the record that are new.
    fn read_record(&mut self, store: &Store) {
        for line in store.record().skip(self.read) {
            match line.kind {
                Kind::Unit => {}
                Kind::EnteredOriginal => note(&mut self.original, line.lits, 1),
                Kind::EnteredRedundant => note(&mut self.redundant, line.lits, 1),
                Kind::StruckRedundant => note(&mut self.redundant, line.lits, -1),
                Kind::StruckSatisfied | Kind::StruckSimplified => note(&mut self.original, line.lits, -1),
            }
            self.read += 1;
            self.lines += 1;
        }
    }

    /// What the store holds.
    fn compare(&self, store: &Store, seed: u64, step: usize) {
        let (mut original, mut redundant) = (Count::new(), Count::new());
        let mut counts = [0; 4];
        for cref in store.clause_refs() {
            let fields = store.view_fields(cref);
            counts[fields.tier.number()] += 1;
            let held = if fields.tier == Tier::Irred { &mut original } else { &mut redundant };
            note(held, store.clause_lits(cref).unwrap(), 1);
        }
        let pairs = store.binary_clauses();
        for pair in &pairs {
            note(&mut original, pair, 1);
        }
        assert_eq!(original, self.original, "originals, seed {seed}, step {step}");
        assert_eq!(redundant, self.redundant, "redundant clauses, seed {seed}, step {step}");
        assert_eq!((counts, pairs.len()), (store.state().counts, store.state().binary), "counts, seed {seed}, step {step}");
    }
}

/// A live clause, or now and then any number.
fn some_ref(numbers: &mut Numbers, store: &Store) -> ClauseRef {
    let refs: Vec<ClauseRef> = store.clause_refs().collect();
    if refs.is_empty() || numbers.below(12) == 0 {
        return ClauseRef(numbers.below(64) as u32);
    }
    refs[numbers.below(refs.len())]
}

/// A literal that the host has to make true: the one that a clause leaves when all others are false.
fn forced(store: &Store, host: &Host) -> Option<(Lit, Reason)> {
    let open = |lits: &[Lit]| -> Option<Lit> {
        let left: Vec<Lit> = lits.iter().copied().filter(|&lit| host.value(lit) != Some(false)).collect();
        match left[..] {
            [lit] if host.value(lit).is_none() => Some(lit),
            _ => None,
        }
    };
    for pair in store.binary_clauses() {
        if let Some(lit) = open(&pair) {
            let other = if pair[0] == lit { pair[1] } else { pair[0] };
            return Some((lit, Reason::Binary(other)));
        }
    }
    for cref in store.clause_refs() {
        let lits = store.clause_lits(cref).unwrap();
        if let Some(lit) = open(lits) {
            let reason = if lits[0] == lit { Reason::Long(cref) } else { Reason::Unit };
            return Some((lit, reason));
        }
    }
    None
}

#[derive(Default)]
struct Seen {
    refused: BTreeMap<Refusal, usize>,
    done: usize,
    lines: usize,
    collected: usize,
    simplified: usize,
}

fn run(seed: u64, steps: usize, seen: &mut Seen) {
    let numbers = &mut Numbers(seed.wrapping_mul(0x9e37_79b9_7f4a_7c15) + 1);
    let vars = 3 + numbers.below(8);
    let capacities = Capacities { words: 150, clauses: 20, tiers: [12; 4], row: 4, record: 120 };
    let mut store = Store::new(vars, 0.5, capacities).unwrap();
    let mut host = Host::new(vars);
    let mut books = Books::default();
    for step in 0..steps {
        let (store_before, host_before) = (store.clone(), host.clone());
        let heard = match numbers.below(20) {
            0..=4 => {
                let tier = Tier::ALL[numbers.below(4)];
                let glue = if tier == Tier::Irred { numbers.below(20) / 19 } else { numbers.below(70) };
                let lits = numbers.clause(vars, 6);
                store.add_clause(tier, glue, &lits).map(|_| {
                    note(if tier == Tier::Irred { &mut books.original } else { &mut books.redundant }, &lits, 1)
                })
            }
            5 | 6 => {
                let mut lits = numbers.clause(vars, 12);
                if numbers.below(8) != 0 {
                    lits.truncate(2);
                }
                store.add_binary_clause(&lits).map(|_| note(&mut books.original, &lits, 1))
            }
            7 => {
                let cref = some_ref(numbers, &store);
                store.delete_clause(&host, cref)
            }
            8 => {
                let cref = some_ref(numbers, &store);
                store.set_clause_tier(cref, Tier::ALL[numbers.below(4)])
            }
            9 | 10 => {
                let cref = some_ref(numbers, &store);
                store.bump_clause(&host, cref)
            }
            11 => store.decay(),
            12 => store.reduce_locals(&host).map(|_| ()),
            13 => store.reduce_mids(),
            14 => store.collect_garbage(&mut host).map(|due| seen.collected += due as usize),
            15 => store.prove_units(&mut host).map(|_| ()),
            16 => store.unit_simplify(&host).map(|_| seen.simplified += 1),
            17 => {
                // a literal made true at level 0 or above, then what is forced
                if numbers.below(4) == 0 && host.level() < vars {
                    host.new_level();
                }
                host.assign(Lit(numbers.below(2 * vars) as u32), Reason::Unit);
                while let Some((lit, reason)) = forced(&store, &host) {
                    host.assign(lit, reason);
                }
                Ok(())
            }
            18 => {
                host.backtrack(0);
                Ok(())
            }
            _ => {
                if numbers.below(4) == 0 {
                    store.empty_record().map(|_| books.read = 0)
                } else {
                    Ok(())
                }
            }
        };
        match heard {
            Err(refusal) => {
                *seen.refused.entry(refusal).or_insert(0) += 1;
                assert_eq!((&store, &host), (&store_before, &host_before), "seed {seed}, step {step}");
            }
            Ok(()) => seen.done += 1,
        }
        books.read_record(&store);
        books.compare(&store, seed, step);
    }
    seen.lines += books.lines;
}

#[test]
fn clauses_balance() {
    let mut seen = Seen::default();
    for seed in 0..60 {
        run(seed, 150, &mut seen);
    }
    // the sequences are of use only where much was done, struck, collected and simplified
    assert!(seen.done > 3000 && seen.lines > 500 && seen.collected > 20 && seen.simplified > 20, "{} {} {} {}", seen.done, seen.lines, seen.collected, seen.simplified);
    let refused: Vec<u32> = seen.refused.keys().map(|refusal| refusal.number()).collect();
    assert_eq!(refused, [4, 5, 6, 7, 8, 9, 10, 11]);
}
