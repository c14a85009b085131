//! A toy search over a cabinet's option rules, driven through the store: it holds the rules and what is learned, and does
//! the simplifying, reducing and collecting. Prints the same on every machine.
//!
//! A decision is a literal with reason unit, as in the source. There are no watch lists here: every clause is read anew.

use mihorempo::{Capacities, ClauseRef, Host, Kind, Lit, Reason, Refusal, Store, Tier, Var};

/// Modules of a control cabinet, each in one of four slots. The fourth slot is there in the tall cabinet only.
const MODULES: [&str; 5] = ["drive", "meter", "relay", "radio", "cooler"];
const SLOTS: usize = 4;

/// The option of a module: the order asks for it.
fn wanted(module: usize) -> Lit {
    Lit::positive(Var(module as u32))
}

/// The option of a module in a slot.
fn sits(module: usize, slot: usize) -> Lit {
    Lit::positive(Var((MODULES.len() + module * SLOTS + slot) as u32))
}

/// The tall cabinet.
fn tall() -> Lit {
    Lit::positive(Var((MODULES.len() * (SLOTS + 1)) as u32))
}

const VARS: usize = MODULES.len() * (SLOTS + 1) + 1;

fn module(name: &str) -> usize {
    MODULES.iter().position(|&known| known == name).expect("a known module")
}

/// The maker's rules: of each, at least one literal holds.
fn rules() -> Vec<Vec<Lit>> {
    let mut rules = Vec::new();
    for m in 0..MODULES.len() {
        // a module that is ordered sits somewhere
        let mut rule = vec![!wanted(m)];
        rule.extend((0..SLOTS).map(|slot| sits(m, slot)));
        rules.push(rule);
        rules.push(vec![!sits(m, SLOTS - 1), tall()]);
        for other in 0..m {
            rules.extend((0..SLOTS).map(|slot| vec![!sits(m, slot), !sits(other, slot)]));
        }
    }
    let (drive, meter, relay, radio, cooler) = (module("drive"), module("meter"), module("relay"), module("radio"), module("cooler"));
    // a drive beside a radio disturbs it, unless the cabinet is tall
    for slot in 1..SLOTS {
        rules.push(vec![!sits(drive, slot), !sits(radio, slot - 1), tall()]);
        rules.push(vec![!sits(drive, slot - 1), !sits(radio, slot), tall()]);
    }
    // a drive and a relay together ask for a cooler
    rules.push(vec![!wanted(drive), !wanted(relay), wanted(cooler)]);
    // a meter is read from one of the upper slots
    rules.push(vec![!wanted(meter), sits(meter, 0), sits(meter, 1)]);
    rules
}

/// A clause under an assignment.
enum Standing {
    Satisfied,
    Open,
    Forces(Lit),
    False,
}

fn standing(host: &Host, lits: &[Lit]) -> Standing {
    let mut left = None;
    let mut more = false;
    for &lit in lits {
        match host.value(lit) {
            Some(true) => return Standing::Satisfied,
            Some(false) => {}
            None if left.is_none() => left = Some(lit),
            None => more = true,
        }
    }
    match left {
        None => Standing::False,
        Some(_) if more => Standing::Open,
        Some(lit) => Standing::Forces(lit),
    }
}

struct Search {
    store: Store,
    host: Host,
    decisions: Vec<Lit>,
    decided: usize,
    conflicts: usize,
    lines: [usize; 7],
    collections: usize,
}

impl Search {
    fn new() -> Result<Search, Refusal> {
        let mut search = Search {
            store: Store::new(VARS, 0.75, Capacities::default())?,
            host: Host::new(VARS),
            decisions: Vec::new(),
            decided: 0,
            conflicts: 0,
            lines: [0; 7],
            collections: 0,
        };
        for rule in rules() {
            if rule.len() == 2 {
                search.store.add_binary_clause(&rule)?;
            } else {
                search.store.add_clause(Tier::Irred, 0, &rule)?;
            }
        }
        Ok(search)
    }

    /// Makes true what clauses force; says whether no clause is false. A long clause that is false is bumped.
    fn propagate(&mut self) -> Result<bool, Refusal> {
        'again: loop {
            for pair in self.store.binary_clauses() {
                match standing(&self.host, &pair) {
                    Standing::False => return Ok(false),
                    Standing::Forces(lit) => {
                        let other = if pair[0] == lit { pair[1] } else { pair[0] };
                        self.host.assign(lit, Reason::Binary(other));
                        continue 'again;
                    }
                    Standing::Satisfied | Standing::Open => {}
                }
            }
            let crefs: Vec<ClauseRef> = self.store.clause_refs().collect();
            for cref in crefs {
                let lits = self.store.clause_lits(cref)?;
                match standing(&self.host, lits) {
                    Standing::False => {
                        self.store.bump_clause(&self.host, cref)?;
                        return Ok(false);
                    }
                    Standing::Forces(lit) => {
                        // a long reason has its literal first; elsewhere the literal stands as a unit
                        let reason = if lits[0] == lit { Reason::Long(cref) } else { Reason::Unit };
                        self.host.assign(lit, reason);
                        continue 'again;
                    }
                    Standing::Satisfied | Standing::Open => {}
                }
            }
            return Ok(true);
        }
    }

    /// Decides a literal at a new level.
    fn decide(&mut self, lit: Lit) {
        self.decided += 1;
        self.host.new_level();
        self.host.assign(lit, Reason::Unit);
        self.decisions.push(lit);
    }

    /// Learns that the decisions don't go together, and takes the last one back: the clause then forces its opposite.
    fn learn(&mut self) -> Result<(), Refusal> {
        self.conflicts += 1;
        let clause: Vec<Lit> = self.decisions.iter().rev().map(|&lit| !lit).collect();
        if clause.len() >= 3 {
            let assessed = self.store.assess_learned_clause(&self.host, &clause)?;
            self.store.add_clause(assessed.tier, assessed.glue as usize, &clause)?;
        } else if clause.len() == 2 {
            self.store.add_binary_clause(&clause)?;
        }
        self.decisions.pop();
        self.host.backtrack(self.decisions.len());
        if clause.len() == 1 {
            self.host.assign(clause[0], Reason::Unit);
        }
        self.store.decay()
    }

    /// A cabinet for the wishes, or nothing. The wishes are decided first, then every free option, first without it.
    fn solve(&mut self, wishes: &[Lit]) -> Result<Option<Vec<Lit>>, Refusal> {
        loop {
            if !self.propagate()? {
                if self.decisions.is_empty() {
                    return Ok(None);
                }
                self.learn()?;
                continue;
            }
            if wishes.iter().any(|&wish| self.host.value(wish) == Some(false)) {
                return Ok(None);
            }
            let free = self.store.variables().map(Lit::negative);
            let next = wishes.iter().copied().chain(free).find(|&lit| self.host.value(lit).is_none());
            match next {
                Some(lit) => self.decide(lit),
                None => {
                    let all = self.store.variables().map(Lit::positive);
                    return Ok(Some(all.filter(|&lit| self.host.value(lit) == Some(true)).collect()));
                }
            }
        }
    }

    /// Back at level 0: proves the units, simplifies, reduces, collects, and reads and empties the record.
    fn clean(&mut self) -> Result<(), Refusal> {
        self.decisions.clear();
        self.host.backtrack(0);
        if self.propagate()? && self.store.prove_units(&mut self.host)? {
            self.store.unit_simplify(&self.host)?;
        }
        self.store.reduce_mids()?;
        self.store.reduce_locals(&self.host)?;
        if self.store.collect_garbage(&mut self.host)? {
            self.collections += 1;
        }
        for line in self.store.record() {
            self.lines[line.kind as usize] += 1;
        }
        self.store.empty_record()
    }

    /// Answers an order.
    fn order(&mut self, names: &[&str]) -> Result<(), Refusal> {
        let wishes: Vec<Lit> = (0..MODULES.len()).map(|m| if names.contains(&MODULES[m]) { wanted(m) } else { !wanted(m) }).collect();
        match self.solve(&wishes)? {
            None => println!("{}: cannot be built", names.join(" ")),
            Some(options) => {
                let cabinet = if options.contains(&tall()) { "tall" } else { "low" };
                let slots: Vec<&str> = (0..SLOTS)
                    .map(|slot| (0..MODULES.len()).find(|&m| options.contains(&sits(m, slot))).map_or("-", |m| MODULES[m]))
                    .collect();
                println!("{}: {} cabinet, {}", names.join(" "), cabinet, slots.join(" "));
            }
        }
        self.clean()
    }

    fn summary(&self) {
        let state = self.store.state();
        println!(
            "decisions={} conflicts={} units={} entered={} struck={}+{}+{} collections={} binary={} counts={:?} used={} garbage={}",
            self.decided,
            self.conflicts,
            self.lines[Kind::Unit as usize],
            self.lines[Kind::EnteredOriginal as usize] + self.lines[Kind::EnteredRedundant as usize],
            self.lines[Kind::StruckRedundant as usize],
            self.lines[Kind::StruckSatisfied as usize],
            self.lines[Kind::StruckSimplified as usize],
            self.collections,
            state.binary,
            state.counts,
            state.words,
            state.garbage
        );
    }
}

fn main() -> Result<(), Refusal> {
    let orders: [&[&str]; 6] = [
        &["drive", "radio"],
        &["meter", "relay", "radio"],
        &["drive", "relay"],
        &["drive", "relay", "cooler"],
        &["drive", "meter", "relay", "cooler"],
        &["drive", "meter", "relay", "radio", "cooler"],
    ];
    let mut search = Search::new()?;
    search.summary();
    for order in orders {
        search.order(order)?;
    }
    search.summary();

    println!("the tall cabinet is withdrawn");
    search.host.assign(!tall(), Reason::Unit);
    search.clean()?;
    search.summary();
    for order in orders {
        search.order(order)?;
    }
    search.summary();
    Ok(())
}
