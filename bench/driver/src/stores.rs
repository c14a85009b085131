//! The stores that are measured, made from a fixed sequence of random numbers: the same for the same
//! number of clauses. Each passes the judging.

/// The state as `kinds::State` lays it out.
#[repr(C)]
#[derive(Clone, Copy, PartialEq, Debug, Default)]
pub struct State {
    pub vars: usize,
    pub words: usize,
    pub clauses: usize,
    pub tiers: [usize; 4],
    pub recorded: usize,
    pub counts: [usize; 4],
    pub garbage: usize,
    pub binary: usize,
    pub bump: f32,
    pub inv_decay: f32,
}

/// The state and every lent buffer.
#[derive(Clone, PartialEq, Default)]
pub struct Store {
    pub state: State,
    pub words: Vec<u32>,
    pub clauses: Vec<u32>,
    pub irred: Vec<u32>,
    pub core: Vec<u32>,
    pub mid: Vec<u32>,
    pub local: Vec<u32>,
    pub rows: Vec<u32>,
    pub counts: Vec<u32>,
    pub rec: Vec<u32>,
    pub values: Vec<u8>,
    pub kinds: Vec<u8>,
    pub reasons: Vec<u32>,
    pub levels: Vec<u32>,
    pub trail: Vec<u32>,
    pub assigned: usize,
    pub level: usize,
}

impl Store {
    pub fn tier(&self, tier: usize) -> &[u32] {
        &[&self.irred, &self.core, &self.mid, &self.local][tier][..self.state.tiers[tier]]
    }

    fn push_tier(&mut self, tier: usize, at: u32) {
        let used = self.state.tiers[tier];
        let list = match tier {
            0 => &mut self.irred,
            1 => &mut self.core,
            2 => &mut self.mid,
            _ => &mut self.local,
        };
        list[used] = at;
        self.state.tiers[tier] += 1;
    }

    pub fn used_clauses(&self) -> &[u32] {
        &self.clauses[..self.state.clauses]
    }

    pub fn lits(&self, at: u32) -> &[u32] {
        let from = at as usize + 3;
        &self.words[from..from + self.words[from - 1] as usize]
    }

    pub fn deleted(&self, at: u32) -> bool {
        self.words[at as usize + 1] >> 2 & 1 == 1
    }

    pub fn room(&self) -> usize {
        self.rows.len() / (2 * self.state.vars)
    }

    pub fn row(&self, code: usize) -> &[u32] {
        let from = code * self.room();
        &self.rows[from..from + self.counts[code] as usize]
    }

    /// Live Locals, each once, in the order of the clause list.
    pub fn locals(&self) -> Vec<u32> {
        let local = |&at: &u32| self.words[at as usize + 1] & 7 == 3;
        self.used_clauses().iter().copied().filter(local).collect()
    }

    fn is_true(&self, code: u32) -> bool {
        self.values[code as usize / 2] as u32 == 1 - code % 2
    }

    fn is_false(&self, code: u32) -> bool {
        self.values[code as usize / 2] as u32 == code % 2
    }

    fn is_open(&self, code: u32) -> bool {
        self.values[code as usize / 2] == 2
    }
}

pub struct Random(u64);

impl Random {
    pub fn below(&mut self, n: usize) -> usize {
        self.0 = self.0.wrapping_add(0x9E37_79B9_7F4A_7C15);
        let mut x = self.0;
        x = (x ^ x >> 30).wrapping_mul(0xBF58_476D_1CE4_E5B9);
        x = (x ^ x >> 27).wrapping_mul(0x94D0_49BB_1331_11EB);
        ((x ^ x >> 31) % n as u64) as usize
    }
}

/// Clauses as a host has them before they are added.
pub struct Clauses {
    pub vars: usize,
    pub tiers: Vec<usize>,
    pub glues: Vec<usize>,
    pub ends: Vec<usize>,
    pub lits: Vec<u32>,
    pub binaries: Vec<[u32; 2]>,
    /// An assignment that satisfies every clause.
    pub solution: Vec<u8>,
}

impl Clauses {
    /// n long clauses of 3 to 12 literals over n/4 variables: 30 of 100 Irred, 15 Core, 15 Mid, 40
    /// Local; and n/10 binary clauses.
    pub fn new(n: usize) -> Clauses {
        let vars = n / 4;
        let mut random = Random(n as u64);
        let solution: Vec<u8> = (0..vars).map(|_| random.below(2) as u8).collect();
        let mut c = Clauses {
            vars,
            tiers: vec![],
            glues: vec![],
            ends: vec![],
            lits: vec![],
            binaries: vec![],
            solution,
        };
        for _ in 0..n {
            let len = 3 + random.below(10);
            let lits = c.some_clause(len, &mut random);
            c.lits.extend(lits);
            c.ends.push(c.lits.len());
            let (tier, glue) = match random.below(100) {
                0..=29 => (0, 0),
                30..=44 => (1, 1 + random.below(2)),
                45..=59 => (2, 3 + random.below(4)),
                _ => (3, 7 + random.below(14)),
            };
            c.tiers.push(tier);
            c.glues.push(glue);
        }
        for _ in 0..n / 10 {
            let lits = c.some_clause(2, &mut random);
            c.binaries.push([lits[0], lits[1]]);
        }
        c
    }

    /// Literals of different variables, one of them true in the solution.
    fn some_clause(&self, len: usize, random: &mut Random) -> Vec<u32> {
        let mut lits: Vec<u32> = vec![];
        while lits.len() < len {
            let code = random.below(2 * self.vars) as u32;
            if lits.iter().all(|&lit| lit / 2 != code / 2) {
                lits.push(code);
            }
        }
        let holds = |&lit: &u32| self.solution[lit as usize / 2] as u32 == 1 - lit % 2;
        if !lits.iter().any(holds) {
            let place = random.below(len);
            lits[place] ^= 1;
        }
        lits
    }

    pub fn len(&self) -> usize {
        self.ends.len()
    }

    pub fn lits(&self, i: usize) -> &[u32] {
        &self.lits[self.from(i)..self.ends[i]]
    }

    pub fn from(&self, i: usize) -> usize {
        if i == 0 {
            0
        } else {
            self.ends[i - 1]
        }
    }

    /// A store that holds nothing, with room for all clauses and more.
    pub fn empty(&self) -> Store {
        let n = self.len();
        let words = self.lits.len() + 3 * n;
        let vars = self.vars;
        let mut longest = vec![0; 2 * vars];
        for &[a, b] in &self.binaries {
            longest[a as usize ^ 1] += 1;
            longest[b as usize ^ 1] += 1;
        }
        let room = longest.iter().max().unwrap() + 8;
        Store {
            state: State {
                vars,
                bump: 1.0,
                inv_decay: 2.0,
                ..State::default()
            },
            words: vec![0; words + words / 8],
            clauses: vec![0; n + n / 8],
            irred: vec![0; 2 * n],
            core: vec![0; 2 * n],
            mid: vec![0; 2 * n],
            local: vec![0; 2 * n],
            rows: vec![0; 2 * vars * room],
            counts: vec![0; 2 * vars],
            rec: vec![0; 3 * words],
            values: vec![2; vars],
            kinds: vec![0; vars],
            reasons: vec![0; vars],
            levels: vec![0; vars],
            trail: vec![0; vars],
            assigned: 0,
            level: 0,
        }
    }

    /// All clauses, the learned ones with different activities; the levels of a solver at work; some
    /// entries of the tier lists repeated, and some stale, of clauses that changed their tier.
    pub fn filled(&self) -> Store {
        let mut k = self.empty();
        let mut random = Random(77);
        for i in 0..self.len() {
            let at = k.state.words;
            let lits = self.lits(i);
            let tier = self.tiers[i];
            let active = if tier == 2 { random.below(2) } else { 0 };
            let activity = if tier == 0 {
                0.0
            } else {
                random.below(100_000) as f32 / 8.0
            };
            k.words[at] = activity.to_bits();
            k.words[at + 1] = (tier | self.glues[i] << 4 | active << 10) as u32;
            k.words[at + 2] = lits.len() as u32;
            k.words[at + 3..at + 3 + lits.len()].copy_from_slice(lits);
            k.clauses[i] = at as u32;
            k.push_tier(tier, at as u32);
            if tier == 2 && random.below(10) == 0 {
                k.push_tier(3, at as u32);
            }
            if tier == 3 && random.below(50) == 0 {
                k.push_tier(3, at as u32);
            }
            k.state.counts[tier] += 1;
            k.state.words += 3 + lits.len();
            k.state.clauses += 1;
        }
        let room = k.room();
        for &[a, b] in &self.binaries {
            for (of, other) in [(a, b), (b, a)] {
                let row = of as usize ^ 1;
                k.rows[row * room + k.counts[row] as usize] = other;
                k.counts[row] += 1;
            }
            k.state.binary += 1;
        }
        let depth = 40.min(self.vars);
        for level in &mut k.levels {
            *level = random.below(depth) as u32;
        }
        k
    }

    /// A trail: decisions, units of binary reasons, and literals with a long reason, whose clauses are
    /// then asserting. At most half of the variables are assigned.
    pub fn with_trail(&self, mut k: Store) -> Store {
        let mut random = Random(5);
        let assign = |k: &mut Store, lit: u32, kind: u8, value: u32| {
            let var = lit as usize / 2;
            k.values[var] = 1 - (lit % 2) as u8;
            k.kinds[var] = kind;
            k.reasons[var] = value;
            k.levels[var] = k.level as u32;
            k.trail[k.assigned] = lit;
            k.assigned += 1;
        };
        for i in 0..k.state.clauses {
            let at = k.clauses[i];
            let lits = k.lits(at).to_vec();
            let wanted = lits.len() <= 6
                && !k.deleted(at)
                && k.is_open(lits[0])
                && lits[1..].iter().all(|&lit| !k.is_true(lit));
            if !wanted || 2 * k.assigned > self.vars {
                continue;
            }
            for &lit in &lits[1..] {
                if k.is_open(lit) {
                    k.level += 1;
                    assign(&mut k, lit ^ 1, 1, 0);
                    let other = random.below(2 * self.vars) as u32;
                    if k.is_open(other) && lits.iter().all(|&own| own / 2 != other / 2) {
                        assign(&mut k, other, 2, lit);
                    }
                }
            }
            assign(&mut k, lits[0], 3, at);
        }
        k
    }

    /// Some clauses deleted, `of` 100, none that is asserting.
    pub fn with_deleted(&self, mut k: Store, of: usize) -> Store {
        let mut random = Random(9);
        for i in 0..k.state.clauses {
            let at = k.clauses[i];
            let first = k.lits(at)[0];
            let var = first as usize / 2;
            let asserting = k.is_true(first) && k.kinds[var] == 3 && k.reasons[var] == at;
            if random.below(100) < of && !asserting {
                let tier = k.words[at as usize + 1] as usize & 3;
                k.words[at as usize + 1] |= 4;
                k.state.counts[tier] -= 1;
                k.state.garbage += 3 + k.words[at as usize + 2] as usize;
            }
        }
        k
    }

    /// One variable of twenty known, and what follows from that: removed units, as `prove_units`
    /// leaves them.
    pub fn with_units(&self, mut k: Store) -> Store {
        let mut random = Random(3);
        let mut known: Vec<u32> = vec![];
        for (var, &value) in self.solution.iter().enumerate() {
            if random.below(20) == 0 {
                known.push(2 * var as u32 + 1 - value as u32);
            }
        }
        loop {
            for &lit in &known {
                let var = lit as usize / 2;
                k.values[var] = 1 - (lit % 2) as u8;
                k.kinds[var] = 4;
            }
            known.clear();
            let binaries = self.binaries.iter().map(|lits| &lits[..]);
            let live = k.used_clauses().iter().filter(|&&at| !k.deleted(at));
            let long = live.map(|&at| k.lits(at));
            for lits in binaries.chain(long) {
                let open = lits.iter().filter(|&&lit| k.is_open(lit)).count();
                if open < 2 && !lits.iter().any(|&lit| k.is_true(lit)) {
                    let left = lits.iter().find(|&&lit| !k.is_false(lit));
                    known.push(*left.expect("the solution satisfies every clause"));
                }
            }
            if known.is_empty() {
                return k;
            }
        }
    }
}
