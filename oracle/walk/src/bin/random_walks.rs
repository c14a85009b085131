//! Random walks, the same for the same seed.
//!
//!     random_walks SEED              prints the walk of this seed
//!     random_walks tally SEED COUNT  runs COUNT walks from SEED on and prints, for each op, how
//!                                    often it changed something and how often it gave each answer
//!
//! A walk is written while it is carried out, so that calls can be chosen that will be accepted.
use std::collections::BTreeMap;
use std::io::Write;

use oracle_walk::lent::{Lent, CLAUSES, LIST, RECORD, ROWS, TRAIL, WORDS};
use oracle_walk::walk::{commas, Walk};

const INPUT_BYTES: usize = 60_000;
const OUTPUT_BYTES: usize = 240_000;
/// Bits of the largest f32 below the rescale limit.
const BELOW_LIMIT: u32 = 2_105_540_606;

struct Random(u64);

impl Random {
    fn next(&mut self) -> u64 {
        self.0 = self.0.wrapping_add(0x9E37_79B9_7F4A_7C15);
        let mut z = self.0;
        z = (z ^ (z >> 30)).wrapping_mul(0xBF58_476D_1CE4_E5B9);
        z = (z ^ (z >> 27)).wrapping_mul(0x94D0_49BB_1331_11EB);
        z ^ (z >> 31)
    }

    /// Below `bound`, which is above 0.
    fn below(&mut self, bound: usize) -> usize {
        (self.next() % bound as u64) as usize
    }

    /// From `low` to `high`, both included.
    fn within(&mut self, low: usize, high: usize) -> usize {
        low + self.below(high - low + 1)
    }

    fn percent(&mut self, chance: usize) -> bool {
        self.below(100) < chance
    }

    fn pick<T: Copy>(&mut self, from: &[T]) -> Option<T> {
        if from.is_empty() {
            None
        } else {
            Some(from[self.below(from.len())])
        }
    }

    fn shuffle<T>(&mut self, list: &mut [T]) {
        for place in (1..list.len()).rev() {
            let other = self.below(place + 1);
            list.swap(place, other);
        }
    }
}

/// What a walk is after.
#[derive(Copy, Clone, PartialEq, Debug)]
enum Kind {
    Small,
    Middle,
    Tight,
    Wide,
    Damaged,
    Floats,
    Spelling,
    Many,
    Simplifying,
}

const KINDS: [Kind; 12] = [
    Kind::Small,
    Kind::Middle,
    Kind::Tight,
    Kind::Simplifying,
    Kind::Damaged,
    Kind::Floats,
    Kind::Wide,
    Kind::Many,
    Kind::Tight,
    Kind::Damaged,
    Kind::Simplifying,
    Kind::Spelling,
];

struct Writer {
    random: Random,
    kind: Kind,
    walk: Walk,
    lines: Vec<Vec<u8>>,
    /// Whether the last line has its end.
    ended: bool,
    input: usize,
    output: usize,
    tally: BTreeMap<(&'static str, u32), usize>,
    /// Counted too: accepted calls of an op that changed something, if asked for.
    changing: Option<BTreeMap<&'static str, usize>>,
}

impl Writer {
    fn new(seed: u64) -> Writer {
        Writer {
            random: Random(seed.wrapping_mul(0x2545_F491_4F6C_DD1D) ^ 0x6D69_686F),
            kind: KINDS[(seed % KINDS.len() as u64) as usize],
            walk: Walk::new(),
            lines: vec![],
            ended: true,
            input: 0,
            output: 0,
            tally: BTreeMap::new(),
            changing: None,
        }
    }

    fn lent(&self) -> &Lent {
        &self.walk.lent
    }

    fn vars(&self) -> usize {
        self.walk.lent.state.vars.clamp(1, 1024)
    }

    /// Writes a line and carries it out; the answer.
    fn say(&mut self, line: String) -> u32 {
        self.say_bytes(line.into_bytes())
    }

    fn say_bytes(&mut self, line: Vec<u8>) -> u32 {
        self.input += line.len() + 1;
        let before = self.changing.as_ref().map(|_| self.walk.lent.clone());
        self.output += self.walk.line(&line).len();
        if let (Some(changing), Some(before)) = (&mut self.changing, before) {
            if before != self.walk.lent {
                *changing.entry(self.walk.last.0).or_default() += 1;
            }
        }
        self.lines.push(line);
        *self.tally.entry(self.walk.last).or_default() += 1;
        self.walk.last.1
    }

    fn full(&self) -> bool {
        self.input > INPUT_BYTES - 6_000 || self.output > OUTPUT_BYTES - 20_000
    }

    /// Looks at what stands now; how much of it, by its size.
    fn look(&mut self) {
        let lent = self.lent();
        let size = lent.state.words.min(WORDS)
            + lent.state.record.min(RECORD)
            + 4 * lent.lent_vars()
            + lent
                .state
                .lists
                .iter()
                .map(|&used| used.min(LIST))
                .sum::<usize>();
        let chance = if size < 200 {
            60
        } else if size < 1_000 {
            25
        } else {
            5
        };
        if self.random.percent(chance) {
            self.say("op=dump".into());
        }
        if self.random.percent(35) {
            self.say("op=tails".into());
        }
        if self.random.percent(chance / 4) {
            self.say("op=show".into());
        }
    }

    fn live(&self) -> Vec<u32> {
        let lent = self.lent();
        let sound = lent
            .list(CLAUSES)
            .iter()
            .all(|&at| at as usize + 3 + 1 < WORDS);
        if sound {
            lent.live()
        } else {
            vec![]
        }
    }

    /// A clause's literals, cut where the words end.
    fn literals(&self, at: u32) -> Vec<u32> {
        let words = &self.lent().words;
        let from = (at as usize + 3).min(WORDS);
        let length = words[from - 1] as usize;
        words[from..WORDS.min(from + length.min(2_000))].to_vec()
    }

    fn literal_in_range(&self, code: u32) -> bool {
        (code as usize) < 2 * self.vars()
    }

    /// Mostly a live clause.
    fn reference(&mut self) -> u32 {
        let live = self.live();
        let chance = self.random.below(100);
        if chance < 88 {
            if let Some(at) = self.random.pick(&live) {
                return at;
            }
        }
        if chance < 94 {
            let list = self.lent().list(self.random_list()).to_vec();
            if let Some(at) = self.random.pick(&list) {
                return at;
            }
        }
        let near = self.random.pick(&live).unwrap_or(0);
        let used = self.lent().state.words as u32;
        let random = self.random.next() as u32;
        self.random
            .pick(&[
                near.wrapping_add(1),
                near.wrapping_sub(1),
                used,
                used.wrapping_add(1),
                0,
                u32::MAX,
                random,
            ])
            .unwrap()
    }

    fn random_list(&self) -> usize {
        (self.lines.len() * 7 + 3) % 5
    }

    /// Different variables, mostly.
    fn clause(&mut self, least: usize, most: usize) -> Vec<u32> {
        let vars = self.vars();
        let length = self.random.within(least, most.max(least));
        let mut all: Vec<u32> = if vars <= 64 {
            let mut all: Vec<u32> = (0..vars as u32).collect();
            self.random.shuffle(&mut all);
            all
        } else {
            let first = self.random.below(vars);
            let step = self.random.within(1, 7);
            (0..vars)
                .map(|place| ((first + place * step) % vars) as u32)
                .take(vars / step)
                .collect()
        };
        all.truncate(length);
        let mut literals: Vec<u32> = all
            .into_iter()
            .map(|var| 2 * var + self.random.below(2) as u32)
            .collect();
        if self.random.percent(4) && !literals.is_empty() {
            // Something wrong about it.
            let place = self.random.below(literals.len());
            match self.random.below(5) {
                0 => literals[place] = 2 * vars as u32,
                1 => literals[place] = literals[0] ^ self.random.below(2) as u32,
                2 => literals[place] = u32::MAX,
                3 => literals.truncate(2),
                _ => literals.push(literals[place]),
            }
        }
        literals
    }

    fn long(&mut self) {
        let vars = self.vars();
        let most = match self.kind {
            Kind::Wide if self.random.percent(15) => vars,
            Kind::Wide => 20.min(vars),
            _ if self.random.percent(10) => vars.min(40),
            _ => vars.min(7),
        };
        let literals = self.clause(3, most);
        let mut tier = self.random.pick(&[0, 0, 1, 2, 2, 3, 3, 3, 3]).unwrap();
        let mut glue = if tier == 0 {
            0
        } else {
            let wide = self.random.below(70);
            let narrow = self.random.below(10);
            self.random.pick(&[narrow, narrow, wide, 63, 64]).unwrap()
        };
        if self.random.percent(3) {
            tier = self.random.pick(&[0, 4, 5]).unwrap();
        }
        if self.random.percent(2) {
            glue = self.random.next() as u32 as usize;
        }
        self.say(format!(
            "op=long tier={} glue={} lits={}",
            tier,
            glue,
            commas(&literals)
        ));
    }

    fn binary(&mut self) {
        let literals = self.clause(2, 2);
        self.say(format!("op=binary lits={}", commas(&literals)));
    }

    fn unassigned(&self) -> Vec<u32> {
        let lent = self.lent();
        (0..self.vars() as u32)
            .filter(|&var| lent.values[var as usize] == 2)
            .collect()
    }

    /// Puts a literal true on the trail so that the host's side goes on passing.
    fn put(&mut self, literal: u32) {
        let level = self.lent().level;
        let lower = self.random.below(level as usize + 1) as u32;
        let level = if self.random.percent(80) {
            level
        } else {
            lower
        };
        let falses: Vec<u32> = (0..2 * self.vars() as u32)
            .filter(|&code| self.lent().is_false(code))
            .collect();
        if level == self.lent().level && self.random.percent(40) {
            self.say(format!("op=unit lit={}", literal));
        } else if let (true, Some(other)) = (self.random.percent(50), self.random.pick(&falses)) {
            self.say(format!(
                "op=assign lit={} kind=2 value={} level={}",
                literal, other, level
            ));
        } else {
            let value = if self.random.percent(90) { 0 } else { 9 };
            self.say(format!(
                "op=assign lit={} kind=1 value={} level={}",
                literal, value, level
            ));
        }
    }

    fn assign_some(&mut self) {
        for _ in 0..self.random.within(1, 3) {
            let free = self.unassigned();
            if let Some(var) = self.random.pick(&free) {
                let literal = 2 * var + self.random.below(2) as u32;
                self.put(literal);
            }
        }
    }

    /// Makes a live clause asserting: its other literals false, then the first one true by it.
    fn make_asserting(&mut self) {
        let live = self.live();
        let mut able = vec![];
        for at in live {
            let literals = self.literals(at);
            if literals.len() >= 3
                && literals.iter().all(|&code| self.literal_in_range(code))
                && self.lent().is_unassigned(literals[0])
                && !literals[1..].iter().any(|&code| self.lent().is_true(code))
                && literals.len() < 40
            {
                able.push(at);
            }
        }
        let Some(at) = self.random.pick(&able) else {
            return;
        };
        let literals = self.literals(at);
        for &other in &literals[1..] {
            if self.lent().is_unassigned(other) {
                self.put(other ^ 1);
            }
        }
        let level = self.lent().level;
        self.say(format!(
            "op=assign lit={} kind=3 value={} level={}",
            literals[0], at, level
        ));
    }

    /// All binary and live long clauses, with the reference of a long one.
    fn all_clauses(&self) -> Vec<(Option<u32>, Vec<u32>)> {
        let mut all: Vec<(Option<u32>, Vec<u32>)> = self
            .live()
            .into_iter()
            .map(|at| (Some(at), self.literals(at)))
            .collect();
        if self.lent().lent_vars() == self.lent().state.vars {
            for code in 0..2 * self.vars() {
                for &other in self.lent().row(code) {
                    all.push((None, vec![code as u32 ^ 1, other]));
                }
            }
        }
        all.retain(|(_, literals)| literals.iter().all(|&code| self.literal_in_range(code)));
        all
    }

    /// At level 0, one more literal and all that follows from it.
    fn propagate_at_0(&mut self) {
        if self.lent().level != 0 {
            self.say("op=level level=0".into());
        }
        let free = self.unassigned();
        let Some(var) = self.random.pick(&free) else {
            return;
        };
        let clauses = self.all_clauses();
        // Try it out on a copy of the values first, so that no clause is left without a literal.
        let mut values = self.lent().values.clone();
        let mut steps = vec![(2 * var + self.random.below(2) as u32, None)];
        values[var as usize] = (steps[0].0 & 1 ^ 1) as u8;
        let is_true = |values: &[u8], code: u32| values[code as usize / 2] as u32 == (code & 1 ^ 1);
        let is_free = |values: &[u8], code: u32| values[code as usize / 2] == 2;
        loop {
            let mut more = false;
            for (at, literals) in &clauses {
                if literals.iter().any(|&code| is_true(&values, code)) {
                    continue;
                }
                let open: Vec<u32> = literals
                    .iter()
                    .copied()
                    .filter(|&code| is_free(&values, code))
                    .collect();
                if open.is_empty() {
                    // Left as it is now and then: simplifying answers 10.
                    if self.random.percent(90) {
                        return;
                    }
                }
                if let [one] = open[..] {
                    values[one as usize / 2] = (one & 1 ^ 1) as u8;
                    steps.push((one, Some((*at, literals.clone()))));
                    more = true;
                }
            }
            if !more {
                break;
            }
        }
        for (literal, reason) in steps {
            match reason {
                Some((Some(at), literals)) if literals[0] == literal => {
                    self.say(format!(
                        "op=assign lit={} kind=3 value={} level=0",
                        literal, at
                    ));
                }
                Some((None, literals)) => {
                    let other = if literals[0] == literal {
                        literals[1]
                    } else {
                        literals[0]
                    };
                    self.say(format!(
                        "op=assign lit={} kind=2 value={} level=0",
                        literal, other
                    ));
                }
                _ => {
                    self.say(format!("op=unit lit={}", literal));
                }
            }
        }
    }

    fn undo_some(&mut self) {
        let most = self.lent().trail_used.min(TRAIL);
        let many = if self.random.percent(30) {
            most
        } else {
            self.random.below(4).min(most)
        };
        for _ in 0..many.max(1) {
            self.say("op=undo".into());
        }
        let lent = self.lent();
        let deepest = lent
            .used_trail()
            .iter()
            .filter_map(|&code| lent.levels.get(code as usize / 2).copied())
            .max()
            .unwrap_or(0);
        if deepest < lent.level {
            self.say(format!("op=level level={}", deepest));
        }
    }

    /// Back to level 0 with an empty trail, in the host's way.
    fn back_to_0(&mut self) {
        while self.lent().trail_used > 0 && self.lent().trail_used <= TRAIL {
            if self.say("op=undo".into()) != 0 {
                return;
            }
        }
        if self.lent().level != 0 {
            self.say("op=level level=0".into());
        }
    }

    fn depths(&mut self) {
        let vars = self.vars();
        let many = self.random.within(1, 12.min(vars));
        for _ in 0..many {
            let var = self.random.below(vars);
            let assigned = self.lent().values[var] != 2;
            let most = if assigned {
                self.lent().level as usize
            } else {
                vars
            };
            let level = if self.random.percent(2) {
                most + 1
            } else {
                self.random.below(most.min(14) + 1)
            };
            self.say(format!("op=depth var={} level={}", var, level));
        }
    }

    fn simplify(&mut self) {
        if self.random.percent(90) {
            if self.lent().level != 0 {
                self.back_to_0();
            }
            for _ in 0..self.random.below(3) {
                self.propagate_at_0();
            }
            self.say("op=units".into());
            self.look();
        }
        self.say("op=simplify".into());
    }

    /// One of the store's calls, chosen to be accepted most of the time.
    fn call(&mut self) {
        let choice = self.random.below(100);
        match choice {
            0..=15 => self.long(),
            16..=23 => self.binary(),
            24..=29 => {
                let at = self.reference();
                let tier = self.random.pick(&[1, 2, 2, 3, 3, 0, 4]).unwrap();
                self.say(format!("op=tier ref={} tier={}", at, tier));
            }
            30..=35 => {
                let at = self.reference();
                self.say(format!("op=delete ref={}", at));
            }
            36..=45 => {
                let at = self.reference();
                self.say(format!("op=bump ref={}", at));
            }
            46..=50 => {
                self.say("op=decay".into());
            }
            51..=56 => {
                self.say("op=locals".into());
            }
            57..=61 => {
                self.say("op=mids".into());
            }
            62..=68 => {
                self.say("op=collect".into());
            }
            69..=72 => {
                self.say("op=units".into());
            }
            73..=80 => self.simplify(),
            81..=82 => {
                self.say("op=empty".into());
            }
            83..=86 => {
                let most = self.vars().min(12);
                let literals = self.clause(1, most);
                self.say(format!("op=assess lits={}", commas(&literals)));
            }
            87..=90 => {
                let literal = self.random.below(2 * self.vars() + 1);
                self.say(format!("op=implied lit={}", literal));
            }
            91..=94 => {
                let at = self.reference();
                self.say(format!("op=literals ref={}", at));
            }
            _ => {
                let at = self.reference() as usize % (WORDS + 2);
                let length = self.random.within(0, 12);
                let to = if self.random.percent(95) {
                    (at + length).min(WORDS)
                } else {
                    at.wrapping_sub(1) as u32 as usize
                };
                self.say(format!("op=view from={} to={}", at, to));
            }
        }
    }

    /// What the host may say and a store call then refuses, or what is refused at once.
    fn host_odd(&mut self) {
        let vars = self.vars();
        let literal = self.random.below(2 * vars + 2);
        let wild = self.random.next() as u32;
        match self.random.below(8) {
            0 | 1 => {
                let kind = self
                    .random
                    .pick(&[0, 1, 2, 3, 4, 5, 255, 256, wild])
                    .unwrap();
                let value = self.reference();
                let level = self.random.below(vars + 2);
                let line = format!(
                    "op=assign lit={} kind={} value={} level={}",
                    literal, kind, value, level
                );
                if self.say(line) == 0 {
                    self.probe();
                    self.say("op=undo".into());
                }
            }
            2 => {
                let literal = self.random.pick(&[literal as u32, wild]).unwrap();
                self.say(format!("op=unit lit={}", literal));
            }
            3 => {
                let var = self.random.pick(&[vars as u32, wild, 1_024]).unwrap();
                self.say(format!("op=depth var={} level=0", var));
            }
            4 => {
                let old = self.lent().level;
                self.say(format!("op=level level={}", wild));
                self.probe();
                self.say(format!("op=level level={}", old));
            }
            5 => {
                let lists = [LIST; 5];
                let words = WORDS + self.random.below(2);
                let rows = self.lent().rooms.rows;
                if words > WORDS {
                    self.room(words, lists, rows, RECORD);
                }
            }
            6 => {
                self.say("op=answers on=0".into());
                self.call();
                self.say("op=answers on=1".into());
            }
            _ => {
                let vars = self.random.pick(&[0, 1_025, 65_536, 65_537, wild]).unwrap();
                self.say(format!("op=start vars={}", vars));
            }
        }
    }

    fn host(&mut self) {
        if self.random.percent(6) {
            return self.host_odd();
        }
        match self.random.below(100) {
            0..=29 => self.assign_some(),
            30..=54 => self.make_asserting(),
            55..=69 => {
                let vars = self.vars() as u32;
                let level = self.lent().level;
                if level < vars {
                    self.say(format!("op=level level={}", level + 1));
                }
            }
            70..=84 => self.undo_some(),
            _ => self.depths(),
        }
    }

    /// Numbers that lie near what stands in a place.
    fn near(&mut self, old: u32) -> u32 {
        let vars = self.lent().state.vars as u32;
        let used = self.lent().state.words as u32;
        let bit = 1u32 << self.random.below(12);
        let high = 1u32 << self.random.below(32);
        let random = self.random.next() as u32;
        let live = self.live();
        let at = self.random.pick(&live).unwrap_or(0);
        let other = self.random.pick(&live).unwrap_or(3);
        self.random
            .pick(&[
                old.wrapping_add(1),
                old.wrapping_sub(1),
                old ^ bit,
                old ^ high,
                old ^ 1,
                0,
                1,
                2,
                3,
                4,
                vars,
                2 * (vars % 70_000),
                (2 * (vars % 70_000)).wrapping_sub(1),
                used,
                used.wrapping_sub(3),
                at,
                at.wrapping_add(1),
                other,
                u32::MAX,
                2_147_483_648,
                2_105_540_607,
                2_105_540_608,
                2_143_289_344,
                random,
                random % 64,
            ])
            .unwrap()
    }

    fn poke(&mut self, buffer: usize, at: usize, value: u32) -> u32 {
        self.say(format!(
            "op=poke buffer={} at={} value={}",
            buffer, at, value
        ))
    }

    /// What stands in a place of a buffer.
    fn standing(&self, buffer: usize, at: usize) -> u32 {
        let lent = self.lent();
        let state = &lent.state;
        let word = |buffer: &[u32]| buffer.get(at).copied().unwrap_or(0);
        match buffer {
            0 => word(&lent.words),
            1..=5 => word(&lent.lists[buffer - 1]),
            6 => word(&lent.rows),
            7 => word(&lent.row_counts),
            8 => word(&lent.record),
            9 => lent.values.get(at).copied().unwrap_or(0) as u32,
            10 => lent.kinds.get(at).copied().unwrap_or(0) as u32,
            11 => word(&lent.reasons),
            12 => word(&lent.levels),
            13 => word(&lent.trail),
            _ => match at {
                0 => state.vars as u32,
                1 => state.words as u32,
                2..=6 => state.lists[at - 2] as u32,
                7 => state.record as u32,
                8..=11 => state.counts[at - 8] as u32,
                12 => state.garbage as u32,
                13 => state.binary as u32,
                14 => state.bump,
                15 => state.inverse,
                _ => lent.trail_used as u32,
            },
        }
    }

    /// A place in or just behind a buffer's used part.
    fn place(&mut self, buffer: usize) -> usize {
        let lent = self.lent();
        let vars = lent.lent_vars();
        let used = match buffer {
            0 => lent.state.words,
            1..=5 => lent.state.lists[buffer - 1],
            6 => {
                let filled: Vec<usize> = (0..2 * vars)
                    .filter(|&code| lent.row_counts[code] > 0)
                    .collect();
                let room = lent.row_room();
                if let Some(code) = self.random.pick(&filled) {
                    let count = self.lent().row_counts[code] as usize;
                    return code * room + self.random.below(count.min(room) + 1);
                }
                0
            }
            7 => 2 * vars - 1,
            8 => lent.state.record,
            9..=12 => vars - 1,
            13 => lent.trail_used,
            _ => 16,
        };
        let header = self.live();
        if buffer == 0 && self.random.percent(50) {
            if let Some(at) = self.random.pick(&header) {
                return at as usize + self.random.below(4);
            }
        }
        self.random.below(used.min(20_000) + 1)
    }

    /// Breaks something, makes some calls, and mostly mends it.
    fn damage(&mut self) {
        let mut mending = vec![];
        let many = self.random.pick(&[1, 1, 1, 2, 3]).unwrap();
        for _ in 0..many {
            let buffer = self
                .random
                .pick(&[
                    0, 0, 0, 1, 2, 3, 4, 5, 5, 6, 6, 7, 7, 8, 9, 9, 10, 10, 11, 11, 12, 13, 13, 14,
                    14, 14, 14,
                ])
                .unwrap();
            let at = self.place(buffer);
            let old = self.standing(buffer, at);
            let mut value = self.near(old);
            if buffer == 9 && self.random.percent(80) {
                value = self.random.below(4) as u32;
            }
            if buffer == 10 && self.random.percent(80) {
                value = self.random.below(6) as u32;
            }
            if self.poke(buffer, at, value) == 0 {
                mending.push((buffer, at, old));
            }
        }
        for _ in 0..self.random.within(1, 4) {
            self.call();
        }
        if self.random.percent(20) {
            self.look();
        }
        if self.random.percent(93) {
            for (buffer, at, old) in mending.into_iter().rev() {
                self.poke(buffer, at, old);
            }
        }
    }

    /// Pokes and remembers what stood there.
    fn change(
        &mut self,
        mending: &mut Vec<(usize, usize, u32)>,
        buffer: usize,
        at: usize,
        value: u32,
    ) {
        let old = self.standing(buffer, at);
        if self.poke(buffer, at, value) == 0 {
            mending.push((buffer, at, old));
        }
    }

    /// Calls that between them are lent everything.
    fn probe(&mut self) {
        for _ in 0..self.random.within(2, 4) {
            let at = self.reference();
            let literal = self.random.below(2 * self.vars());
            let line = match self.random.below(12) {
                0 => "op=collect".into(),
                1 => "op=decay".into(),
                2 => "op=mids".into(),
                3 => "op=locals".into(),
                4 => "op=units".into(),
                5 | 6 => "op=simplify".into(),
                7 => format!("op=bump ref={}", at),
                8 => format!("op=delete ref={}", at),
                9 => format!("op=literals ref={}", at),
                10 => format!("op=implied lit={}", literal),
                _ => "op=empty".into(),
            };
            let copy = self.walk.lent.clone();
            // Called on a copy first: what it would change stays, so that the damage can be mended.
            let mut tried = Walk::new();
            tried.lent = copy;
            tried.line(line.as_bytes());
            if tried.lent == self.walk.lent || self.random.percent(15) {
                self.say(line);
            } else {
                self.say(format!("op=literals ref={}", at));
                self.say(format!("op=implied lit={}", literal));
            }
        }
    }

    /// One condition just broken, or just kept, while all others hold; mended afterwards.
    fn edge(&mut self) {
        let mut mending = vec![];
        let live = self.live();
        let state = self.lent().state.clone();
        let vars = self.vars();
        let held: usize = live.iter().map(|&at| self.literals(at).len() + 3).sum();
        let trail = self.lent().used_trail().to_vec();
        let mut level_back = None;
        match self.random.below(26) {
            0 => {
                let room = self.lent().row_room() as u32;
                let code = self.random.below(2 * vars);
                let more = self.random.below(2) as u32;
                self.change(&mut mending, 7, code, room + more);
            }
            1 => {
                let bits = self
                    .random
                    .pick(&[
                        BELOW_LIMIT,
                        BELOW_LIMIT + 1,
                        BELOW_LIMIT + 2,
                        2_147_483_648,
                        2_139_095_040,
                        2_143_289_344,
                        4_286_578_688,
                        3_212_836_864,
                        0,
                        1,
                    ])
                    .unwrap();
                self.change(&mut mending, 14, 14, bits);
            }
            2 => {
                let bits = self
                    .random
                    .pick(&[
                        1_065_353_216,
                        1_065_353_217,
                        1_098_907_647,
                        1_098_907_648,
                        2_143_289_344,
                        3_221_225_472,
                        0,
                    ])
                    .unwrap();
                self.change(&mut mending, 14, 15, bits);
            }
            // The last clause ends one word behind the used length.
            3 => {
                if state.words > held && state.words > 0 {
                    self.change(&mut mending, 14, 12, 0);
                    self.change(&mut mending, 14, 1, state.words as u32 - 1);
                }
            }
            4 => {
                if let Some(at) = self.random.pick(&live) {
                    let bit = 1u32 << self.random.within(11, 31);
                    let old = self.standing(0, at as usize + 1);
                    self.change(&mut mending, 0, at as usize + 1, old | bit);
                }
            }
            5 => {
                let more = self.random.below(2);
                let garbage = state.words.saturating_sub(held) + more;
                self.change(&mut mending, 14, 12, garbage as u32);
            }
            // A tier entry around a live clause's first or last word.
            6 | 7 => {
                let list = self.random.within(1, 4);
                let used = state.lists[list];
                let Some(at) = self.random.pick(&live) else {
                    return;
                };
                if used >= self.lent().rooms.lists[list] {
                    return;
                }
                let end = at as usize + 3 + self.literals(at).len();
                if self.random.percent(60) && end + 2 <= state.words {
                    let next = self.standing(0, end);
                    if !live.contains(&(end as u32)) || self.random.percent(50) {
                        self.change(&mut mending, 0, end, next | 4);
                    }
                    self.change(&mut mending, 1 + list, used, end as u32 - 1);
                } else if at > 0 {
                    self.change(&mut mending, 0, at as usize, 4);
                    self.change(&mut mending, 1 + list, used, at - 1);
                }
                self.change(&mut mending, 14, 2 + list, used as u32 + 1);
            }
            // Rows: a pair of one variable; or two pairs, each once too often on one side.
            8 | 9 => {
                let room = self.lent().row_room();
                let mut push = |writer: &mut Writer, code: u32, lit: u32| {
                    let count = writer.lent().row_counts[code as usize] as usize;
                    if count < room {
                        let place = code as usize * room + count;
                        writer.change(&mut mending, 6, place, lit);
                        writer.change(&mut mending, 7, code as usize, count as u32 + 1);
                    }
                };
                let a = self.random.below(2 * vars) as u32;
                let b = self.random.below(2 * vars) as u32;
                match self.random.below(4) {
                    0 => {
                        push(self, a ^ 1, a);
                        push(self, a ^ 1, a);
                    }
                    1 => {
                        push(self, a ^ 1, a ^ 1);
                        push(self, a, a);
                    }
                    2 => {
                        let filled: Vec<u32> = (0..2 * vars as u32)
                            .filter(|&code| !self.lent().row(code as usize).is_empty())
                            .collect();
                        for _ in 0..2 {
                            if let Some(code) = self.random.pick(&filled) {
                                let row = self.lent().row(code as usize).to_vec();
                                let again = self.random.pick(&row).unwrap_or(0);
                                push(self, code, again);
                            }
                        }
                    }
                    _ => {
                        push(self, a ^ 1, b);
                        push(self, b ^ 1, a);
                    }
                }
                self.change(&mut mending, 14, 13, (state.binary as u32).wrapping_add(1));
            }
            10 => {
                let more = self.random.pick(&[1u32, u32::MAX, 2]).unwrap();
                let binary = (state.binary as u32).wrapping_add(more);
                self.change(&mut mending, 14, 13, binary);
            }
            11 => {
                let level = vars as u32 + self.random.below(2) as u32;
                level_back = Some(self.lent().level);
                self.say(format!("op=level level={}", level));
            }
            // A variable twice on the trail.
            12 => {
                if let Some(code) = self.random.pick(&trail) {
                    if trail.len() < TRAIL {
                        self.change(&mut mending, 13, trail.len(), code);
                        self.change(&mut mending, 14, 16, trail.len() as u32 + 1);
                    }
                }
            }
            // A trail literal's reason: another literal, or a clause that does not fit.
            13 => {
                if let Some(code) = self.random.pick(&trail) {
                    let var = code as usize / 2;
                    let other = self.random.below(2 * vars) as u32;
                    let value = self.random.pick(&[other, other, code, code ^ 1]).unwrap();
                    self.change(&mut mending, 10, var, 2);
                    self.change(&mut mending, 11, var, value);
                }
            }
            14 => {
                let mut able = vec![];
                for &code in &trail {
                    let var = code as usize / 2;
                    if self.lent().kinds.get(var) == Some(&3) {
                        able.push(self.lent().reasons[var]);
                    }
                }
                let at = self.random.pick(&able).or(self.random.pick(&live));
                if let (Some(at), Some(code)) = (at, self.random.pick(&trail)) {
                    let var = code as usize / 2;
                    self.change(&mut mending, 10, var, 3);
                    self.change(&mut mending, 11, var, at);
                }
            }
            // Mark, glue or length of a live clause.
            15 | 16 => {
                if let Some(at) = self.random.pick(&live) {
                    let at = at as usize;
                    let word = self.standing(0, at + 1);
                    match self.random.below(4) {
                        0 => self.change(&mut mending, 0, at + 1, word | 8),
                        1 => self.change(&mut mending, 0, at + 1, word & 1_039 | 16),
                        2 => self.change(&mut mending, 0, at + 2, 2),
                        _ => {
                            let length = self.standing(0, at + 2);
                            self.change(&mut mending, 0, at + 2, length.wrapping_sub(1));
                        }
                    }
                }
            }
            17 => {
                if let Some(code) = self.random.pick(&trail) {
                    let kind = self.random.pick(&[0, 4, 5, 1]).unwrap();
                    self.change(&mut mending, 10, code as usize / 2, kind);
                }
            }
            18 => {
                let var = self.random.below(vars);
                let free = self.lent().values[var] == 2;
                let value = self.random.pick(&[0, 1, 2, 3, 255]).unwrap();
                self.change(&mut mending, 9, var, value);
                if value > 2 && self.random.percent(40) {
                    self.say(format!("op=unit lit={}", 2 * var));
                }
                if free {
                    let kind = self.random.pick(&[4, 4, 0, 3]).unwrap();
                    self.change(&mut mending, 10, var, kind);
                }
            }
            19 => {
                let var = self.random.below(vars);
                let kind = self.random.pick(&[4, 5, 255]).unwrap();
                self.change(&mut mending, 10, var, kind);
            }
            // A literal of a long reason that is not false.
            20 | 21 => {
                let mut able = vec![];
                for &code in &trail {
                    let var = code as usize / 2;
                    if self.lent().kinds.get(var) == Some(&3) {
                        able.push(self.lent().reasons[var]);
                    }
                }
                let free = self.unassigned();
                if let Some(at) = self.random.pick(&able) {
                    let literals = self.literals(at);
                    let inside = |var: u32| literals.iter().any(|&code| code / 2 == var);
                    let others: Vec<u32> = free.into_iter().filter(|&var| !inside(var)).collect();
                    if let (Some(var), true) = (self.random.pick(&others), literals.len() > 2) {
                        let place = at as usize + 3 + self.random.within(1, literals.len() - 1);
                        self.change(&mut mending, 0, place, 2 * var);
                    }
                }
            }
            // Used lengths at their rooms and above.
            22 => {
                let more = self.random.below(2);
                let field = self.random.within(1, 7);
                let room = match field {
                    1 => self.lent().rooms.words,
                    7 => self.lent().rooms.record,
                    _ => self.lent().rooms.lists[field - 2],
                };
                self.change(&mut mending, 14, field, (room + more) as u32);
            }
            23 => {
                let number = self
                    .random
                    .pick(&[
                        0,
                        1_024,
                        1_025,
                        65_536,
                        65_537,
                        vars as u32 - 1,
                        vars as u32 + 1,
                    ])
                    .unwrap();
                self.change(&mut mending, 14, 0, number);
            }
            // A tier entry two words before the end, its word 1 the last word.
            24 => {
                let list = self.random.within(1, 4);
                let used = state.lists[list];
                if used < self.lent().rooms.lists[list] && state.words > 3 {
                    let short = self.random.within(2, 3);
                    let word = state.words - short + 1;
                    let old = self.standing(0, word);
                    self.change(&mut mending, 0, word, old | 4);
                    self.change(&mut mending, 1 + list, used, (state.words - short) as u32);
                    self.change(&mut mending, 14, 2 + list, used as u32 + 1);
                }
            }
            // A reason that is listed, but deleted.
            _ => {
                let mut able = vec![];
                for &code in &trail {
                    let var = code as usize / 2;
                    if self.lent().kinds.get(var) == Some(&3) {
                        able.push(self.lent().reasons[var]);
                    }
                }
                if let Some(at) = self.random.pick(&able) {
                    if (at as usize) < WORDS - 3 {
                        let word = self.standing(0, at as usize + 1);
                        let tier = (word & 3) as usize;
                        let count = state.counts[tier] as u32;
                        self.change(&mut mending, 0, at as usize + 1, word | 4);
                        self.change(&mut mending, 14, 8 + tier, count.wrapping_sub(1));
                    }
                }
            }
        }
        self.probe();
        if self.random.percent(8) {
            self.look();
        }
        for (buffer, at, old) in mending.into_iter().rev() {
            self.poke(buffer, at, old);
        }
        if let Some(level) = level_back {
            self.say(format!("op=level level={}", level));
        }
    }

    /// A clause whose variables have exactly so many levels as a tier's edge asks for.
    fn glue_edge(&mut self) {
        let many = self.random.pick(&[1, 2, 3, 4, 6, 7, 8]).unwrap();
        let live = self.live();
        let long: Vec<u32> = live
            .into_iter()
            .filter(|&at| self.literals(at).len() >= many && self.lent().tier(at) != 0)
            .collect();
        let literals = match self.random.pick(&long) {
            Some(at) if self.random.percent(60) => {
                let old = self.standing(0, at as usize + 1);
                let glue = self.random.pick(&[63, many, many + 1, many - 1]).unwrap() as u32;
                self.poke(0, at as usize + 1, old & 1_039 | glue << 4);
                self.literals(at)
            }
            _ => {
                let most = self.vars().min(many + 3);
                self.clause(many.min(most), most)
            }
        };
        if !literals.iter().all(|&code| self.literal_in_range(code)) {
            return;
        }
        let current = self.lent().level as usize;
        for (place, &code) in literals.iter().enumerate() {
            let var = code as usize / 2;
            let level = place % many;
            if level <= self.vars() && (self.lent().values[var] == 2 || level <= current) {
                self.say(format!("op=depth var={} level={}", var, level));
            }
        }
        self.say(format!("op=assess lits={}", commas(&literals)));
        if let Some(at) = self.random.pick(&long) {
            self.say(format!("op=bump ref={}", at));
        }
        for at in long {
            if self.literals(at) == literals {
                self.say(format!("op=bump ref={}", at));
            }
        }
    }

    /// Pokes that leave a passing store passing.
    fn odd_but_passing(&mut self) {
        let live = self.live();
        let state = self.lent().state.clone();
        match self.random.below(9) {
            // One more entry of a live clause, or a stale one, in a tier list.
            0 | 1 => {
                let list = self.random.within(1, 4);
                let used = state.lists[list];
                let words = &self.lent().words;
                let mut able: Vec<u32> = live.clone();
                let inside = |word: usize| {
                    live.iter().any(|&at| {
                        let at = at as usize;
                        word >= at && word < at + 3 + words[at + 2] as usize
                    })
                };
                if state.words < 400 {
                    for at in 0..state.words.saturating_sub(2) {
                        if words[at + 1] >> 2 & 1 == 1 && !inside(at + 1) {
                            able.push(at as u32);
                        }
                    }
                }
                if let (Some(at), true) = (
                    self.random.pick(&able),
                    used < self.lent().rooms.lists[list],
                ) {
                    self.poke(1 + list, used, at);
                    self.poke(14, 2 + list, used as u32 + 1);
                }
            }
            // Less garbage than there is, or more.
            2 => {
                let live_words: usize = live.iter().map(|&at| self.literals(at).len() + 3).sum();
                let most = state.words.saturating_sub(live_words);
                let garbage = self.random.below(most + 1) as u32;
                self.poke(14, 12, garbage);
            }
            // Another activity, glue or active flag.
            3 | 4 => {
                if let Some(at) = self.random.pick(&live) {
                    let bits = self.random.below(BELOW_LIMIT as usize + 2) as u32;
                    let bits = self
                        .random
                        .pick(&[bits, 0, 1, BELOW_LIMIT + 1, 1_065_353_216])
                        .unwrap();
                    self.poke(0, at as usize, bits);
                    let old = self.standing(0, at as usize + 1);
                    let glue = self.random.below(64) as u32;
                    let glue = if old & 3 == 0 { 0 } else { glue };
                    let active = self.random.below(2) as u32;
                    self.poke(0, at as usize + 1, old & 3 | glue << 4 | active << 10);
                }
            }
            // Two entries of a row in the other order.
            5 => {
                let room = self.lent().row_room();
                let able: Vec<usize> = (0..2 * self.vars())
                    .filter(|&code| self.lent().row_counts[code] > 1 && room > 1)
                    .collect();
                if let Some(code) = self.random.pick(&able) {
                    let one = self.standing(6, code * room);
                    let other = self.standing(6, code * room + 1);
                    self.poke(6, code * room, other);
                    self.poke(6, code * room + 1, one);
                }
            }
            // Reasons of unassigned variables.
            6 => {
                let free = self.unassigned();
                if let Some(var) = self.random.pick(&free) {
                    let kind = self.random.below(5) as u32;
                    let at = self.reference();
                    self.poke(10, var as usize, kind);
                    self.poke(11, var as usize, at);
                }
            }
            // Behind a used part.
            7 => {
                let buffer = self.random.below(9);
                let room = match buffer {
                    0 => self.lent().rooms.words,
                    1..=5 => self.lent().rooms.lists[buffer - 1],
                    6 => self.lent().rooms.rows,
                    8 => self.lent().rooms.record,
                    _ => 0,
                };
                let used = match buffer {
                    0 => state.words,
                    1..=5 => state.lists[buffer - 1],
                    6 => room.saturating_sub(1),
                    8 => state.record,
                    _ => 0,
                };
                if used < room {
                    let at = used + self.random.below((room - used).min(12));
                    let value = self.random.below(99) as u32;
                    self.poke(buffer, at, value);
                }
            }
            // Words of a deleted clause that is still listed.
            _ => {
                let lent = self.lent();
                let gone: Vec<u32> = lent
                    .list(CLAUSES)
                    .iter()
                    .copied()
                    .filter(|at| !live.contains(at))
                    .collect();
                if let Some(at) = self.random.pick(&gone) {
                    let length = self.standing(0, at as usize + 2);
                    match self.random.below(3) {
                        0 => {
                            let shorter = self.random.below(length.min(60) as usize + 1);
                            self.poke(0, at as usize + 2, shorter as u32);
                        }
                        1 => {
                            let word = self.random.next() as u32 | 4;
                            self.poke(0, at as usize + 1, word);
                        }
                        _ if length > 0 => {
                            let word = self.random.next() as u32;
                            self.poke(0, at as usize + 3, word);
                        }
                        _ => (),
                    }
                }
            }
        }
    }

    fn floats(&mut self) {
        match self.random.below(7) {
            0 => {
                let down = self.random.below(4);
                self.poke(14, 14, BELOW_LIMIT - down as u32);
            }
            1 => {
                let bits = self.random.below(BELOW_LIMIT as usize) as u32;
                self.poke(14, 14, bits);
            }
            2 => {
                let bits = self.random.within(1_065_353_217, 1_098_907_647) as u32;
                let bits = self
                    .random
                    .pick(&[bits, 1_065_353_217, 1_098_907_647, 1_073_741_824])
                    .unwrap();
                self.poke(14, 15, bits);
            }
            3 => {
                let bits = self
                    .random
                    .pick(&[0, 1, 8_388_608, 8_388_607, 1_065_353_216, 2_097_152_000])
                    .unwrap();
                self.poke(14, 14, bits);
            }
            _ => {
                let live = self.live();
                for _ in 0..self.random.within(1, 3) {
                    if let Some(at) = self.random.pick(&live) {
                        let down = self.random.below(1 << 26) as u32;
                        let near = self.random.below(3) as u32;
                        let down = if self.random.percent(50) { down } else { near };
                        self.poke(0, at as usize, BELOW_LIMIT + 1 - down);
                    }
                }
            }
        }
        for _ in 0..self.random.within(1, 4) {
            match self.random.below(3) {
                0 => {
                    self.say("op=decay".into());
                }
                1 => {
                    let at = self.reference();
                    self.say(format!("op=bump ref={}", at));
                }
                _ => {
                    self.say("op=locals".into());
                }
            }
        }
    }

    fn room(&mut self, words: usize, lists: [usize; 5], rows: usize, record: usize) {
        self.say(format!(
            "op=room words={} clauses={} irred={} core={} mid={} local={} rows={} record={}",
            words, lists[0], lists[1], lists[2], lists[3], lists[4], rows, record
        ));
    }

    fn tight_room(&mut self, vars: usize) {
        let words = self.random.within(12, 160);
        let lists = std::array::from_fn(|_| self.random.within(1, 14));
        let rows = 2 * vars * self.random.below(5) + self.random.below(2 * vars);
        let record = self.random.within(4, 80);
        self.room(words, lists, rows, record);
    }

    /// Rooms around what is used now.
    fn fitting_room(&mut self) {
        let state = self.lent().state.clone();
        let around = |used: usize, most: usize, writer: &mut Writer| {
            let more = writer.random.pick(&[0, 0, 1, 2, 5, 6, 9, 40]).unwrap();
            let less = usize::from(writer.random.percent(2));
            (used + more).saturating_sub(less).min(most)
        };
        let words = around(state.words, WORDS, self);
        let lists = std::array::from_fn(|list| around(state.lists[list], LIST, self));
        let record = around(state.record, RECORD, self);
        // A changed row room moves the rows, so it stays unless they are empty.
        let rows = if state.binary == 0 && self.random.percent(50) {
            2 * self.vars() * self.random.below(3)
        } else {
            self.lent().rooms.rows
        };
        self.room(words, lists, rows, record);
    }

    fn full_room(&mut self) {
        let rows = if self.lent().state.binary == 0 {
            ROWS
        } else {
            self.lent().rooms.rows
        };
        self.room(WORDS, [LIST; 5], rows, RECORD);
    }

    /// A line that is hard to read, or not readable.
    fn spelling(&mut self) {
        let good = [
            "op=start vars=3",
            "op=long tier=3 glue=1 lits=0,2,4",
            "op=binary lits=0,2",
            "op=tier ref=0 tier=1",
            "op=bump ref=0",
            "op=decay",
            "op=assign lit=0 kind=1 value=0 level=0",
            "op=poke buffer=14 at=12 value=0",
            "op=answers on=1",
            "op=show",
            "op=dump",
            "op=tails",
            "op=view from=0 to=6",
            "op=assess lits=0,2",
            "op=literals ref=0",
        ];
        let line = self.random.pick(&good).unwrap().to_string();
        let mut bytes = line.into_bytes();
        match self.random.below(8) {
            0 => {
                let at = self.random.below(bytes.len());
                bytes.remove(at);
            }
            1 => {
                let at = self.random.below(bytes.len() + 1);
                let byte = self.random.pick(b"0123456789,= \r\tax-+\"").unwrap();
                bytes.insert(at, byte);
            }
            2 => {
                let at = self.random.below(bytes.len());
                bytes[at] = self.random.pick(b"0123456789,= opADd.").unwrap();
            }
            3 => bytes.extend(b" x=1"),
            4 => bytes.extend(b"0000000000"),
            5 => bytes.extend(b","),
            6 => {
                let at = self.random.below(bytes.len());
                bytes.truncate(at);
            }
            _ => {
                let many = self.random.pick(&[1_023, 1_024, 1_025]).unwrap();
                let numbers: Vec<u32> = (0..many).map(|n| n % 10).collect();
                if self.random.percent(20) {
                    bytes = format!("op=assess lits={}", commas(&numbers)).into_bytes();
                }
            }
        }
        if self.random.percent(4) {
            let at = self.random.below(bytes.len() + 1);
            let byte = self.random.pick(&[0u8, 127, 128, 255, 13, 9]).unwrap();
            bytes.insert(at, byte);
        }
        self.say_bytes(bytes);
    }

    /// Lines up to and beyond the 64 KiB that are read.
    fn beyond(&mut self) {
        while self.input < 65_536 - 5_000 {
            let length = self.random.within(1_000, 4_000);
            let line = match self.random.below(3) {
                0 => vec![b'x'; length],
                1 => format!("op=assess lits={}", vec!["7"; length / 4].join(",")).into_bytes(),
                _ => format!("op=assess lits={}0", "0,".repeat(length / 2)).into_bytes(),
            };
            self.say_bytes(line);
        }
        // The next line ends with the last byte that is read, or about there.
        let line = self
            .random
            .pick(&[
                "op=dump",
                "op=tails",
                "op=show",
                "op=answers on=1",
                "op=decay",
            ])
            .unwrap();
        let short = line.len() + self.random.pick(&[0, 1, 1, 1, 2]).unwrap() - 1;
        let fill = 65_536 - 1 - short - self.input;
        self.say_bytes(vec![b'x'; fill]);
        self.say(line.into());
        if self.random.percent(50) {
            self.ended = false;
        } else {
            self.say("op=tails".into());
        }
    }

    /// Printing of what does not pass, and numbers at the edge of what is read.
    fn odd_print(&mut self) {
        let nan = self
            .random
            .pick(&[2_139_095_041, 4_294_967_295, 4_286_578_689, 2_143_289_345])
            .unwrap();
        match self.random.below(7) {
            0 => {
                let field = self.random.within(14, 15);
                let old = self.standing(14, field);
                self.poke(14, field, nan);
                self.say("op=dump".into());
                self.poke(14, field, old);
            }
            1 => {
                let at = self.random.below(40);
                let old = self.standing(0, at);
                self.poke(0, at, nan);
                self.say(format!("op=view from={} to={}", at, at + 5));
                self.poke(0, at, old);
            }
            2 => {
                let used = self.lent().state.record;
                if used > 0 && used <= RECORD {
                    let cut = self.random.below(used.min(40)) as u32;
                    self.poke(14, 7, cut);
                    self.say("op=show".into());
                    self.poke(14, 7, used as u32);
                } else {
                    self.poke(8, 0, 3);
                    self.poke(8, 1, 4);
                    let cut = self.random.below(5) as u32;
                    self.poke(14, 7, cut);
                    self.say("op=show".into());
                    self.say("op=empty".into());
                }
            }
            3 => {
                let old = self.lent().state.vars as u32;
                let number = self.random.pick(&[0, 0, 1_025, 4_294_967_295]).unwrap();
                self.poke(14, 0, number);
                self.say("op=dump".into());
                self.say("op=tails".into());
                self.poke(14, 0, old);
            }
            4 => {
                let number = self
                    .random
                    .pick(&[
                        "2",
                        "01",
                        "10",
                        "3",
                        "4294967296",
                        "00000000001",
                        "0000000001",
                    ])
                    .unwrap();
                self.say(format!("op=answers on={}", number));
                self.say("op=answers on=1".into());
            }
            5 => {
                let number = self
                    .random
                    .pick(&[
                        "4294967295",
                        "4294967296",
                        "4294967297",
                        "9999999999",
                        "0000000000",
                    ])
                    .unwrap();
                let line = self
                    .random
                    .pick(&[
                        "op=bump ref=",
                        "op=assess lits=0,",
                        "op=implied lit=",
                        "op=start vars=",
                    ])
                    .unwrap();
                self.say(format!("{}{}", line, number));
            }
            _ => {
                // Used lengths above their room: printed cut, with nothing behind.
                let field = self.random.within(1, 7);
                let old = self.standing(14, field);
                let number = self.random.pick(&[99_999, 16_385, 4_097]).unwrap();
                if self.random.percent(20) {
                    self.poke(14, field, number);
                    self.say("op=tails".into());
                    self.poke(14, field, old);
                }
            }
        }
    }

    fn start(&mut self) {
        let vars = match self.kind {
            Kind::Small | Kind::Tight => self.random.within(3, 8),
            Kind::Damaged => self.random.within(3, 9),
            Kind::Simplifying => self.random.within(5, 24),
            Kind::Middle | Kind::Floats => self.random.within(6, 30),
            Kind::Many => self.random.within(8, 40),
            Kind::Spelling => self.random.within(1, 4),
            Kind::Wide => {
                let wide = self.random.within(100, 1_024);
                self.random
                    .pick(&[1, 2, 1_024, 1_024, 1_023, wide, wide])
                    .unwrap()
            }
        };
        if self.kind == Kind::Tight {
            self.tight_room(vars);
        }
        self.say(format!("op=start vars={}", vars));
    }

    /// A new start over a store in use, with rooms of its own, and a look at what it left.
    fn restart(&mut self) {
        if self.random.percent(60) {
            self.fitting_room();
        }
        if self.random.percent(50) {
            self.odd_but_passing();
        }
        if self.random.percent(40) {
            self.damage();
        }
        self.start();
        let old = self.lent().state.vars as u32;
        match self.random.below(4) {
            0 => {
                self.say("op=dump".into());
            }
            1 => {
                self.say("op=tails".into());
                self.room(WORDS, [LIST; 5], ROWS, RECORD);
                self.say("op=tails".into());
            }
            2 => {
                let more = self.random.within(1, 4) as u32;
                self.poke(14, 0, old + more);
                self.say("op=dump".into());
                self.say("op=collect".into());
                self.poke(14, 0, old);
            }
            _ => (),
        }
    }

    fn write(&mut self) {
        if self.random.percent(5) {
            self.call();
        }
        if self.random.percent(96) {
            self.say("op=answers on=1".into());
        }
        self.start();
        let first = match self.kind {
            Kind::Many => self.random.within(60, 400),
            Kind::Wide => self.random.within(2, 20),
            Kind::Spelling => 1,
            Kind::Tight => self.random.within(1, 5),
            _ => self.random.within(3, 14),
        };
        for _ in 0..first {
            if self.full() {
                break;
            }
            if self.random.percent(75) {
                self.long();
            } else {
                self.binary();
            }
        }
        let steps = match self.kind {
            Kind::Many => 60,
            Kind::Wide => 40,
            _ => self.random.within(40, 160),
        };
        for _ in 0..steps {
            if self.full() {
                break;
            }
            self.step();
        }
        if self.kind == Kind::Spelling && self.random.percent(30) && self.input < 50_000 {
            return self.beyond();
        }
        self.say("op=dump".into());
        self.say("op=tails".into());
        self.say("op=show".into());
        if self.kind == Kind::Spelling {
            self.spelling();
            self.ended = self.random.percent(50);
        }
    }

    fn step(&mut self) {
        let chance = self.random.below(100);
        match self.kind {
            Kind::Damaged if chance < 18 => return self.damage(),
            Kind::Damaged if chance < 45 => return self.edge(),
            Kind::Damaged if chance < 49 => return self.odd_print(),
            Kind::Floats if chance < 26 => return self.floats(),
            Kind::Floats if chance < 36 => return self.glue_edge(),
            Kind::Spelling if chance < 45 => return self.spelling(),
            Kind::Spelling if chance < 60 => return self.odd_print(),
            Kind::Tight if chance < 10 => return self.fitting_room(),
            Kind::Tight if chance < 12 => return self.full_room(),
            Kind::Tight if chance < 14 => return self.restart(),
            Kind::Small if chance < 3 => return self.restart(),
            Kind::Simplifying if chance < 15 => {
                self.simplify();
                return self.look();
            }
            Kind::Simplifying if chance < 35 => return self.long(),
            _ => (),
        }
        match self.random.below(100) {
            0..=64 => {
                self.call();
                self.look();
            }
            65..=90 => self.host(),
            91..=94 => self.odd_but_passing(),
            95 => self.glue_edge(),
            96 => self.floats(),
            97 if self.random.percent(50) => self.edge(),
            97 => self.damage(),
            98 => self.spelling(),
            _ => {
                if self.random.percent(50) {
                    self.restart();
                } else {
                    self.back_to_0();
                }
            }
        }
    }
}

fn main() {
    let given: Vec<String> = std::env::args().skip(1).collect();
    let number = |place: usize| given[place].parse::<u64>().expect("a number");
    if given.first().map(|first| first == "tally") == Some(true) {
        let mut tally: BTreeMap<(&'static str, u32), usize> = BTreeMap::new();
        let mut changing: BTreeMap<&'static str, usize> = BTreeMap::new();
        for seed in number(1)..number(1) + number(2) {
            let mut writer = Writer::new(seed);
            writer.changing = Some(BTreeMap::new());
            writer.write();
            for (op, times) in writer.changing.unwrap() {
                *changing.entry(op).or_default() += times;
            }
            for (key, times) in writer.tally {
                *tally.entry(key).or_default() += times;
            }
        }
        let mut line = String::new();
        let mut last = "";
        for ((op, answer), times) in tally {
            if op != last {
                let changed = changing.get(op).copied().unwrap_or(0);
                line.push_str(&format!("\n{:9} changing:{}", op, changed));
                last = op;
            }
            line.push_str(&format!(" {}:{}", answer, times));
        }
        println!("{}", line.trim_start());
    } else {
        let mut writer = Writer::new(number(0));
        writer.write();
        let mut out = writer.lines.join(&b'\n');
        if writer.ended {
            out.push(b'\n');
        }
        std::io::stdout().write_all(&out).expect("output");
    }
}
