//! The buffers and the state as document 01 lends them, with the lengths of the walk program.

pub const WORDS: usize = 16_384;
pub const LIST: usize = 4_096;
pub const ROWS: usize = 16_384;
pub const RECORD: usize = 16_384;
pub const TRAIL: usize = 1_024;
pub const VARS: usize = 1_024;

/// The clause list's place among the five lists; tier t's list stands at 1 + t.
pub const CLAUSES: usize = 0;

/// Lengths lent of the store's buffers.
#[derive(Clone, PartialEq, Debug)]
pub struct Rooms {
    pub words: usize,
    pub lists: [usize; 5],
    pub rows: usize,
    pub record: usize,
}

impl Rooms {
    pub fn all() -> Rooms {
        Rooms {
            words: WORDS,
            lists: [LIST; 5],
            rows: ROWS,
            record: RECORD,
        }
    }
}

#[derive(Clone, PartialEq, Debug)]
pub struct State {
    pub vars: usize,
    pub words: usize,
    pub lists: [usize; 5],
    pub record: usize,
    pub counts: [usize; 4],
    pub garbage: usize,
    pub binary: usize,
    /// Bits of two f32.
    pub bump: u32,
    pub inverse: u32,
}

/// The store and the host's side.
#[derive(Clone, PartialEq, Debug)]
pub struct Lent {
    pub rooms: Rooms,
    pub state: State,
    pub words: Vec<u32>,
    pub lists: [Vec<u32>; 5],
    pub rows: Vec<u32>,
    pub row_counts: Vec<u32>,
    pub record: Vec<u32>,
    pub values: Vec<u8>,
    pub kinds: Vec<u8>,
    pub reasons: Vec<u32>,
    pub levels: Vec<u32>,
    pub trail: Vec<u32>,
    pub trail_used: usize,
    pub level: u32,
}

impl Lent {
    /// "Before the first `start` V is 0 and all else is 0."
    pub fn new() -> Lent {
        Lent {
            rooms: Rooms::all(),
            state: State {
                vars: 0,
                words: 0,
                lists: [0; 5],
                record: 0,
                counts: [0; 4],
                garbage: 0,
                binary: 0,
                bump: 0,
                inverse: 0,
            },
            words: vec![0; WORDS],
            lists: std::array::from_fn(|_| vec![0; LIST]),
            rows: vec![0; ROWS],
            row_counts: vec![0; 2 * VARS],
            record: vec![0; RECORD],
            values: vec![0; VARS],
            kinds: vec![0; VARS],
            reasons: vec![0; VARS],
            levels: vec![0; VARS],
            trail: vec![0; TRAIL],
            trail_used: 0,
            level: 0,
        }
    }

    /// Length lent of a buffer per variable.
    pub fn lent_vars(&self) -> usize {
        lent_vars(self.state.vars)
    }

    /// Room of each row: the row buffer's length over 2V, rounded down.
    pub fn row_room(&self) -> usize {
        if self.state.vars == 0 {
            0
        } else {
            self.rooms.rows / (2 * self.state.vars)
        }
    }

    /// The filled part of row `code`, cut at its room.
    pub fn row(&self, code: usize) -> &[u32] {
        let room = self.row_room();
        let from = code * room;
        &self.rows[from..from + (self.row_counts[code] as usize).min(room)]
    }

    /// The used part of list `list`, cut at its room.
    pub fn list(&self, list: usize) -> &[u32] {
        &self.lists[list][..self.state.lists[list].min(self.rooms.lists[list])]
    }

    pub fn used_words(&self) -> &[u32] {
        &self.words[..self.state.words.min(self.rooms.words)]
    }

    pub fn used_record(&self) -> &[u32] {
        &self.record[..self.state.record.min(self.rooms.record)]
    }

    pub fn used_trail(&self) -> &[u32] {
        &self.trail[..self.trail_used.min(TRAIL)]
    }

    /// A literal's value by the assignment bytes: its own byte, turned around if negated.
    pub fn is_true(&self, code: u32) -> bool {
        self.values[code as usize / 2] as u32 == (code & 1 ^ 1)
    }

    pub fn is_false(&self, code: u32) -> bool {
        self.values[code as usize / 2] as u32 == (code & 1)
    }

    pub fn is_unassigned(&self, code: u32) -> bool {
        self.values[code as usize / 2] == 2
    }

    /// The literals of the clause at `at`, which has to pass.
    pub fn literals(&self, at: u32) -> &[u32] {
        let from = at as usize + 3;
        &self.words[from..from + self.words[from - 1] as usize]
    }

    /// Listed and not deleted.
    pub fn is_live(&self, at: u32) -> bool {
        self.list(CLAUSES).contains(&at) && self.words[at as usize + 1] >> 2 & 1 == 0
    }

    pub fn live(&self) -> Vec<u32> {
        let words = &self.words;
        self.list(CLAUSES)
            .iter()
            .copied()
            .filter(|&at| words[at as usize + 1] >> 2 & 1 == 0)
            .collect()
    }

    pub fn tier(&self, at: u32) -> usize {
        (self.words[at as usize + 1] & 3) as usize
    }
}

impl Default for Lent {
    fn default() -> Lent {
        Lent::new()
    }
}

/// "Buffers per variable and per literal are lent V and 2V long while V is 1 to 1,024, and 1,024
/// and 2,048 long otherwise."
pub fn lent_vars(vars: usize) -> usize {
    if (1..=VARS).contains(&vars) {
        vars
    } else {
        VARS
    }
}
