//! The store: the state, the buffers, and a method for every call.

use crate::ffi::{self, ClauseActivity, Reply, State};
use crate::host::Host;
use crate::kinds::{ClauseRef, Lit, Refusal, Tier, Var};
use crate::layout;

/// The lengths of the store's buffers. Nothing grows later: a call that lacks room is refused with [`Refusal::Room`].
#[derive(Clone, Copy, Debug, PartialEq, Eq)]
pub struct Capacities {
    /// Words of long clauses, length + 3 each: at most 2^24.
    pub words: usize,
    /// Entries of the clause list: at most 2^22.
    pub clauses: usize,
    /// Entries of each tier's list, by the tier's number: at most 2^22 each.
    pub tiers: [usize; 4],
    /// Implied literals of each literal: two rows for each variable, at most 2^24 in all.
    pub row: usize,
    /// Words of the record: at most 2^24.
    pub record: usize,
}

impl Default for Capacities {
    /// Room for some thousand clauses.
    fn default() -> Capacities {
        Capacities {
            words: 1 << 16,
            clauses: 1 << 12,
            tiers: [1 << 12; 4],
            row: 64,
            record: 1 << 16,
        }
    }
}

/// What an assessed clause would be.
#[derive(Clone, Copy, Debug, PartialEq, Eq)]
pub struct Assessed {
    /// The tier that its glue asks for.
    pub tier: Tier,
    /// The glue of its header, 63 at most.
    pub glue: u32,
}

/// The header fields of a clause, by its view.
#[derive(Clone, Copy, Debug, PartialEq)]
pub struct Fields {
    /// The activity.
    pub activity: f32,
    /// The tier.
    pub tier: Tier,
    /// Whether the clause was deleted.
    pub deleted: bool,
    /// The mark; false between calls.
    pub mark: bool,
    /// The glue.
    pub glue: u32,
    /// Whether the clause was bumped since the last reduction.
    pub active: bool,
    /// The number of literals.
    pub len: u32,
}

/// What a line of the record says.
#[derive(Clone, Copy, Debug, PartialEq, Eq, PartialOrd, Ord, Hash)]
pub enum Kind {
    /// 1: a unit, then the rest of its reason's clause.
    Unit = 1,
    /// 2: entered as an original.
    EnteredOriginal = 2,
    /// 3: entered as redundant.
    EnteredRedundant = 3,
    /// 4: a redundant clause was struck.
    StruckRedundant = 4,
    /// 5: struck as satisfied.
    StruckSatisfied = 5,
    /// 6: struck for a shorter form.
    StruckSimplified = 6,
}

/// A line of the record.
#[derive(Clone, Copy, Debug, PartialEq, Eq)]
pub struct Line<'a> {
    /// What it says.
    pub kind: Kind,
    /// Of which clause.
    pub lits: &'a [Lit],
}

/// A clause store that owns its buffers.
///
/// A method that says `Err` has changed nothing. A method that says `Ok(true)` where its documentation speaks of watch lists
/// tells the caller to build them anew.
///
/// ```
/// use mihorempo::{Capacities, Host, Kind, Lit, Reason, Store, Tier};
///
/// let mut store = Store::new(4, 0.5, Capacities::default())?;
/// let mut host = Host::new(4);
/// store.add_clause(Tier::Irred, 0, &[Lit(0), Lit(2), Lit(4)])?;
/// host.assign(Lit(1), Reason::Unit);
/// assert!(store.prove_units(&mut host)?);
/// store.unit_simplify(&host)?;
/// let lines: Vec<_> = store.record().map(|line| (line.kind, line.lits)).collect();
/// assert_eq!(lines, [
///     (Kind::EnteredOriginal, &[Lit(2), Lit(4)][..]),
///     (Kind::StruckSimplified, &[Lit(0), Lit(2), Lit(4)][..]),
/// ]);
/// # Ok::<(), mihorempo::Refusal>(())
/// ```
#[derive(Clone, Debug, PartialEq)]
pub struct Store {
    state: State,
    words: Vec<u32>,
    clauses: Vec<u32>,
    irred: Vec<u32>,
    core: Vec<u32>,
    mid: Vec<u32>,
    local: Vec<u32>,
    rows: Vec<u32>,
    counts: Vec<u32>,
    rec: Vec<u32>,
}

/// Literals are codes under another name.
pub(crate) fn as_lits(codes: &[u32]) -> &[Lit] {
    // SAFETY: `Lit` is a transparent u32.
    unsafe { std::slice::from_raw_parts(codes.as_ptr() as *const Lit, codes.len()) }
}

fn refusal(number: u32) -> Option<Refusal> {
    match number {
        0 => None,
        _ => Some(Refusal::from_number(number).expect("the library gives numbers to 12")),
    }
}

fn heard(number: u32) -> Result<(), Refusal> {
    match refusal(number) {
        None => Ok(()),
        Some(refusal) => Err(refusal),
    }
}

// A slice as a pointer and a length, for a call with the buffers of `$self`.
macro_rules! call {
    ($name:ident($self:ident: $($part:tt)*)) => {
        call!(@ $name $self [$self.state] $($part)*)
    };
    (@ $name:ident $self:ident [$($done:tt)*]) => {
        // SAFETY: every slice is a whole vector or a borrowed slice, no vector is lent twice, and what is lent to be written is borrowed so.
        unsafe { ffi::$name($($done)*) }
    };
    (@ $name:ident $self:ident [$($done:tt)*] five $($rest:tt)*) => {
        call!(@ $name $self [$($done)*,
            $self.words.as_mut_ptr(), $self.words.len(), $self.clauses.as_mut_ptr(), $self.clauses.len(),
            $self.irred.as_mut_ptr(), $self.irred.len(), $self.core.as_mut_ptr(), $self.core.len(),
            $self.mid.as_mut_ptr(), $self.mid.len(), $self.local.as_mut_ptr(), $self.local.len()] $($rest)*)
    };
    (@ $name:ident $self:ident [$($done:tt)*] tiers $($rest:tt)*) => {
        call!(@ $name $self [$($done)*,
            $self.irred.as_ptr(), $self.irred.len(), $self.core.as_ptr(), $self.core.len(),
            $self.mid.as_ptr(), $self.mid.len(), $self.local.as_ptr(), $self.local.len()] $($rest)*)
    };
    (@ $name:ident $self:ident [$($done:tt)*] rows $($rest:tt)*) => {
        call!(@ $name $self [$($done)*,
            $self.rows.as_mut_ptr(), $self.rows.len(), $self.counts.as_mut_ptr(), $self.counts.len()] $($rest)*)
    };
    (@ $name:ident $self:ident [$($done:tt)*] rec $($rest:tt)*) => {
        call!(@ $name $self [$($done)*, $self.rec.as_mut_ptr(), $self.rec.len()] $($rest)*)
    };
    (@ $name:ident $self:ident [$($done:tt)*] read($slice:expr) $($rest:tt)*) => {
        call!(@ $name $self [$($done)*, $slice.as_ptr(), $slice.len()] $($rest)*)
    };
    (@ $name:ident $self:ident [$($done:tt)*] write($slice:expr) $($rest:tt)*) => {
        call!(@ $name $self [$($done)*, $slice.as_mut_ptr(), $slice.len()] $($rest)*)
    };
    (@ $name:ident $self:ident [$($done:tt)*] lits($slice:expr) $($rest:tt)*) => {
        call!(@ $name $self [$($done)*, $slice.as_ptr() as *const u32, $slice.len()] $($rest)*)
    };
    (@ $name:ident $self:ident [$($done:tt)*] host($host:expr) $($rest:tt)*) => {
        call!(@ $name $self [$($done)*] read($host.values) read($host.kinds) read($host.reasons) read($host.levels) read($host.trail)
            number($host.assigned) number($host.level) $($rest)*)
    };
    (@ $name:ident $self:ident [$($done:tt)*] number($number:expr) $($rest:tt)*) => {
        call!(@ $name $self [$($done)*, $number] $($rest)*)
    };
}

impl Store {
    /// A store for `vars` variables, 1 to 65,536, started with a decay strictly between 1/16 and 1.
    ///
    /// Refused with [`Refusal::Size`] where `vars` or a capacity is out of range, with [`Refusal::Decay`] for the decay.
    ///
    /// ```
    /// use mihorempo::{Capacities, Refusal, Store};
    ///
    /// assert_eq!(Store::new(0, 0.5, Capacities::default()).unwrap_err(), Refusal::Size);
    /// assert_eq!(Store::new(4, 1.0, Capacities::default()).unwrap_err(), Refusal::Decay);
    /// ```
    ///
    /// # Panics
    ///
    /// Where this crate's declarations don't fit the static library (see [`crate::layout`]).
    pub fn new(vars: usize, decay: f32, capacities: Capacities) -> Result<Store, Refusal> {
        layout::ensure();
        // What is out of range is not allocated: a buffer one above its maximum is refused too.
        let below = |n: usize, most: usize| vec![0; n.min(most + 1)];
        let lits = 2 * vars.min(65_537);
        let mut store = Store {
            state: State {
                vars: 0,
                words: 0,
                clauses: 0,
                tiers: [0; 4],
                recorded: 0,
                counts: [0; 4],
                garbage: 0,
                binary: 0,
                activity: ClauseActivity { bump: 1.0, inv_decay: 2.0 },
            },
            words: below(capacities.words, 1 << 24),
            clauses: below(capacities.clauses, 1 << 22),
            irred: below(capacities.tiers[0], 1 << 22),
            core: below(capacities.tiers[1], 1 << 22),
            mid: below(capacities.tiers[2], 1 << 22),
            local: below(capacities.tiers[3], 1 << 22),
            rows: below(capacities.row.saturating_mul(lits), 1 << 24),
            counts: vec![0; lits],
            rec: below(capacities.record, 1 << 24),
        };
        store.start(vars, decay)?;
        Ok(store)
    }

    /// Starts anew, empty, with the buffers that are there: the rows are shared out among the new variables.
    pub fn start(&mut self, vars: usize, decay: f32) -> Result<(), Refusal> {
        let mut counts = vec![0; 2 * vars.min(65_537)];
        let reply = call!(mihorempo_start(self: number(vars) number(decay) five
            write(self.rows) write(counts) rec));
        self.told(reply)?;
        self.counts = counts;
        Ok(())
    }

    /// Adds a long clause of 3 or more literals of different variables; gives its reference.
    ///
    /// Refused with [`Refusal::Clause`], with [`Refusal::Tier`] for an original with glue, with [`Refusal::Room`].
    pub fn add_clause(&mut self, tier: Tier, glue: usize, lits: &[Lit]) -> Result<ClauseRef, Refusal> {
        let reply = call!(mihorempo_add_clause(self: five number(tier.number()) number(glue) lits(lits)));
        self.told(reply).map(ClauseRef)
    }

    /// Moves a redundant clause to another redundant tier.
    ///
    /// Refused with [`Refusal::Reference`], with [`Refusal::Original`] into or out of Irred, with [`Refusal::Room`].
    pub fn set_clause_tier(&mut self, cref: ClauseRef, tier: Tier) -> Result<(), Refusal> {
        let reply = call!(mihorempo_set_clause_tier(self: five number(cref.0) number(tier.number())));
        self.told(reply).map(|_| ())
    }

    /// Deletes a redundant clause and records it. The watch lists are to be built anew.
    ///
    /// Refused with [`Refusal::Reference`], [`Refusal::Original`], [`Refusal::Asserting`], [`Refusal::Room`].
    pub fn delete_clause(&mut self, host: &Host, cref: ClauseRef) -> Result<(), Refusal> {
        let reply = call!(mihorempo_delete_clause(self: five rec host(host) number(cref.0)));
        self.told(reply).map(|_| ())
    }

    /// Adds a clause of two literals of different variables.
    pub fn add_binary_clause(&mut self, lits: &[Lit]) -> Result<(), Refusal> {
        let reply = call!(mihorempo_add_binary_clause(self: rows lits(lits)));
        self.told(reply).map(|_| ())
    }

    /// The literals that a true literal makes true by binary clauses.
    ///
    /// ```
    /// # use mihorempo::{Capacities, Lit, Refusal, Store};
    /// let mut store = Store::new(3, 0.5, Capacities::default())?;
    /// store.add_binary_clause(&[Lit(0), Lit(4)])?;
    /// assert_eq!(store.implied(Lit(1))?, &[Lit(4)]);
    /// assert_eq!(store.implied(Lit(9)), Err(Refusal::Clause));
    /// # Ok::<(), Refusal>(())
    /// ```
    pub fn implied(&self, lit: Lit) -> Result<&[Lit], Refusal> {
        let part = call!(mihorempo_implied(self: read(self.rows) read(self.counts) number(lit.0)));
        heard(part.number)?;
        Ok(as_lits(&self.rows[part.start..part.start + part.len]))
    }

    /// A live clause's literals.
    pub fn clause_lits(&self, cref: ClauseRef) -> Result<&[Lit], Refusal> {
        let part = call!(mihorempo_clause_lits(self: read(self.words) read(self.clauses) number(cref.0)));
        heard(part.number)?;
        Ok(as_lits(&self.words[part.start..part.start + part.len]))
    }

    /// The tier and the glue that a learned clause would get, by the levels of its literals.
    pub fn assess_learned_clause(&self, host: &Host, lits: &[Lit]) -> Result<Assessed, Refusal> {
        // SAFETY: the slices are borrowed, and only read.
        let assessed = unsafe {
            ffi::mihorempo_assess_learned_clause(
                self.state.vars,
                host.levels.as_ptr(),
                host.levels.len(),
                lits.as_ptr() as *const u32,
                lits.len(),
            )
        };
        heard(assessed.number)?;
        let tier = Tier::from_number(assessed.tier).expect("the library gives tiers to 3");
        Ok(Assessed { tier, glue: assessed.glue })
    }

    /// Bumps a clause's activity, and gives it the glue of its literals' levels where that is less.
    pub fn bump_clause(&mut self, host: &Host, cref: ClauseRef) -> Result<(), Refusal> {
        let reply = call!(mihorempo_bump_clause(self: five read(host.levels) number(cref.0)));
        self.told(reply).map(|_| ())
    }

    /// Lets all activities decay, by making later bumps weigh more.
    pub fn decay(&mut self) -> Result<(), Refusal> {
        let reply = call!(mihorempo_decay(self: write(self.words) write(self.clauses) tiers));
        self.told(reply).map(|_| ())
    }

    /// Sets the decay, strictly between 1/16 and 1.
    pub fn set_decay(&mut self, decay: f32) -> Result<(), Refusal> {
        // SAFETY: no slice is lent.
        let set = unsafe { ffi::mihorempo_set_decay(self.state.activity, decay) };
        heard(set.number)?;
        self.state.activity = set.activity;
        Ok(())
    }

    /// Strikes the less active half of the Local clauses, but for asserting ones. True: the watch lists are to be built anew.
    pub fn reduce_locals(&mut self, host: &Host) -> Result<bool, Refusal> {
        let reply = call!(mihorempo_reduce_locals(self: five rec host(host)));
        self.told(reply).map(|answer| answer == 1)
    }

    /// Sends the Mid clauses that were not active to Local.
    pub fn reduce_mids(&mut self) -> Result<(), Refusal> {
        let reply = call!(mihorempo_reduce_mids(self: five));
        self.told(reply).map(|_| ())
    }

    /// Closes up the words where more than half is garbage; long reasons on the trail follow. True: it did, references held
    /// elsewhere are void and the watch lists are to be built anew.
    pub fn collect_garbage(&mut self, host: &mut Host) -> Result<bool, Refusal> {
        let reply = call!(mihorempo_collect_garbage(self: five read(host.values) read(host.kinds) write(host.reasons)
            read(host.levels) read(host.trail) number(host.assigned) number(host.level)));
        self.told(reply).map(|answer| answer == 1)
    }

    /// At level 0 records the units of the trail, makes them removed units and empties the trail. True: there was a unit.
    pub fn prove_units(&mut self, host: &mut Host) -> Result<bool, Refusal> {
        let reply = call!(mihorempo_prove_units(self: read(self.words) read(self.clauses) rec read(host.values)
            write(host.kinds) write(host.reasons) read(host.levels) write(host.trail) number(host.assigned) number(host.level)));
        let answer = self.told(Reply { number: reply.number, answer: reply.answer, state: reply.state })?;
        host.assigned = reply.assigned;
        Ok(answer == 1)
    }

    /// Strikes satisfied clauses and drops false literals. The watch lists are to be built anew.
    ///
    /// Refused with [`Refusal::Level`] above level 0 or with a trail not empty, with [`Refusal::Open`], with [`Refusal::Room`].
    pub fn unit_simplify(&mut self, host: &Host) -> Result<(), Refusal> {
        let reply = call!(mihorempo_unit_simplify(self: five rows rec host(host)));
        self.told(reply).map(|_| ())
    }

    /// Empties the record.
    pub fn empty_record(&mut self) -> Result<(), Refusal> {
        let reply = call!(mihorempo_empty_record(self: rec));
        self.told(reply).map(|_| ())
    }

    /// The header fields of the clause at a reference; all 0 where fewer than three words are left there.
    pub fn view_fields(&self, cref: ClauseRef) -> Fields {
        let words = self.from(cref);
        // SAFETY: the slice is borrowed, and only read.
        let f = unsafe { ffi::mihorempo_view_fields(words.as_ptr(), words.len()) };
        Fields {
            activity: f32::from_bits(f.activity),
            tier: Tier::from_number(f.tier).expect("the library gives tiers to 3"),
            deleted: f.deleted == 1,
            mark: f.mark == 1,
            glue: f.glue,
            active: f.active == 1,
            len: f.len,
        }
    }

    /// The literal at a place of the clause at a reference; refused with [`Refusal::Clause`] where it has none.
    pub fn view_literal(&self, cref: ClauseRef, place: usize) -> Result<Lit, Refusal> {
        let words = self.from(cref);
        // SAFETY: the slice is borrowed, and only read.
        let p = unsafe { ffi::mihorempo_view_literal(words.as_ptr(), words.len(), place) };
        heard(p.number)?;
        Ok(Lit(p.literal))
    }

    // ---- what the buffers hold

    /// The state.
    pub fn state(&self) -> &State {
        &self.state
    }

    /// The number of variables.
    pub fn vars(&self) -> usize {
        self.state.vars
    }

    /// The live clauses of a tier.
    pub fn count(&self, tier: Tier) -> usize {
        self.state.counts[tier.number()]
    }

    /// The references of the live long clauses, in the clause list's order.
    pub fn clause_refs(&self) -> impl Iterator<Item = ClauseRef> + '_ {
        self.clauses[..self.state.clauses].iter().map(|&at| ClauseRef(at)).filter(move |&cref| !self.view_fields(cref).deleted)
    }

    /// The binary clauses, the lower literal first, by ascending literals.
    pub fn binary_clauses(&self) -> Vec<[Lit; 2]> {
        let mut pairs = Vec::new();
        for code in 0..2 * self.state.vars as u32 {
            let low = Lit(code);
            let row = self.implied(!low).expect("a started store passes");
            pairs.extend(row.iter().filter(|&&high| low < high).map(|&high| [low, high]));
        }
        pairs.sort();
        pairs
    }

    /// The lines of the record, the oldest first.
    pub fn record(&self) -> impl Iterator<Item = Line<'_>> + '_ {
        let rec = &self.rec[..self.state.recorded];
        let mut at = 0;
        std::iter::from_fn(move || {
            if at >= rec.len() {
                return None;
            }
            let kind = match rec[at] {
                1 => Kind::Unit,
                2 => Kind::EnteredOriginal,
                3 => Kind::EnteredRedundant,
                4 => Kind::StruckRedundant,
                5 => Kind::StruckSatisfied,
                _ => Kind::StruckSimplified,
            };
            let start = at + 2;
            at = start + rec[at + 1] as usize;
            Some(Line { kind, lits: as_lits(&rec[start..at]) })
        })
    }

    /// The variables.
    pub fn variables(&self) -> impl Iterator<Item = Var> {
        (0..self.state.vars as u32).map(Var)
    }

    // The words from a clause's word 0 to its end, as far as they go.
    fn from(&self, cref: ClauseRef) -> &[u32] {
        let rest = self.words[..self.state.words].get(cref.0 as usize..).unwrap_or(&[]);
        let len = rest.get(2).map_or(rest.len(), |&len| rest.len().min(3 + len as usize));
        &rest[..len]
    }

    // A refused call gives the state back as it was.
    fn told(&mut self, reply: Reply) -> Result<u32, Refusal> {
        self.state = reply.state;
        heard(reply.number)?;
        Ok(reply.answer)
    }
}
