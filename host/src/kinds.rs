//! Literals, references, tiers, reasons, refusals.

use std::fmt;

/// A literal's code: twice the variable's index, plus 1 if negated.
#[repr(transparent)]
#[derive(Clone, Copy, Debug, PartialEq, Eq, PartialOrd, Ord, Hash)]
pub struct Lit(pub u32);

impl Lit {
    /// The literal that says the variable is true.
    pub fn positive(var: Var) -> Lit {
        Lit(var.0 * 2)
    }

    /// The literal that says the variable is false.
    pub fn negative(var: Var) -> Lit {
        Lit(var.0 * 2 + 1)
    }

    /// The literal's variable.
    pub fn var(self) -> Var {
        Var(self.0 / 2)
    }

    /// Whether the literal is negated.
    pub fn is_negative(self) -> bool {
        self.0 % 2 == 1
    }
}

/// The opposite literal.
impl std::ops::Not for Lit {
    type Output = Lit;

    fn not(self) -> Lit {
        Lit(self.0 ^ 1)
    }
}

/// A variable's index.
#[repr(transparent)]
#[derive(Clone, Copy, Debug, PartialEq, Eq, PartialOrd, Ord, Hash)]
pub struct Var(pub u32);

/// The offset of a long clause in the word buffer. A collection moves clauses, and only reasons on the trail follow.
#[repr(transparent)]
#[derive(Clone, Copy, Debug, PartialEq, Eq, PartialOrd, Ord, Hash)]
pub struct ClauseRef(pub u32);

/// A long clause's tier.
#[derive(Clone, Copy, Debug, PartialEq, Eq, PartialOrd, Ord, Hash)]
pub enum Tier {
    /// Original clauses: never deleted by a call that reduces.
    Irred,
    /// Redundant clauses that are kept.
    Core,
    /// Redundant clauses that go to `Local` when they were not active.
    Mid,
    /// Redundant clauses of which the less active half goes.
    Local,
}

impl Tier {
    /// All four, by their numbers.
    pub const ALL: [Tier; 4] = [Tier::Irred, Tier::Core, Tier::Mid, Tier::Local];

    /// 0 Irred, 1 Core, 2 Mid, 3 Local.
    pub fn number(self) -> usize {
        self as usize
    }

    /// The tier of a number from 0 to 3.
    pub fn from_number(number: u32) -> Option<Tier> {
        Tier::ALL.get(number as usize).copied()
    }
}

/// Why a variable has its value.
#[derive(Clone, Copy, Debug, PartialEq, Eq, Hash)]
pub enum Reason {
    /// It has none.
    None,
    /// A decision, or a unit clause of the input.
    Unit,
    /// A binary clause with this other literal.
    Binary(Lit),
    /// A long clause whose first literal this is.
    Long(ClauseRef),
    /// A unit that `prove_units` took off the trail.
    Removed,
}

impl Reason {
    pub(crate) fn kind(self) -> u8 {
        match self {
            Reason::None => 0,
            Reason::Unit => 1,
            Reason::Binary(_) => 2,
            Reason::Long(_) => 3,
            Reason::Removed => 4,
        }
    }

    pub(crate) fn value(self) -> u32 {
        match self {
            Reason::Binary(lit) => lit.0,
            Reason::Long(cref) => cref.0,
            _ => 0,
        }
    }

    pub(crate) fn of(kind: u8, value: u32) -> Reason {
        match kind {
            1 => Reason::Unit,
            2 => Reason::Binary(Lit(value)),
            3 => Reason::Long(ClauseRef(value)),
            4 => Reason::Removed,
            _ => Reason::None,
        }
    }
}

/// Why a call was refused. A refused call changes nothing; where several hold, the lowest number is given.
#[derive(Clone, Copy, Debug, PartialEq, Eq, PartialOrd, Ord, Hash)]
pub enum Refusal {
    /// 1: the number of variables, a buffer's length or a used length is out of its range.
    Size = 1,
    /// 2: the lent store doesn't pass.
    Store = 2,
    /// 3: the lent host side doesn't pass.
    Host = 3,
    /// 4: a literal out of range, a variable twice, a clause of a wrong length, or a place with no literal.
    Clause = 4,
    /// 5: a tier above 3, or an original with glue.
    Tier = 5,
    /// 6: the reference is not a live clause.
    Reference = 6,
    /// 7: deleting an original, or a tier change into or out of Irred.
    Original = 7,
    /// 8: deleting the reason of its first literal.
    Asserting = 8,
    /// 9: simplifying above level 0 or with a trail not empty.
    Level = 9,
    /// 10: simplifying where a clause has no true literal and fewer than two unassigned.
    Open = 10,
    /// 11: no room for the finished call.
    Room = 11,
    /// 12: the decay is not strictly between 1/16 and 1.
    Decay = 12,
}

impl Refusal {
    /// All twelve, by their numbers.
    pub const ALL: [Refusal; 12] = [
        Refusal::Size,
        Refusal::Store,
        Refusal::Host,
        Refusal::Clause,
        Refusal::Tier,
        Refusal::Reference,
        Refusal::Original,
        Refusal::Asserting,
        Refusal::Level,
        Refusal::Open,
        Refusal::Room,
        Refusal::Decay,
    ];

    /// The number of the table.
    ///
    /// ```
    /// assert_eq!(mihorempo::Refusal::Room.number(), 11);
    /// ```
    pub fn number(self) -> u32 {
        self as u32
    }

    /// The refusal of a number from 1 to 12.
    pub fn from_number(number: u32) -> Option<Refusal> {
        Refusal::ALL.into_iter().find(|refusal| refusal.number() == number)
    }
}

impl fmt::Display for Refusal {
    fn fmt(&self, f: &mut fmt::Formatter<'_>) -> fmt::Result {
        let why = match self {
            Refusal::Size => "a size is out of range",
            Refusal::Store => "the store does not pass",
            Refusal::Host => "the host's side does not pass",
            Refusal::Clause => "the clause or literal is wrong",
            Refusal::Tier => "the tier or its glue is wrong",
            Refusal::Reference => "the reference is not a live clause",
            Refusal::Original => "the clause is an original",
            Refusal::Asserting => "the clause is asserting",
            Refusal::Level => "not at level 0 with an empty trail",
            Refusal::Open => "a clause is false or leaves one literal",
            Refusal::Room => "a buffer lacks room",
            Refusal::Decay => "the decay is out of range",
        };
        write!(f, "refused ({}): {}", self.number(), why)
    }
}

impl std::error::Error for Refusal {}
