//! Transactions, and the messages that halls and consoles send each other (docs/RULES.md,
//! "Transactions and messages").

use std::fmt::{self, Display, Formatter};

use crate::book::{NumericAnswer, Operation, HALLS};

pub const CONSOLES: usize = 16;
pub const LAST_SEQUENCE: u32 = 1_048_576;
pub const LAST_STAMP: u64 = 1 << 48;

/// A set of halls, bit h for hall h.
#[derive(Clone, Copy, Default, PartialEq, Eq)]
pub struct Halls(pub u8);

impl Halls {
    /// The hall is one of the eight.
    pub fn of(hall: usize) -> Self {
        Self(1 << hall)
    }

    pub fn ascending(self) -> impl Iterator<Item = usize> {
        (0..HALLS).filter(move |hall| self.has(*hall))
    }

    pub fn count(self) -> usize {
        self.0.count_ones() as usize
    }

    pub fn has(self, hall: usize) -> bool {
        hall < HALLS && self.0 >> hall & 1 == 1
    }

    pub fn with(self, hall: usize) -> Self {
        Self(self.0 | Self::of(hall).0)
    }

    pub fn without(self, hall: usize) -> Self {
        Self(self.0 & !Self::of(hall).0)
    }
}

impl Display for Halls {
    fn fmt(&self, out: &mut Formatter) -> fmt::Result {
        let numbers: Vec<String> = self.ascending().map(|hall| hall.to_string()).collect();
        out.write_str(&numbers.join(" "))
    }
}

#[derive(Clone, Copy, Default, PartialEq, Eq, PartialOrd, Ord)]
pub struct Transaction(pub u32);

impl Transaction {
    pub fn new(sequence: u32, console: usize) -> Self {
        Self(sequence * CONSOLES as u32 + console as u32)
    }

    pub fn sequence(self) -> u32 {
        self.0 / CONSOLES as u32
    }

    pub fn console(self) -> usize {
        self.0 as usize % CONSOLES
    }
}

impl Display for Transaction {
    fn fmt(&self, out: &mut Formatter) -> fmt::Result {
        self.0.fmt(out)
    }
}

#[derive(Clone, Copy, Default, PartialEq, Eq)]
#[repr(u8)]
pub enum Class {
    #[default]
    Single = 1,
    Independent = 2,
    Coordinated = 3,
}

impl Class {
    pub fn from_number(number: u8) -> Option<Self> {
        [Self::Single, Self::Independent, Self::Coordinated]
            .into_iter()
            .find(|class| class.number() == number)
    }

    pub fn number(self) -> u8 {
        self as u8
    }

    /// Whether the halls fit the class, where so many are open.
    pub fn fits(self, halls: Halls, open: usize) -> bool {
        let as_many_as_asked = match self {
            Self::Single => halls.count() == 1,
            Self::Independent | Self::Coordinated => halls.count() >= 2,
        };
        as_many_as_asked && halls.ascending().all(|hall| hall < open)
    }
}

#[derive(Clone, Copy, Default, PartialEq, Eq)]
pub enum Status {
    #[default]
    Commit,
    Conflict,
    Abort,
}

#[derive(Clone, Copy, Default)]
pub struct Request {
    pub transaction: Transaction,
    pub hall: usize,
    pub class: Class,
    pub halls: Halls,
    pub high: u64,
    pub operation: Operation,
}

impl Request {
    /// Where the votes go.
    pub fn other_halls(&self) -> Halls {
        self.halls.without(self.hall)
    }
}

#[derive(Clone, Copy, Default)]
pub struct Vote {
    pub transaction: Transaction,
    pub from: usize,
    pub to: usize,
    pub stamp: u64,
    pub status: Status,
}

#[derive(Clone, Copy, Default)]
pub struct Reply {
    pub transaction: Transaction,
    pub from: usize,
    pub stamp: u64,
    pub status: Status,
    pub answer: NumericAnswer,
}

#[derive(Clone, Copy)]
pub enum Message {
    Request(Request),
    Vote(Vote),
    Reply(Reply),
}

/// What stands in a place of the post where no message was ever put.
impl Default for Message {
    fn default() -> Self {
        Self::Request(Request::default())
    }
}

impl Message {
    pub fn transaction(&self) -> Transaction {
        match self {
            Self::Request(request) => request.transaction,
            Self::Vote(vote) => vote.transaction,
            Self::Reply(reply) => reply.transaction,
        }
    }

    /// Whether it is lawful where so many halls are open.
    pub fn is_lawful(&self, open: usize) -> bool {
        let fits = match self {
            Self::Request(request) => {
                request.class.fits(request.halls, open)
                    && request.halls.has(request.hall)
                    && request.high <= LAST_STAMP
            }
            Self::Vote(vote) => {
                vote.from < open && vote.to < open && vote.from != vote.to && is_stamp(vote.stamp)
            }
            Self::Reply(reply) => reply.from < open && is_stamp(reply.stamp),
        };
        fits && (1..=LAST_SEQUENCE).contains(&self.transaction().sequence())
    }
}

fn is_stamp(number: u64) -> bool {
    (1..=LAST_STAMP).contains(&number)
}
