//! What every book shares (docs/RULES.md, "Operations and answers" and "Books").
//! A game or a roll implements `Page` and gets its eight halls from `Book`.

use std::fmt::Display;

pub const HALLS: usize = 8;

pub const FIRST_ROUND: u16 = 1;
pub const LAST_ROUND_TO_CLOSE: u16 = 99;

/// What a book is asked to do.
#[derive(Clone, Copy, Default, PartialEq, Eq)]
pub struct Operation {
    pub kind: u8,
    pub grant: u8,
    pub token: u32,
    pub a: u16,
    pub b: u16,
    pub c: i32,
    pub d: u16,
}

pub struct Fault<C> {
    pub cause: C,
    pub place: u16,
}

impl<C> Fault<C> {
    pub fn map<D>(self, convert: impl FnOnce(C) -> D) -> Fault<D> {
        Fault {
            cause: convert(self.cause),
            place: self.place,
        }
    }
}

/// A cause of faults. Its text is the one that goes with its layer and number.
pub trait Cause: Display {
    fn layer(&self) -> u8;
    fn number(&self) -> u8;
}

/// What came of an operation that was well done. Its text is the answer in the account.
pub trait Done<Party>: Display {
    fn layer(&self) -> u8;
    fn value(&self) -> i32;
    fn news(&self) -> Option<News<Party>>;
}

/// What an operation that was well done changes in the standings.
pub enum News<Party> {
    TookPart([Party; 2]),
    RoundBegins(u16),
}

/// A set of the key numbers 0 to 63: bit k for key k.
#[derive(Clone, Copy, Default, PartialEq, Eq)]
pub struct Keys(u64);

impl Keys {
    pub fn of(numbers: impl IntoIterator<Item = u16>) -> Self {
        Self(numbers.into_iter().fold(0, |bits, key| bits | 1 << key))
    }

    /// The key that is the base and the number together, where the number is at most the greatest.
    pub fn of_part(base: u16, number: u16, greatest: u16) -> Self {
        Self::of((number <= greatest).then(|| base + number))
    }

    pub fn and(self, other: Self) -> Self {
        Self(self.0 | other.0)
    }

    pub fn meets(self, other: Self) -> bool {
        self.0 & other.0 != 0
    }
}

/// One hall's page. A fault leaves it as it was.
pub trait Page: Clone {
    /// Of equal points, the lesser party comes first in the standings.
    type Party: Copy + Ord + Display;
    type Points: Copy + Ord + Display;
    type Done: Done<Self::Party>;
    type Cause: Cause;
    const NO_SUCH_HALL: Self::Cause;

    /// The keys that the operation needs.
    fn keys(operation: Operation) -> Keys;

    fn run(&mut self, operation: Operation) -> Answer<Self>;

    /// The page as the list of its numbers.
    fn numbers(&self) -> Vec<i64>;

    /// What the party has gained in the rounds closed so far.
    fn points(&self, party: Self::Party) -> Self::Points;
}

pub type Answer<P> = Result<<P as Page>::Done, Fault<<P as Page>::Cause>>;

/// An answer in numbers, as it is sent and told.
#[derive(Clone, Copy, Default, PartialEq, Eq)]
pub struct NumericAnswer {
    pub layer: u8,
    pub cause: u8,
    pub place: u16,
    pub value: i32,
}

impl NumericAnswer {
    pub fn of<P: Page>(answer: &Answer<P>) -> Self {
        match answer {
            Ok(done) => Self {
                layer: done.layer(),
                value: done.value(),
                ..Self::default()
            },
            Err(Fault { cause, place }) => Self {
                layer: cause.layer(),
                cause: cause.number(),
                place: *place,
                value: 0,
            },
        }
    }

    pub fn is_well_done(self) -> bool {
        self.cause == 0
    }
}

#[derive(Clone)]
pub struct Book<P> {
    pages: [P; HALLS],
}

impl<P: Page> Book<P> {
    /// A book with the same page in every hall.
    pub fn new(page: P) -> Self {
        Self {
            pages: std::array::from_fn(|_| page.clone()),
        }
    }

    pub fn page(&self, hall: u8) -> Option<&P> {
        self.pages.get(usize::from(hall))
    }

    /// What `run` would answer.
    pub fn verdict(&self, hall: u8, operation: Operation) -> Answer<P> {
        match self.pages.get(usize::from(hall)) {
            Some(page) => page.clone().run(operation),
            None => Err(Self::no_hall(hall)),
        }
    }

    pub fn run(&mut self, hall: u8, operation: Operation) -> Answer<P> {
        match self.pages.get_mut(usize::from(hall)) {
            Some(page) => page.run(operation),
            None => Err(Self::no_hall(hall)),
        }
    }

    fn no_hall(hall: u8) -> Fault<P::Cause> {
        Fault {
            cause: P::NO_SUCH_HALL,
            place: u16::from(hall),
        }
    }
}
