//! The roll of deputies: a book over any book, which lets an operation through only under a grant
//! that stands (docs/RULES.md, "The roll of deputies").

use std::num::NonZeroU32;

use crate::book::{self, Answer, Fault, Keys, News, Operation};

pub const LAYER: u8 = 3;

const ENTRIES: usize = 16;
const LAST_ENTRY: u16 = 15;
/// Each entry has the key that is this and its number together.
const ENTRY_KEYS: u16 = 48;
const CHIEF: u8 = 0;

#[derive(Clone, Copy)]
#[repr(u8)]
pub enum Kind {
    Appoint = 1,
    Remove = 2,
    Read = 3,
}

impl Kind {
    pub fn from_number(number: u8) -> Option<Self> {
        [Self::Appoint, Self::Remove, Self::Read]
            .into_iter()
            .find(|kind| kind.number() == number)
    }

    pub fn number(self) -> u8 {
        self as u8
    }
}

#[derive(Clone, Copy)]
#[repr(u8)]
pub enum Cause {
    GrantDoesNotStand = 1,
    NotTheChief = 2,
    NoSuchEntry = 3,
    NoSuchToken = 4,
    NoSuchHall = 255,
}

impl Cause {
    pub fn from_number(number: u8) -> Option<Self> {
        [
            Self::GrantDoesNotStand,
            Self::NotTheChief,
            Self::NoSuchEntry,
            Self::NoSuchToken,
            Self::NoSuchHall,
        ]
        .into_iter()
        .find(|cause| *cause as u8 == number)
    }
}

/// What came of an operation of the roll's own that was well done.
pub enum Done {
    Appointed { in_place_of_another: bool },
    Removed { was_filled: bool },
    Read { is_filled: bool },
}

impl Done {
    fn value(&self) -> i32 {
        let (Self::Appointed {
            in_place_of_another: filled,
        }
        | Self::Removed { was_filled: filled }
        | Self::Read { is_filled: filled }) = *self;
        filled.into()
    }
}

/// What is the roll's own, or comes unaltered from the book below.
pub enum Layered<Own, Below> {
    Own(Own),
    Below(Below),
}

impl<Below: book::Cause> book::Cause for Layered<Cause, Below> {
    fn layer(&self) -> u8 {
        match self {
            Self::Own(_) => LAYER,
            Self::Below(cause) => cause.layer(),
        }
    }

    fn number(&self) -> u8 {
        match self {
            Self::Own(cause) => *cause as u8,
            Self::Below(cause) => cause.number(),
        }
    }
}

impl<Party, Below: book::Done<Party>> book::Done<Party> for Layered<Done, Below> {
    fn layer(&self) -> u8 {
        match self {
            Self::Own(_) => LAYER,
            Self::Below(done) => done.layer(),
        }
    }

    fn value(&self) -> i32 {
        match self {
            Self::Own(done) => done.value(),
            Self::Below(done) => done.value(),
        }
    }

    fn news(&self) -> Option<News<Party>> {
        match self {
            Self::Own(_) => None,
            Self::Below(done) => done.news(),
        }
    }
}

/// A filled entry's token, which is never 0.
type Token = NonZeroU32;

#[derive(Clone)]
pub struct Page<Below> {
    entries: [Option<Token>; ENTRIES],
    below: Below,
}

impl<Below> Page<Below> {
    /// The chief's token 0 leaves entry 0 as empty as the others; then no grant ever stands.
    pub fn new(chief_token: u32, below: Below) -> Self {
        let mut entries = [None; ENTRIES];
        entries[usize::from(CHIEF)] = Token::new(chief_token);
        Self { entries, below }
    }
}

impl<Below: book::Page> book::Page for Page<Below> {
    type Party = Below::Party;
    type Points = Below::Points;
    type Done = Layered<Done, Below::Done>;
    type Cause = Layered<Cause, Below::Cause>;
    const NO_SUCH_HALL: Self::Cause = Layered::Own(Cause::NoSuchHall);

    fn keys(operation: Operation) -> Keys {
        let of_entry = |number| Keys::of_part(ENTRY_KEYS, number, LAST_ENTRY);
        let asked = match Kind::from_number(operation.kind) {
            Some(_) => of_entry(operation.a),
            None => Below::keys(operation),
        };
        of_entry(operation.grant.into()).and(asked)
    }

    fn run(&mut self, operation: Operation) -> Answer<Self> {
        if !self.stands(operation.grant, operation.token) {
            let fault = grant_fault(operation.grant, Cause::GrantDoesNotStand);
            return Err(fault.map(Layered::Own));
        }
        match Kind::from_number(operation.kind) {
            Some(kind) => self
                .run_own(kind, operation)
                .map(Layered::Own)
                .map_err(|fault| fault.map(Layered::Own)),
            None => self
                .below
                .run(operation)
                .map(Layered::Below)
                .map_err(|fault| fault.map(Layered::Below)),
        }
    }

    fn numbers(&self) -> Vec<i64> {
        let token = |entry: &Option<Token>| entry.map_or(0, |token| token.get().into());
        let mut numbers: Vec<i64> = self.entries.iter().map(token).collect();
        numbers.extend(self.below.numbers());
        numbers
    }

    fn points(&self, party: Self::Party) -> Self::Points {
        self.below.points(party)
    }
}

/// The order of the checks in each operation is the order of faults in the rules.
impl<Below> Page<Below> {
    fn stands(&self, grant: u8, token: u32) -> bool {
        let entry = self.entries.get(usize::from(grant)).copied().flatten();
        entry.is_some_and(|filled| filled.get() == token)
    }

    fn run_own(&mut self, kind: Kind, operation: Operation) -> Result<Done, Fault<Cause>> {
        let Operation { grant, a, c, .. } = operation;
        match kind {
            Kind::Appoint => {
                only_the_chief(grant)?;
                self.appoint(a, c)
            }
            Kind::Remove => {
                only_the_chief(grant)?;
                self.remove(a)
            }
            Kind::Read => self.read(a),
        }
    }

    fn appoint(&mut self, number: u16, token: i32) -> Result<Done, Fault<Cause>> {
        let entry = self.alterable_entry(number)?;
        let token = u32::try_from(token)
            .ok()
            .and_then(Token::new)
            .ok_or(Fault {
                cause: Cause::NoSuchToken,
                place: number,
            })?;
        Ok(Done::Appointed {
            in_place_of_another: entry.replace(token).is_some(),
        })
    }

    fn remove(&mut self, number: u16) -> Result<Done, Fault<Cause>> {
        Ok(Done::Removed {
            was_filled: self.alterable_entry(number)?.take().is_some(),
        })
    }

    fn read(&mut self, number: u16) -> Result<Done, Fault<Cause>> {
        Ok(Done::Read {
            is_filled: self.entry(number)?.is_some(),
        })
    }

    /// Any entry but the chief's, which can be read but never altered.
    fn alterable_entry(&mut self, number: u16) -> Result<&mut Option<Token>, Fault<Cause>> {
        if number == u16::from(CHIEF) {
            return Err(no_such_entry(number));
        }
        self.entry(number)
    }

    fn entry(&mut self, number: u16) -> Result<&mut Option<Token>, Fault<Cause>> {
        self.entries
            .get_mut(usize::from(number))
            .ok_or(no_such_entry(number))
    }
}

fn only_the_chief(grant: u8) -> Result<(), Fault<Cause>> {
    if grant == CHIEF {
        Ok(())
    } else {
        Err(grant_fault(grant, Cause::NotTheChief))
    }
}

fn grant_fault(grant: u8, cause: Cause) -> Fault<Cause> {
    Fault {
        cause,
        place: u16::from(grant),
    }
}

fn no_such_entry(number: u16) -> Fault<Cause> {
    Fault {
        cause: Cause::NoSuchEntry,
        place: number,
    }
}
