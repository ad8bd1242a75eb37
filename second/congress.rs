//! A congress of halls: its tables, and the calls but for Deliver and Work (docs/RULES.md, "The
//! congress").

use crate::book::{Keys, Operation, HALLS};
use crate::messages::{
    Class, Halls, Message, Request, Transaction, CONSOLES, LAST_SEQUENCE, LAST_STAMP,
};

const PLACES_USED: usize = 1_024;

#[derive(Clone, Copy, PartialEq, Eq)]
#[repr(u8)]
pub enum Refusal {
    NotThere = 1,
    TransactionOpen = 2,
    HallsDoNotFit = 3,
    SequencesUsedUp = 4,
    PastTheLastStamp = 5,
    NoRoomInPost = 6,
    QueueFull = 7,
    NothingMayRun = 8,
    PostTooShort = 9,
}

impl Refusal {
    pub fn number(self) -> u8 {
        self as u8
    }
}

#[derive(Clone, Copy, Default, PartialEq, Eq)]
pub enum Mode {
    #[default]
    Timestamp,
    Locking,
}

/// An open hall. `taken` has the highest sequence taken from each console.
#[derive(Clone, Default)]
pub struct Hall {
    pub clock: u64,
    pub last: u64,
    pub mode: Mode,
    pub taken: [u32; CONSOLES],
}

impl Hall {
    pub fn stamp_for(&self, high: u64) -> Option<u64> {
        let greatest = high.max(self.last).max(self.clock);
        (greatest < LAST_STAMP).then_some(greatest + 1)
    }
}

#[derive(Clone, Copy, Default)]
pub struct Console {
    pub has_open_transaction: bool,
    pub sequence: u32,
    pub named: Halls,
    pub replied: Halls,
    pub high: u64,
}

/// A hall's part of a transaction that waits.
#[derive(Clone, Copy)]
pub struct Entry {
    pub hall: usize,
    pub transaction: Transaction,
    pub class: Class,
    pub halls: Halls,
    pub votes: Halls,
    pub stamp: u64,
    pub keys: Keys,
    pub operation: Operation,
}

impl Entry {
    pub fn is_ready(&self) -> bool {
        self.votes == self.halls
    }
}

/// A congress not yet opened is the default one.
#[derive(Clone, Default)]
pub struct Congress {
    pub halls: Vec<Hall>,
    pub consoles: [Console; CONSOLES],
    pub queue: Vec<Entry>,
    /// How many messages are in the post.
    pub messages: usize,
}

/// The order of the checks in each call is the order of refusals in the rules.
impl Congress {
    pub fn open(&mut self, halls: usize) -> Result<(), Refusal> {
        refuse_if(!(1..=HALLS).contains(&halls), Refusal::HallsDoNotFit)?;
        *self = Self {
            halls: vec![Hall::default(); halls],
            ..Self::default()
        };
        Ok(())
    }

    pub fn issue(
        &mut self,
        post: &mut [Message],
        console: usize,
        class: u8,
        halls: Halls,
        operations: &[Operation; HALLS],
    ) -> Result<Transaction, Refusal> {
        self.check_length(post)?;
        let asking = self.consoles.get(console).ok_or(Refusal::NotThere)?;
        refuse_if(asking.has_open_transaction, Refusal::TransactionOpen)?;
        let class = self.class_that_fits(class, halls)?;
        refuse_if(asking.sequence >= LAST_SEQUENCE, Refusal::SequencesUsedUp)?;
        self.check_room(post, halls.count())?;

        let transaction = self.consoles[console].begin(console, halls);
        for hall in halls.ascending() {
            let request = Request {
                transaction,
                hall,
                class,
                halls,
                high: self.consoles[console].high,
                operation: operations[hall],
            };
            self.send(post, Message::Request(request));
        }
        Ok(transaction)
    }

    pub fn clock(&mut self, hall: usize, time: u64) -> Result<(), Refusal> {
        let hall = self.halls.get_mut(hall).ok_or(Refusal::NotThere)?;
        refuse_if(time > LAST_STAMP, Refusal::PastTheLastStamp)?;
        hall.clock = time;
        Ok(())
    }

    /// The place after the last message left keeps what it had.
    pub fn drop(&mut self, post: &mut [Message], place: usize) -> Result<(), Refusal> {
        self.check_length(post)?;
        refuse_if(place >= self.messages, Refusal::NotThere)?;
        self.messages -= 1;
        post[place] = post[self.messages];
        Ok(())
    }

    pub fn find(
        &self,
        post: &[Message],
        transaction: Transaction,
    ) -> Result<Option<usize>, Refusal> {
        self.check_length(post)?;
        let mut messages = post[..self.messages].iter();
        Ok(messages.position(|message| message.transaction() == transaction))
    }
}

/// What the calls share.
impl Congress {
    pub fn check_length(&self, post: &[Message]) -> Result<(), Refusal> {
        refuse_if(post.len() < self.messages, Refusal::PostTooShort)
    }

    /// Whether so many more messages have room in the post.
    pub fn check_room(&self, post: &[Message], more: usize) -> Result<(), Refusal> {
        let places = post.len().min(PLACES_USED);
        refuse_if(self.messages + more > places, Refusal::NoRoomInPost)
    }

    /// There is room for the message.
    pub fn send(&mut self, post: &mut [Message], message: Message) {
        post[self.messages] = message;
        self.messages += 1;
    }

    fn class_that_fits(&self, number: u8, halls: Halls) -> Result<Class, Refusal> {
        Class::from_number(number)
            .filter(|class| class.fits(halls, self.halls.len()))
            .ok_or(Refusal::HallsDoNotFit)
    }
}

impl Console {
    /// It is the console of this number, and free.
    fn begin(&mut self, number: usize, halls: Halls) -> Transaction {
        self.has_open_transaction = true;
        self.sequence += 1;
        self.named = halls;
        self.replied = Halls::default();
        Transaction::new(self.sequence, number)
    }
}

pub fn refuse_if(condition: bool, refusal: Refusal) -> Result<(), Refusal> {
    if condition {
        Err(refusal)
    } else {
        Ok(())
    }
}
