//! Lists of calls by seed. Each call is made at a plain congress as it is written down, so as to choose
//! calls that mostly do something: requests, votes and replies arrive in any order and are dropped
//! once they are spent, halls work, and consoles issue what helps the play on. Some messages come
//! twice, some are lost, clocks move on, and some calls are refused.

use crate::asking::Asker;
use crate::book::{NumericAnswer, Operation, Page, HALLS};
use crate::chance::Chance;
use crate::congress::{Entry, Mode};
use crate::messages::{Class, Halls, Message, CONSOLES};
use crate::operations::{Game, Signature};
use crate::plain::Plain;
use crate::rows::{
    CallRow, Calls, OperationRow, PartsRow, ToldRow, CLOCK, DELIVER, DROP, ISSUE, OPEN, OUTCOME,
    POST_PLACES, WORK,
};

/// The chief's token in every list.
pub const CHIEF_TOKEN: u32 = 7;

/// After so many calls the congress is opened anew; what was lost before is then forgotten.
const CALLS_OF_A_DAY: usize = 2_000;
/// How many operations are tried for one that is well done.
const TRIALS: usize = 8;
const QUEUE_PLACES: usize = 64;
/// How many places of the post are kept free, so that most calls find room.
const SPARE_PLACES: usize = 200;
/// How often another message is sought where one would come too early.
const SEARCHES: usize = 4;

#[derive(Clone, Copy)]
pub struct Mix {
    pub game: Game,
    pub halls: usize,
    /// The class of three in four transactions; the others are single.
    pub class: Class,
    /// Parts wait until the queue is full, and it mostly stays so; all are of the class then.
    pub is_full: bool,
}

pub fn list<P: Page>(mix: Mix, page: P, seed: u64, calls: usize) -> Calls {
    let mut lister = Lister {
        chance: Chance::new(seed),
        mix,
        plain: Plain::new(page),
        calls: Calls::default(),
        once_appointed: Vec::new(),
        in_flight: 16,
        next_day: 0,
    };
    while lister.calls.rows.len() < calls {
        if lister.calls.rows.len() >= lister.next_day {
            lister.open();
        }
        lister.turn();
    }
    lister.calls.rows.truncate(calls);
    lister.calls
}

struct Lister<P: Page> {
    chance: Chance,
    mix: Mix,
    plain: Plain<P>,
    calls: Calls,
    once_appointed: Vec<Signature>,
    /// How many messages and waiting parts there may be before another transaction is issued.
    in_flight: usize,
    next_day: usize,
}

impl<P: Page> Lister<P> {
    /// Writes the call, and makes it.
    fn call(&mut self, call: CallRow) -> ToldRow {
        self.calls.rows.push(call);
        self.plain.make(&self.calls.parts, &call)
    }

    fn simple(&mut self, kind: u8, at: usize, number: u64) -> ToldRow {
        self.call(CallRow {
            kind,
            at: at as u8,
            number,
            ..CallRow::default()
        })
    }

    fn open(&mut self) {
        self.next_day = self.calls.rows.len() + CALLS_OF_A_DAY;
        self.simple(OPEN, self.mix.halls, 0);
    }

    fn turn(&mut self) {
        if self.chance.one_in(40) {
            self.in_flight = match (self.mix.is_full, self.mix.class) {
                (true, _) => POST_PLACES,
                (false, Class::Coordinated) => 1 + self.chance.below(12),
                (false, _) => 1 + self.chance.below(32),
            };
        }
        match self.chance.below(300) {
            0..=6 => self.refused(),
            7..=9 => self.clock(),
            10..=15 => self.double(),
            16 => self.lose(),
            _ => self.useful(),
        }
    }

    fn refused(&mut self) {
        let messages = self.plain.congress.messages as u64;
        let hall = self.chance.below(HALLS + 1);
        match self.chance.below(6) {
            0 => self.simple(OPEN, 9, 0),
            1 => self.simple(DELIVER, 0, messages),
            2 => self.simple(DROP, 0, u64::MAX),
            3 => self.simple(CLOCK, hall, u64::MAX),
            4 => self.simple(ISSUE, hall, 0),
            _ => self.simple(WORK, hall, 0),
        };
    }

    fn clock(&mut self) {
        let hall = self.chance.below(self.mix.halls);
        let Some(now) = self.plain.congress.halls.get(hall) else {
            return;
        };
        let time = now.last + self.chance.below(40) as u64;
        self.simple(CLOCK, hall, time);
    }

    /// A message comes, and stays to come again.
    fn double(&mut self) {
        if let Some(place) = self.any_place() {
            self.simple(DELIVER, 0, place);
        }
    }

    fn lose(&mut self) {
        if let Some(place) = self.any_place() {
            self.simple(DROP, 0, place);
        }
    }

    fn any_place(&mut self) -> Option<u64> {
        let messages = self.plain.congress.messages;
        (messages > 0).then(|| self.chance.below(messages) as u64)
    }

    fn useful(&mut self) {
        let is_queue_full = self.plain.congress.queue.len() >= QUEUE_PLACES - 4;
        let works = match self.mix.is_full {
            true => is_queue_full && self.chance.one_in(3),
            false => self.chance.one_in(3),
        };
        if works && self.work() {
            return;
        }
        if self.chance.one_in(3) && self.issue() {
            return;
        }
        if !self.deliver() && !self.work() && !self.issue() {
            // All consoles wait for what was lost.
            self.open();
        }
    }
}

/// Messages.
impl<P: Page> Lister<P> {
    fn deliver(&mut self) -> bool {
        let Some(mut place) = self.any_place() else {
            return false;
        };
        for _ in 0..SEARCHES {
            if !self.is_early(place as usize) {
                break;
            }
            place = self.any_place().unwrap_or(place);
        }
        let told = self.simple(DELIVER, 0, place);
        if self.is_spent(place as usize, told) || self.lacks_room() {
            self.simple(DROP, 0, place);
        }
        true
    }

    /// A vote whose request has not come.
    fn is_early(&self, place: usize) -> bool {
        let Message::Vote(vote) = self.plain.post[place] else {
            return false;
        };
        let taken = self.plain.congress.halls[vote.to].taken[vote.transaction.console()];
        taken < vote.transaction.sequence()
    }

    fn lacks_room(&self) -> bool {
        self.plain.congress.messages > POST_PLACES - SPARE_PLACES
    }

    /// A message that changed something, or never will.
    fn is_spent(&self, place: usize, told: ToldRow) -> bool {
        told.kind == OUTCOME && (told.number != 0 || !self.is_early(place))
    }
}

/// Halls.
impl<P: Page> Lister<P> {
    fn work(&mut self) -> bool {
        let first = self.chance.below(self.mix.halls);
        let halls = (0..self.mix.halls).map(|hall| (first + hall) % self.mix.halls);
        let Some(hall) = halls.into_iter().find(|hall| self.may_work(*hall)) else {
            return false;
        };
        self.simple(WORK, hall, 0);
        true
    }

    fn may_work(&self, hall: usize) -> bool {
        let congress = &self.plain.congress;
        let mode = congress.halls.get(hall).map(|hall| hall.mode);
        let turn = |entry: &&Entry| (entry.stamp, entry.transaction);
        let mut entries = congress.entries(hall);
        match mode {
            None => false,
            Some(Mode::Locking) => entries.any(Entry::is_ready),
            Some(Mode::Timestamp) => entries.min_by_key(turn).is_some_and(Entry::is_ready),
        }
    }
}

/// Issues.
impl<P: Page> Lister<P> {
    fn issue(&mut self) -> bool {
        let Some(console) = self.free_console() else {
            return false;
        };
        let class = self.class();
        let halls = self.halls(class);
        let operations = self.operations(halls);
        self.remember(&operations);
        let number = self.calls.parts.len() as u64;
        self.calls.parts.push(PartsRow {
            operations: operations.map(OperationRow::from),
        });
        self.call(CallRow {
            kind: ISSUE,
            at: console as u8,
            class: class.number(),
            halls: halls.0,
            number,
        });
        true
    }

    fn free_console(&mut self) -> Option<usize> {
        let consoles = &self.plain.congress.consoles;
        let is_free = |console: &usize| !consoles[*console].has_open_transaction;
        let free: Vec<usize> = (0..CONSOLES).filter(is_free).collect();
        let congress = &self.plain.congress;
        let is_one_more = congress.messages + congress.queue.len() < self.in_flight;
        (is_one_more && !self.lacks_room() && !free.is_empty()).then(|| self.chance.pick(&free))
    }

    fn class(&mut self) -> Class {
        match self.chance.below(4) {
            0 if !self.mix.is_full => Class::Single,
            _ => self.mix.class,
        }
    }

    fn halls(&mut self, class: Class) -> Halls {
        let open: Vec<usize> = (0..self.mix.halls).collect();
        let count = match class {
            Class::Single => 1,
            _ if self.mix.is_full => 5,
            _ => 2 + self.chance.below(open.len() - 1).min(self.chance.below(4)),
        };
        let chosen = self.chance.sample(&open, count);
        chosen.into_iter().fold(Halls::default(), Halls::with)
    }

    /// Half of the time one operation for all halls.
    fn operations(&mut self, halls: Halls) -> [Operation; HALLS] {
        let mut operations = [Operation::default(); HALLS];
        let is_one = self.chance.one_in(2);
        let mut one = None;
        for hall in halls.ascending() {
            let operation = match one {
                Some(operation) if is_one => operation,
                _ => self.operation(hall),
            };
            one = Some(operation);
            operations[hall] = operation;
        }
        operations
    }

    /// Mostly one that is well done.
    fn operation(&mut self, hall: usize) -> Operation {
        let mut operation = self.any_operation(hall);
        for _ in 0..TRIALS {
            let verdict = self.plain.book.verdict(hall as u8, operation);
            if NumericAnswer::of::<P>(&verdict).is_well_done() || self.chance.one_in(8) {
                break;
            }
            operation = self.any_operation(hall);
        }
        operation
    }

    fn any_operation(&mut self, hall: usize) -> Operation {
        let page = self.plain.book.page(hall as u8);
        let mut asker = Asker {
            chance: &mut self.chance,
            game: self.mix.game,
            page: page.map_or(Vec::new(), P::numbers),
            once_appointed: &self.once_appointed,
        };
        let signature = asker.signature();
        asker.operation(signature)
    }

    fn remember(&mut self, operations: &[Operation; HALLS]) {
        for operation in operations {
            let signature = Signature {
                grant: operation.a as u8,
                token: operation.c as u32,
            };
            let is_appointed =
                operation.kind == crate::kind::APPOINT && (1..16).contains(&operation.a);
            if is_appointed && !self.once_appointed.contains(&signature) {
                self.once_appointed.push(signature);
            }
        }
    }
}
