//! The calls Deliver and Work of a congress (docs/RULES.md, "Deliver" and "Work").

use crate::book::{Answer, Book, Keys, NumericAnswer, Operation, Page};
use crate::congress::{refuse_if, Congress, Console, Entry, Mode, Refusal};
use crate::messages::{Class, Halls, Message, Reply, Request, Status, Transaction, Vote};

const QUEUE_PLACES: usize = 64;

#[derive(Clone, Copy, Default, PartialEq, Eq)]
#[repr(u8)]
pub enum Outcome {
    #[default]
    PassedOver = 0,
    Entered = 1,
    DoneAtOnce = 2,
    MetConflict = 3,
    Aborted = 4,
    Counted = 5,
    Readied = 6,
    Removed = 7,
    Replied = 8,
    Confirmed = 9,
    Freed = 10,
    Done = 11,
}

impl Outcome {
    pub fn number(self) -> u8 {
        self as u8
    }
}

/// What Deliver and Work answer.
#[derive(Clone, Copy, Default)]
pub struct Event {
    pub outcome: Outcome,
    pub transaction: Transaction,
    pub hall: usize,
    pub stamp: u64,
    pub answer: NumericAnswer,
}

/// A part that the book has done at a hall.
pub struct Part<P: Page> {
    pub hall: usize,
    pub transaction: Transaction,
    pub class: Class,
    pub stamp: u64,
    pub operation: Operation,
    pub answer: Answer<P>,
}

/// What came of a call, and the part that was done by it, if any.
pub struct Step<P: Page> {
    pub event: Event,
    pub part: Option<Part<P>>,
}

impl<P: Page> From<Event> for Step<P> {
    fn from(event: Event) -> Self {
        Self { event, part: None }
    }
}

/// What becomes of a request at its hall.
enum Fate {
    Waits,
    IsDoneAtOnce,
    MeetsConflict,
    IsAborted(NumericAnswer),
}

impl Fate {
    /// How many messages are then sent.
    fn messages(&self, request: &Request) -> usize {
        let votes = request.other_halls().count();
        match self {
            Self::Waits => votes,
            Self::IsDoneAtOnce => 1,
            Self::MeetsConflict | Self::IsAborted(_) => votes + 1,
        }
    }
}

impl Congress {
    pub fn deliver<P: Page>(
        &mut self,
        post: &mut [Message],
        place: usize,
        book: &mut Book<P>,
    ) -> Result<Step<P>, Refusal> {
        self.check_length(post)?;
        refuse_if(place >= self.messages, Refusal::NotThere)?;
        let message = post[place];
        if !message.is_lawful(self.halls.len()) {
            return Ok(Event::default().into());
        }
        match message {
            Message::Request(request) => self.take_request(post, request, book),
            Message::Vote(vote) => Ok(self.take_vote(post, vote)?.into()),
            Message::Reply(reply) => Ok(self.take_reply(reply).into()),
        }
    }

    pub fn work<P: Page>(
        &mut self,
        post: &mut [Message],
        hall: usize,
        book: &mut Book<P>,
    ) -> Result<Step<P>, Refusal> {
        self.check_length(post)?;
        refuse_if(hall >= self.halls.len(), Refusal::NotThere)?;
        let next = self.next_to_run(hall).ok_or(Refusal::NothingMayRun)?;
        self.check_room(post, 1)?;
        let entry = self.remove_entry(next);
        Ok(self.let_run(post, Outcome::Done, &entry, book))
    }
}

/// A request at its hall.
impl Congress {
    fn take_request<P: Page>(
        &mut self,
        post: &mut [Message],
        request: Request,
        book: &mut Book<P>,
    ) -> Result<Step<P>, Refusal> {
        let hall = &self.halls[request.hall];
        if request.transaction.sequence() <= hall.taken[request.transaction.console()] {
            return Ok(Event::default().into());
        }
        let stamp = hall.stamp_for(request.high);
        let stamp = stamp.ok_or(Refusal::PastTheLastStamp)?;
        let fate = self.fate(&request, book);
        self.check_queue(&fate)?;
        self.check_room(post, fate.messages(&request))?;
        Ok(self.meet_fate(post, request, stamp, fate, book))
    }

    fn check_queue(&self, fate: &Fate) -> Result<(), Refusal> {
        let is_full = self.queue.len() >= QUEUE_PLACES;
        refuse_if(matches!(fate, Fate::Waits) && is_full, Refusal::QueueFull)
    }

    fn fate<P: Page>(&self, request: &Request, book: &Book<P>) -> Fate {
        let mode = self.halls[request.hall].mode;
        if self.something_is_in_the_way::<P>(request) {
            return Fate::MeetsConflict;
        }
        match (mode, request.class) {
            (Mode::Locking, Class::Single) => Fate::IsDoneAtOnce,
            (_, Class::Coordinated) => {
                let verdict = book.verdict(request.hall as u8, request.operation);
                let verdict = NumericAnswer::of::<P>(&verdict);
                match verdict.is_well_done() {
                    true => Fate::Waits,
                    false => Fate::IsAborted(verdict),
                }
            }
            _ => Fate::Waits,
        }
    }

    fn something_is_in_the_way<P: Page>(&self, request: &Request) -> bool {
        let mut entries = self.entries(request.hall);
        match self.halls[request.hall].mode {
            Mode::Timestamp => request.class == Class::Coordinated && entries.next().is_some(),
            Mode::Locking => {
                let needed = P::keys(request.operation);
                entries.any(|entry| entry.keys.meets(needed))
            }
        }
    }

    /// There is room for all that is sent, and for an entry if the part is to wait.
    fn meet_fate<P: Page>(
        &mut self,
        post: &mut [Message],
        request: Request,
        stamp: u64,
        fate: Fate,
        book: &mut Book<P>,
    ) -> Step<P> {
        let transaction = request.transaction;
        self.halls[request.hall].taken[transaction.console()] = transaction.sequence();
        let entry = new_entry(request, stamp);
        let nothing = NumericAnswer::default();
        match fate {
            Fate::Waits => self.let_wait::<P>(post, entry).into(),
            Fate::IsDoneAtOnce => self.let_run(post, Outcome::DoneAtOnce, &entry, book),
            Fate::MeetsConflict => {
                let event = event(Outcome::MetConflict, &entry, nothing);
                self.turn_away(post, &entry, Status::Conflict, event).into()
            }
            Fate::IsAborted(verdict) => {
                let event = event(Outcome::Aborted, &entry, verdict);
                self.turn_away(post, &entry, Status::Abort, event).into()
            }
        }
    }

    /// A coordinated part takes the hall to locking mode; so the keys are empty only where the hall is
    /// still in timestamp mode after this.
    fn let_wait<P: Page>(&mut self, post: &mut [Message], mut entry: Entry) -> Event {
        let hall = &mut self.halls[entry.hall];
        if entry.class == Class::Coordinated {
            hall.mode = Mode::Locking;
        }
        if hall.mode == Mode::Locking {
            entry.keys = P::keys(entry.operation);
        }
        self.queue.push(entry);
        self.send_votes(post, &entry, Status::Commit);
        event(Outcome::Entered, &entry, NumericAnswer::default())
    }

    fn turn_away(
        &mut self,
        post: &mut [Message],
        entry: &Entry,
        status: Status,
        event: Event,
    ) -> Event {
        self.send_votes(post, entry, status);
        self.send_reply(post, event, status);
        event
    }

    fn send_votes(&mut self, post: &mut [Message], entry: &Entry, status: Status) {
        for to in entry.halls.without(entry.hall).ascending() {
            let vote = Vote {
                transaction: entry.transaction,
                from: entry.hall,
                to,
                stamp: entry.stamp,
                status,
            };
            self.send(post, Message::Vote(vote));
        }
    }

    /// A reply with the hall, the stamp and the answer that the event tells.
    fn send_reply(&mut self, post: &mut [Message], event: Event, status: Status) {
        let reply = Reply {
            transaction: event.transaction,
            from: event.hall,
            stamp: event.stamp,
            status,
            answer: event.answer,
        };
        self.send(post, Message::Reply(reply));
    }
}

/// The entry that the request would be, without keys.
fn new_entry(request: Request, stamp: u64) -> Entry {
    Entry {
        hall: request.hall,
        transaction: request.transaction,
        class: request.class,
        halls: request.halls,
        votes: Halls::of(request.hall),
        stamp,
        keys: Keys::default(),
        operation: request.operation,
    }
}

/// A vote at a hall.
impl Congress {
    fn take_vote(&mut self, post: &mut [Message], vote: Vote) -> Result<Event, Refusal> {
        let is_meant =
            |entry: &Entry| entry.hall == vote.to && entry.transaction == vote.transaction;
        let Some(index) = self.queue.iter().position(is_meant) else {
            return Ok(Event::default());
        };
        let entry = &self.queue[index];
        if !entry.halls.has(vote.from) || entry.votes.has(vote.from) {
            return Ok(Event::default());
        }
        match vote.status {
            Status::Commit => Ok(self.count_vote(index, vote)),
            Status::Conflict | Status::Abort => self.remove_by_vote(post, index, vote.status),
        }
    }

    fn count_vote(&mut self, index: usize, vote: Vote) -> Event {
        let entry = &mut self.queue[index];
        entry.votes = entry.votes.with(vote.from);
        entry.stamp = entry.stamp.max(vote.stamp);
        let outcome = match entry.is_ready() {
            true => Outcome::Readied,
            false => Outcome::Counted,
        };
        event(outcome, entry, NumericAnswer::default())
    }

    fn remove_by_vote(
        &mut self,
        post: &mut [Message],
        index: usize,
        status: Status,
    ) -> Result<Event, Refusal> {
        self.check_room(post, 1)?;
        let entry = self.remove_entry(index);
        let event = event(Outcome::Removed, &entry, NumericAnswer::default());
        self.send_reply(post, event, status);
        Ok(event)
    }
}

/// A reply at its console.
impl Congress {
    fn take_reply(&mut self, reply: Reply) -> Event {
        let console = &mut self.consoles[reply.transaction.console()];
        if !console.expects(&reply) {
            return Event::default();
        }
        console.replied = console.replied.with(reply.from);
        console.high = console.high.max(reply.stamp);
        let outcome = match reply.status {
            Status::Commit if console.replied == console.named => Outcome::Confirmed,
            Status::Commit => Outcome::Replied,
            Status::Conflict | Status::Abort => Outcome::Freed,
        };
        console.has_open_transaction = outcome == Outcome::Replied;
        Event {
            outcome,
            transaction: reply.transaction,
            hall: reply.from,
            stamp: reply.stamp,
            answer: reply.answer,
        }
    }
}

impl Console {
    fn expects(&self, reply: &Reply) -> bool {
        self.has_open_transaction
            && self.sequence == reply.transaction.sequence()
            && self.named.has(reply.from)
            && !self.replied.has(reply.from)
    }
}

/// The queue of a hall, and what is done there.
impl Congress {
    pub fn entries(&self, hall: usize) -> impl Iterator<Item = &Entry> {
        self.queue.iter().filter(move |entry| entry.hall == hall)
    }

    /// The place in the queue of the entry that may run at the hall.
    fn next_to_run(&self, hall: usize) -> Option<usize> {
        let may_be_least = |entry: &Entry| match self.halls[hall].mode {
            Mode::Timestamp => true,
            Mode::Locking => entry.is_ready(),
        };
        let of_hall = (0..self.queue.len())
            .filter(|index| self.queue[*index].hall == hall)
            .filter(|index| may_be_least(&self.queue[*index]));
        let turn = |index: &usize| (self.queue[*index].stamp, self.queue[*index].transaction);
        let least = of_hall.min_by_key(turn)?;
        self.queue[least].is_ready().then_some(least)
    }

    /// The last entry takes its place.
    fn remove_entry(&mut self, index: usize) -> Entry {
        let entry = self.queue.swap_remove(index);
        if self.entries(entry.hall).next().is_none() {
            self.halls[entry.hall].mode = Mode::Timestamp;
        }
        entry
    }

    /// The entry is no longer in the queue, or never was, and there is room for the reply.
    fn let_run<P: Page>(
        &mut self,
        post: &mut [Message],
        outcome: Outcome,
        entry: &Entry,
        book: &mut Book<P>,
    ) -> Step<P> {
        let answer = book.run(entry.hall as u8, entry.operation);
        let hall = &mut self.halls[entry.hall];
        hall.last = hall.last.max(entry.stamp);
        let event = event(outcome, entry, NumericAnswer::of::<P>(&answer));
        self.send_reply(post, event, Status::Commit);
        let part = Some(Part {
            hall: entry.hall,
            transaction: entry.transaction,
            class: entry.class,
            stamp: entry.stamp,
            operation: entry.operation,
            answer,
        });
        Step { event, part }
    }
}

fn event(outcome: Outcome, entry: &Entry, answer: NumericAnswer) -> Event {
    Event {
        outcome,
        transaction: entry.transaction,
        hall: entry.hall,
        stamp: entry.stamp,
        answer,
    }
}
