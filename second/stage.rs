//! The congress, post and book at which a script's calls are made, and the parts that were done
//! (docs/RULES.md, "The rehearsal").

use crate::book::{Book, Page};
use crate::congress::{Congress, Refusal};
use crate::deliver::{Event, Part, Step};
use crate::messages::{Message, Transaction};
use crate::script::{Call, Issue};

#[derive(Clone)]
pub struct Stage<P> {
    pub congress: Congress,
    pub post: Vec<Message>,
    pub book: Book<P>,
}

/// What a call told.
#[derive(Clone, Copy)]
pub enum Told {
    Done,
    Issued(Transaction),
    Came(Event),
    Refused(Refusal),
}

impl<P: Page> Stage<P> {
    /// The congress is not yet opened.
    pub fn new(places: usize, page: P) -> Self {
        Self {
            congress: Congress::default(),
            post: vec![Message::default(); places],
            book: Book::new(page),
        }
    }

    /// Makes the call. The part is that which the call did, if any.
    pub fn make(&mut self, call: &Call) -> (Told, Option<Part<P>>) {
        let made = match call {
            Call::Deliver { place } => self.deliver(*place),
            Call::Work { hall } => self.work(*hall),
            _ => self.make_plain(call).map(|told| (told, None)),
        };
        made.unwrap_or_else(|refusal| (Told::Refused(refusal), None))
    }

    fn deliver(&mut self, place: u64) -> Result<(Told, Option<Part<P>>), Refusal> {
        let (post, book) = (&mut self.post, &mut self.book);
        let Step { event, part } = self.congress.deliver(post, index(place), book)?;
        Ok((Told::Came(event), part))
    }

    fn work(&mut self, hall: u8) -> Result<(Told, Option<Part<P>>), Refusal> {
        let (post, book) = (&mut self.post, &mut self.book);
        let Step { event, part } = self.congress.work(post, hall.into(), book)?;
        Ok((Told::Came(event), part))
    }

    /// A call that does no part.
    fn make_plain(&mut self, call: &Call) -> Result<Told, Refusal> {
        match call {
            Call::Open { halls } => self.congress.open((*halls).into())?,
            Call::Issue(issue) => return self.issue(issue).map(Told::Issued),
            Call::Clock { hall, time } => self.congress.clock((*hall).into(), *time)?,
            Call::Drop { place } => self.congress.drop(&mut self.post, index(*place))?,
            Call::Deliver { .. } | Call::Work { .. } => unreachable!("these may do a part"),
        }
        Ok(Told::Done)
    }

    fn issue(&mut self, issue: &Issue) -> Result<Transaction, Refusal> {
        self.congress.issue(
            &mut self.post,
            issue.console.into(),
            issue.class,
            issue.halls,
            &issue.operations,
        )
    }
}

/// A number too great for this machine is no place of the post either.
fn index(place: u64) -> usize {
    usize::try_from(place).unwrap_or(usize::MAX)
}

/// A stage, and the parts done there since the last Open that was not refused, in the order in which
/// they were done.
pub struct Rehearsal<P: Page> {
    pub stage: Stage<P>,
    pub parts: Vec<Part<P>>,
}

impl<P: Page> Rehearsal<P> {
    pub fn new(stage: Stage<P>) -> Self {
        let parts = Vec::new();
        Self { stage, parts }
    }

    pub fn make(&mut self, call: &Call) -> Told {
        let (told, part) = self.stage.make(call);
        if let (Call::Open { .. }, Told::Done) = (call, told) {
            self.parts.clear();
        }
        self.parts.extend(part);
        told
    }

    /// The parts done at the hall, least stamp and then least transaction first.
    pub fn plain_order(&self, hall: usize) -> Vec<&Part<P>> {
        let at_hall = |part: &&Part<P>| part.hall == hall;
        let mut parts: Vec<_> = self.parts.iter().filter(at_hall).collect();
        parts.sort_by_key(|part| (part.stamp, part.transaction));
        parts
    }
}
