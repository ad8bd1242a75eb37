//! Follows the messages of a script's calls: who sent each to whom, and what became of it
//! (docs/RULES.md, "Arrows").

use crate::book::Page;
use crate::messages::Message;
use crate::script::Call;
use crate::stage::{Stage, Told};

/// Who has a lifeline, by number.
#[derive(Clone, Copy, PartialEq, Eq)]
pub enum Who {
    Console(usize),
    Hall(usize),
}

/// What became of a message, with the row of the call that delivered or dropped it.
#[derive(Clone, Copy)]
pub enum Fate {
    Arrived(usize),
    Again(usize),
    Lost(usize),
    Left,
}

impl Fate {
    pub fn word(self) -> &'static str {
        match self {
            Self::Arrived(_) => "arrived",
            Self::Again(_) => "again",
            Self::Lost(_) => "lost",
            Self::Left => "left",
        }
    }
}

/// A message that was posted by the call of a row.
pub struct Arrow {
    pub message: Message,
    pub row: usize,
    pub fate: Fate,
}

impl Message {
    pub fn kind_word(&self) -> &'static str {
        match self {
            Self::Request(_) => "request",
            Self::Vote(_) => "vote",
            Self::Reply(_) => "reply",
        }
    }

    pub fn sender(&self) -> Who {
        match self {
            Self::Request(request) => Who::Console(request.transaction.console()),
            Self::Vote(vote) => Who::Hall(vote.from),
            Self::Reply(reply) => Who::Hall(reply.from),
        }
    }

    pub fn receiver(&self) -> Who {
        match self {
            Self::Request(request) => Who::Hall(request.hall),
            Self::Vote(vote) => Who::Hall(vote.to),
            Self::Reply(reply) => Who::Console(reply.transaction.console()),
        }
    }
}

/// A message in the post.
struct Posted {
    message: Message,
    row: usize,
    was_delivered: bool,
}

impl Posted {
    fn arrow(&self, fate: Fate) -> Arrow {
        Arrow {
            message: self.message,
            row: self.row,
            fate,
        }
    }
}

/// The arrows so far, and the messages that are in the post, by their places.
#[derive(Default)]
pub struct Follower {
    arrows: Vec<Arrow>,
    posted: Vec<Posted>,
}

impl Follower {
    /// The call of this row was made, and the stage is as it was left.
    pub fn follow<P: Page>(&mut self, row: usize, call: &Call, told: Told, stage: &Stage<P>) {
        if let Told::Refused(_) = told {
            return;
        }
        match call {
            Call::Open { .. } => self.leave_all(),
            Call::Deliver { place } => self.deliver(*place as usize, row),
            Call::Drop { place } => self.drop(*place as usize, row),
            Call::Issue(_) | Call::Work { .. } | Call::Clock { .. } => {}
        }
        let sent = &stage.post[self.posted.len()..stage.congress.messages];
        self.posted.extend(sent.iter().map(|message| Posted {
            message: *message,
            row,
            was_delivered: false,
        }));
    }

    /// No call comes after these.
    pub fn end(mut self) -> Vec<Arrow> {
        self.leave_all();
        self.arrows
    }

    fn deliver(&mut self, place: usize, row: usize) {
        let posted = &mut self.posted[place];
        let fate = match posted.was_delivered {
            false => Fate::Arrived(row),
            true => Fate::Again(row),
        };
        self.arrows.push(posted.arrow(fate));
        posted.was_delivered = true;
    }

    /// The last message takes the place of the one dropped.
    fn drop(&mut self, place: usize, row: usize) {
        let posted = self.posted.swap_remove(place);
        if !posted.was_delivered {
            self.arrows.push(posted.arrow(Fate::Lost(row)));
        }
    }

    fn leave_all(&mut self) {
        let never_delivered = |posted: &Posted| !posted.was_delivered;
        let left = self.posted.drain(..).filter(never_delivered);
        self.arrows
            .extend(left.map(|posted| posted.arrow(Fate::Left)));
    }
}
