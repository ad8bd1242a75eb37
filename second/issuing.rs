//! Makes a morning of calls at a congress and prints their account, as docs/RULES.md says.
// The modules are shared with other programs, which need more of them.
#![allow(dead_code)]

mod book;
mod congress;
mod messages;

use std::fmt::{self, Display, Formatter};
use std::io::{self, Write};

use book::Operation;
use congress::{Congress, Refusal};
use messages::{Halls, Message, Reply, Request, Transaction, Vote, LAST_STAMP};

const PLACES_LENT: usize = 6;

impl Display for Message {
    fn fmt(&self, out: &mut Formatter) -> fmt::Result {
        match self {
            Self::Request(request) => request.fmt(out),
            Self::Vote(Vote {
                transaction,
                from,
                to,
                ..
            }) => write!(out, "vote {transaction} from hall {from} to hall {to}"),
            Self::Reply(Reply {
                transaction, from, ..
            }) => write!(out, "reply {transaction} from hall {from}"),
        }
    }
}

impl Display for Request {
    fn fmt(&self, out: &mut Formatter) -> fmt::Result {
        write!(out, "request {} to hall {}", self.transaction, self.hall)?;
        write!(out, ", class {}, halls {}", self.class.number(), self.halls)?;
        write!(out, ", high {}", self.high)?;
        write!(
            out,
            ": kind {}, a {}",
            self.operation.kind, self.operation.a
        )
    }
}

impl Display for Refusal {
    fn fmt(&self, out: &mut Formatter) -> fmt::Result {
        let words = match self {
            Self::NotThere => "not there",
            Self::TransactionOpen => "the console has an open transaction",
            Self::HallsDoNotFit => "the halls do not fit",
            Self::SequencesUsedUp => "the console's sequences are used up",
            Self::PastTheLastStamp => "past the last stamp",
            Self::NoRoomInPost => "no room in the post",
            Self::QueueFull => "no room in the queue",
            Self::NothingMayRun => "nothing may run",
            Self::PostTooShort => "the post is too short",
        };
        write!(out, "refused with {}, {words}", self.number())
    }
}

/// The congress and its post, and what was said so far.
#[derive(Default)]
struct Morning {
    congress: Congress,
    post: [Message; PLACES_LENT],
    account: String,
}

impl Morning {
    fn open(&mut self, halls: usize) {
        let said = self.congress.open(halls).map(done);
        self.tell(format!("open {halls} halls"), said);
    }

    fn issue(&mut self, console: usize, class: u8, halls: Halls) {
        let operations = std::array::from_fn(operation_for);
        let issued = (self.congress).issue(&mut self.post, console, class, halls, &operations);
        let said = issued.map(|transaction| format!("transaction {transaction}"));
        let what = format!("issue at console {console}, class {class}, halls {halls}");
        self.tell(what, said);
    }

    fn clock(&mut self, hall: usize, time: u64) {
        let said = self.congress.clock(hall, time).map(done);
        self.tell(format!("clock of hall {hall} to {time}"), said);
    }

    fn drop(&mut self, place: usize) {
        let said = self.congress.drop(&mut self.post, place).map(done);
        self.tell(format!("drop the message at {place}"), said);
    }

    fn find(&mut self, transaction: u32) {
        let found = self.congress.find(&self.post, Transaction(transaction));
        let said = found.map(|place| match place {
            Some(place) => format!("at {place}"),
            None => "not in the post".to_string(),
        });
        self.tell(format!("find transaction {transaction}"), said);
    }

    fn tell(&mut self, what: String, said: Result<String, Refusal>) {
        let said = said.unwrap_or_else(|refusal| refusal.to_string());
        self.account += &format!("{what}: {said}\n");
    }

    fn tell_post(&mut self) {
        let messages = &self.post[..self.congress.messages];
        for (place, message) in messages.iter().enumerate() {
            self.account += &format!("{place}. {message}\n");
        }
    }
}

fn operation_for(hall: usize) -> Operation {
    Operation {
        kind: 16,
        a: hall as u16,
        b: 1,
        c: 2,
        ..Operation::default()
    }
}

fn done((): ()) -> String {
    "done".to_string()
}

fn account() -> String {
    let mut morning = Morning::default();
    morning.account += "Calls\n";
    morning.issue(3, 2, Halls(0b0101));
    morning.open(9);
    morning.open(4);
    morning.clock(2, 9);
    morning.clock(4, 9);
    morning.clock(2, LAST_STAMP + 1);
    morning.issue(3, 2, Halls(0b0101));
    morning.issue(3, 2, Halls(0b0101));
    morning.issue(16, 1, Halls(0b0001));
    morning.issue(5, 3, Halls(0b1111));
    morning.issue(0, 1, Halls(0b0010));
    morning.find(21);
    morning.drop(0);
    morning.find(19);
    morning.find(21);
    morning.drop(5);
    morning.issue(0, 1, Halls(0b0010));
    morning.find(37);
    morning.account += "Post\n";
    morning.tell_post();
    morning.account
}

fn main() {
    // Nobody is left to hear of a write error.
    let _ = io::stdout().write_all(account().as_bytes());
}
