//! The words for what was asked of a book and what it answered (docs/RULES.md, "The account").

use std::fmt::{self, Display, Formatter};

use crate::book::{Answer, Cause, Fault, Operation, Page};
use crate::operations::Game;
use crate::roll::Layered;
use crate::{bridge, chess, roll};

/// An answer's text.
pub fn answer<P: Page>(answer: &Answer<P>) -> String {
    match answer {
        Ok(done) => done.to_string(),
        Err(fault) => format!("refused, {fault}"),
    }
}

/// A cause's text, by its layer and number.
pub fn words_of_cause(layer: u8, number: u8) -> String {
    let words = match layer {
        chess::LAYER => chess::Cause::from_number(number).map(|cause| cause.to_string()),
        bridge::LAYER => bridge::Cause::from_number(number).map(|cause| cause.to_string()),
        roll::LAYER => roll::Cause::from_number(number).map(|cause| cause.to_string()),
        _ => None,
    };
    words.unwrap_or_else(|| "no such cause".to_string())
}

impl Display for Game {
    fn fmt(&self, out: &mut Formatter) -> fmt::Result {
        out.write_str(match self {
            Game::Chess => "Chess",
            Game::Bridge => "Bridge",
        })
    }
}

/// What was asked for goes by the kind alone, whichever book is asked.
impl Display for Operation {
    fn fmt(&self, out: &mut Formatter) -> fmt::Result {
        if let Some(kind) = roll::Kind::from_number(self.kind) {
            self.write_of_roll(kind, out)?;
        } else if let Some(kind) = chess::Kind::from_number(self.kind) {
            self.write_of_chess(kind, out)?;
        } else if let Some(kind) = bridge::Kind::from_number(self.kind) {
            self.write_of_bridge(kind, out)?;
        } else {
            write!(out, "operation of kind {}", self.kind)?;
        }
        match self.grant {
            0 => Ok(()),
            grant => write!(out, " by {grant}"),
        }
    }
}

impl Operation {
    fn write_of_roll(&self, kind: roll::Kind, out: &mut Formatter) -> fmt::Result {
        let a = self.a;
        match kind {
            roll::Kind::Appoint => write!(out, "appoint {a}"),
            roll::Kind::Remove => write!(out, "remove {a}"),
            roll::Kind::Read => write!(out, "deputy {a}"),
        }
    }

    fn write_of_chess(&self, kind: chess::Kind, out: &mut Formatter) -> fmt::Result {
        let Operation { a, b, c, .. } = self;
        match kind {
            chess::Kind::Seat => write!(out, "seat {b} and {c} at board {a}"),
            chess::Kind::Enter => match chess::Outcome::from_number(*c) {
                Some(outcome) => write!(out, "result {outcome} at board {a} for round {b}"),
                None => write!(out, "result {c} at board {a} for round {b}"),
            },
            chess::Kind::Show => write!(out, "show board {a}"),
            chess::Kind::Close => write!(out, "close round {a}"),
            chess::Kind::Total => write!(out, "total of player {a}"),
        }
    }

    fn write_of_bridge(&self, kind: bridge::Kind, out: &mut Formatter) -> fmt::Result {
        let Operation { a, b, c, d, .. } = self;
        match kind {
            bridge::Kind::Score => write!(out, "score {c} on deal {a} for N-S {b} and E-W {d}"),
            bridge::Kind::Line => write!(out, "line of N-S {b} on deal {a}"),
            bridge::Kind::Close => write!(out, "close round {a}"),
            bridge::Kind::Total => write!(out, "total {a}"),
        }
    }
}

impl Display for roll::Done {
    fn fmt(&self, out: &mut Formatter) -> fmt::Result {
        out.write_str(match self {
            roll::Done::Appointed {
                in_place_of_another: false,
            } => "done",
            roll::Done::Appointed {
                in_place_of_another: true,
            } => "done, in place of another",
            roll::Done::Removed { was_filled: true } => "done",
            roll::Done::Removed { was_filled: false } => "done, nobody was appointed",
            roll::Done::Read { is_filled: true } => "appointed",
            roll::Done::Read { is_filled: false } => "nobody",
        })
    }
}

impl Display for chess::Done {
    fn fmt(&self, out: &mut Formatter) -> fmt::Result {
        match self {
            chess::Done::Seated { .. } | chess::Done::Entered { before: None } => {
                write!(out, "done")
            }
            chess::Done::Entered {
                before: Some(outcome),
            } => write!(out, "done, in place of {outcome}"),
            chess::Done::Shown(None) => write!(out, "no result"),
            chess::Done::Shown(Some(outcome)) => write!(out, "{outcome}"),
            chess::Done::Closed { next_round } => write!(out, "done, round {next_round} begins"),
            chess::Done::Total(total) => write!(out, "{total}"),
        }
    }
}

impl Display for bridge::Done {
    fn fmt(&self, out: &mut Formatter) -> fmt::Result {
        match self {
            bridge::Done::Scored {
                replaced: false, ..
            } => write!(out, "done"),
            bridge::Done::Scored { replaced: true, .. } => write!(out, "done, in place of another"),
            bridge::Done::Line(score) => write!(out, "{}", score.number()),
            bridge::Done::Closed { next_round } => write!(out, "done, round {next_round} begins"),
            bridge::Done::Total(total) => write!(out, "{total}"),
        }
    }
}

impl<Own: Display, Below: Display> Display for Layered<Own, Below> {
    fn fmt(&self, out: &mut Formatter) -> fmt::Result {
        match self {
            Layered::Own(own) => own.fmt(out),
            Layered::Below(below) => below.fmt(out),
        }
    }
}

impl<C: Cause> Display for Fault<C> {
    fn fmt(&self, out: &mut Formatter) -> fmt::Result {
        let Fault { cause, place } = self;
        write!(out, "cause {} at {place}: {cause}", cause.number())
    }
}

impl Display for roll::Cause {
    fn fmt(&self, out: &mut Formatter) -> fmt::Result {
        out.write_str(match self {
            roll::Cause::GrantDoesNotStand => "the grant does not stand",
            roll::Cause::NotTheChief => "only the chief may do this",
            roll::Cause::NoSuchEntry => "no such entry of the roll",
            roll::Cause::NoSuchToken => "no such token",
            roll::Cause::NoSuchHall => "no such hall",
        })
    }
}

impl Display for chess::Cause {
    fn fmt(&self, out: &mut Formatter) -> fmt::Result {
        out.write_str(match self {
            chess::Cause::NoSuchBoard => "no such board",
            chess::Cause::NoSuchPlayers => "no such player, or the same player twice",
            chess::Cause::BoardHasResult => "the board has a result",
            chess::Cause::NobodySeated => "nobody is seated at the board",
            chess::Cause::NotTheRound => "not the round being played",
            chess::Cause::NoSuchResult => "no such result",
            chess::Cause::CannotClose => "the round cannot be closed",
            chess::Cause::NoSuchKind => "no such kind of operation",
            chess::Cause::NoSuchHall => "no such hall",
        })
    }
}

impl Display for bridge::Cause {
    fn fmt(&self, out: &mut Formatter) -> fmt::Result {
        out.write_str(match self {
            bridge::Cause::NoSuchDeal => "no such deal",
            bridge::Cause::NoSuchPair => "no such pair",
            bridge::Cause::NoSuchLine => "no such line",
            bridge::Cause::NoSuchScore => "no such score",
            bridge::Cause::CannotClose => "the round cannot be closed",
            bridge::Cause::PairOnAnotherLine => "the pair is on another line of the deal",
            bridge::Cause::NoSuchKind => "no such kind of operation",
            bridge::Cause::NoSuchHall => "no such hall",
        })
    }
}

impl Display for chess::Outcome {
    fn fmt(&self, out: &mut Formatter) -> fmt::Result {
        out.write_str(match self {
            chess::Outcome::WhiteWon => "1-0",
            chess::Outcome::Draw => "1/2",
            chess::Outcome::BlackWon => "0-1",
        })
    }
}

impl Display for chess::Player {
    fn fmt(&self, out: &mut Formatter) -> fmt::Result {
        write!(out, "player {}", self.number())
    }
}

/// Half points are written in points.
impl Display for chess::HalfPoints {
    fn fmt(&self, out: &mut Formatter) -> fmt::Result {
        let fraction = if self.0 % 2 == 0 { "" } else { ".5" };
        write!(out, "{}{fraction}", self.0 / 2)
    }
}

impl Display for bridge::Party {
    fn fmt(&self, out: &mut Formatter) -> fmt::Result {
        match self {
            bridge::Party::NorthSouth(pair) => write!(out, "N-S {}", pair.number()),
            bridge::Party::EastWest(pair) => write!(out, "E-W {}", pair.number()),
        }
    }
}

impl Display for bridge::MatchPoints {
    fn fmt(&self, out: &mut Formatter) -> fmt::Result {
        self.0.fmt(out)
    }
}
