//! Reads an operation by its name, as scoresheets and scripts have it (docs/RULES.md, "The sheet" and
//! "The script").

use crate::book::Operation;
use crate::words::{
    Expected, Unreadable, Words, EIGHT_BITS, NEVER_NEGATIVE, SIGNED, SIXTEEN_BITS, THIRTY_TWO_BITS,
};
use crate::{bridge, chess, roll};

#[derive(Clone, Copy, Default)]
pub enum Game {
    #[default]
    Chess,
    Bridge,
}

impl Game {
    fn closing_kind(self) -> u8 {
        match self {
            Self::Chess => chess::Kind::Close.number(),
            Self::Bridge => bridge::Kind::Close.number(),
        }
    }

    fn total_kind(self) -> u8 {
        match self {
            Self::Chess => chess::Kind::Total.number(),
            Self::Bridge => bridge::Kind::Total.number(),
        }
    }
}

/// The grant and token that operations bear.
#[derive(Clone, Copy, Default, PartialEq, Eq)]
pub struct Signature {
    pub grant: u8,
    pub token: u32,
}

impl Signature {
    pub fn read(words: &mut Words) -> Result<Self, Unreadable> {
        Ok(Self {
            grant: words.number(EIGHT_BITS)?,
            token: words.number(THIRTY_TWO_BITS)?,
        })
    }

    /// An operation with this grant and token, and else zeros.
    pub fn idle(self) -> Operation {
        Operation {
            grant: self.grant,
            token: self.token,
            ..Operation::default()
        }
    }
}

pub fn read_game(words: &mut Words) -> Result<Game, Unreadable> {
    match words.next() {
        Some(b"chess") => Ok(Game::Chess),
        Some(b"bridge") => Ok(Game::Bridge),
        _ => Err(words.fault(Expected::Phrase("chess or bridge"))),
    }
}

fn read_outcome(words: &mut Words) -> Result<chess::Outcome, Unreadable> {
    match words.next() {
        Some(b"1-0") => Ok(chess::Outcome::WhiteWon),
        Some(b"1/2") => Ok(chess::Outcome::Draw),
        Some(b"0-1") => Ok(chess::Outcome::BlackWon),
        _ => Err(words.fault(Expected::Phrase("1-0, 1/2 or 0-1"))),
    }
}

/// The operation that the name and the words after it give; none where there is no such name. The
/// operation `op` is not among these.
///
/// The fields of each operation stand in the order of the words, since Rust evaluates them in the
/// order written; so the leftmost word at fault is the one reported.
pub fn read_named(
    name: &[u8],
    words: &mut Words,
    game: Game,
    signature: Signature,
) -> Result<Option<Operation>, Unreadable> {
    let idle = signature.idle();
    let operation = match name {
        b"appoint" => Operation {
            kind: roll::Kind::Appoint.number(),
            a: words.number(SIXTEEN_BITS)?,
            c: words.number(NEVER_NEGATIVE)?,
            ..idle
        },
        b"seat" => Operation {
            kind: chess::Kind::Seat.number(),
            a: words.number(SIXTEEN_BITS)?,
            b: words.number(SIXTEEN_BITS)?,
            c: words.number(NEVER_NEGATIVE)?,
            ..idle
        },
        b"result" => Operation {
            kind: chess::Kind::Enter.number(),
            a: words.number(SIXTEEN_BITS)?,
            b: words.number(SIXTEEN_BITS)?,
            c: read_outcome(words)?.number(),
            ..idle
        },
        b"score" => Operation {
            kind: bridge::Kind::Score.number(),
            a: words.number(SIXTEEN_BITS)?,
            b: words.number(SIXTEEN_BITS)?,
            d: words.number(SIXTEEN_BITS)?,
            c: words.number(SIGNED)?,
            ..idle
        },
        b"line" => Operation {
            kind: bridge::Kind::Line.number(),
            a: words.number(SIXTEEN_BITS)?,
            b: words.number(SIXTEEN_BITS)?,
            ..idle
        },
        _ => match kind_with_a_alone(name, game) {
            None => return Ok(None),
            Some(kind) => Operation {
                kind,
                a: words.number(SIXTEEN_BITS)?,
                ..idle
            },
        },
    };
    Ok(Some(operation))
}

fn kind_with_a_alone(name: &[u8], game: Game) -> Option<u8> {
    match name {
        b"remove" => Some(roll::Kind::Remove.number()),
        b"deputy" => Some(roll::Kind::Read.number()),
        b"show" => Some(chess::Kind::Show.number()),
        b"close" => Some(game.closing_kind()),
        b"total" => Some(game.total_kind()),
        _ => None,
    }
}

/// What follows the kind, and in a script the grant and token, of an operation of any kind.
pub fn read_fields(
    words: &mut Words,
    kind: u8,
    signature: Signature,
) -> Result<Operation, Unreadable> {
    Ok(Operation {
        kind,
        a: words.number(SIXTEEN_BITS)?,
        b: words.number(SIXTEEN_BITS)?,
        c: words.number(SIGNED)?,
        d: words.number(SIXTEEN_BITS)?,
        ..signature.idle()
    })
}
