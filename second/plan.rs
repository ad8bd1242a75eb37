//! What is to happen in a generated script: its headings, its Opens, and the moods between them.

use std::ops::RangeInclusive;

use crate::chance::Chance;
use crate::operations::{Game, Signature};

#[derive(Clone, Copy)]
pub enum Kind {
    Chess,
    Bridge,
    Full,
    Edges,
}

impl Kind {
    pub fn from_name(name: &str) -> Option<Self> {
        match name {
            "chess" => Some(Self::Chess),
            "bridge" => Some(Self::Bridge),
            "full" => Some(Self::Full),
            "edges" => Some(Self::Edges),
            _ => None,
        }
    }
}

#[derive(Clone, Copy, PartialEq, Eq)]
pub enum Mood {
    /// Messages arrive, and what is spent is cleared away.
    Calm,
    /// Messages are doubled and lost.
    Lossy,
    /// As in a loss, with clocks near the last stamp.
    Late,
    /// Requests fill the queue, and votes are lost.
    Rush,
    /// Nothing is ever dropped.
    Hoard,
    /// Requests fill queue and post.
    Cram,
}

#[derive(Clone, Copy)]
pub enum Move {
    Issue,
    Deliver,
    DeliverRequest,
    DeliverReply,
    DeliverAgain,
    Work,
    DropSpent,
    DropVote,
    Lose,
    Clock,
    StopClock,
}

impl Mood {
    /// The moves of the mood, with their weights.
    pub fn moves(self) -> &'static [(Move, usize)] {
        use Move::*;
        match self {
            Self::Calm => &[
                (Issue, 18),
                (Deliver, 44),
                (Work, 24),
                (DropSpent, 6),
                (DeliverAgain, 2),
                (Clock, 1),
                (StopClock, 1),
            ],
            Self::Lossy => &[
                (Issue, 20),
                (Deliver, 36),
                (Work, 14),
                (DropSpent, 8),
                (DeliverAgain, 8),
                (Lose, 6),
                (Clock, 4),
            ],
            Self::Late => &[
                (Issue, 22),
                (Deliver, 36),
                (Work, 18),
                (DropSpent, 6),
                (DeliverAgain, 4),
                (Lose, 2),
                (Clock, 8),
            ],
            Self::Rush => &[
                (Issue, 26),
                (DeliverRequest, 46),
                (DeliverReply, 14),
                (DropVote, 32),
            ],
            Self::Hoard => &[
                (Issue, 24),
                (Deliver, 56),
                (Work, 18),
                (DeliverAgain, 2),
                (Clock, 1),
            ],
            Self::Cram => &[
                (Issue, 30),
                (DeliverRequest, 46),
                (DeliverReply, 20),
                (Work, 3),
            ],
        }
    }

    /// Whether a message that has arrived is mostly dropped at once.
    pub fn drops(self) -> bool {
        !matches!(self, Self::Hoard | Self::Cram)
    }

    /// Whether requests of all consoles wait for each other.
    pub fn crowds(self) -> bool {
        matches!(self, Self::Rush | Self::Cram)
    }
}

#[derive(Clone, Copy)]
pub enum Act {
    /// An Open of as many halls as are usual in the plan, or of any number.
    Open,
    OpenAny,
    /// So many of a thousand calls.
    Play(Mood, usize),
}

pub struct Plan {
    pub game: Game,
    pub chief_token: u32,
    pub places: u16,
    pub halls: RangeInclusive<u16>,
    /// Whether clocks begin near the last stamp.
    pub begins_late: bool,
    pub acts: &'static [Act],
}

const OF_A_CONGRESS: [Act; 18] = [
    Act::Open,
    Act::Play(Mood::Calm, 170),
    Act::Play(Mood::Late, 30),
    Act::OpenAny,
    Act::Play(Mood::Calm, 40),
    Act::Open,
    Act::Play(Mood::Rush, 180),
    Act::Play(Mood::Calm, 50),
    Act::Open,
    Act::Play(Mood::Hoard, 200),
    Act::Play(Mood::Calm, 50),
    Act::Play(Mood::Lossy, 30),
    Act::Open,
    Act::Play(Mood::Calm, 140),
    Act::Play(Mood::Lossy, 30),
    Act::Play(Mood::Calm, 50),
    Act::Play(Mood::Late, 20),
    Act::Play(Mood::Calm, 20),
];

const OF_FULL: [Act; 13] = [
    Act::Open,
    Act::Play(Mood::Calm, 80),
    Act::Play(Mood::Lossy, 30),
    Act::OpenAny,
    Act::Play(Mood::Calm, 40),
    Act::Open,
    Act::Play(Mood::Cram, 430),
    Act::Play(Mood::Calm, 70),
    Act::Open,
    Act::Play(Mood::Rush, 150),
    Act::Play(Mood::Calm, 50),
    Act::Open,
    Act::Play(Mood::Calm, 150),
];

const OF_EDGES: [Act; 17] = [
    Act::Open,
    Act::Play(Mood::Calm, 60),
    Act::OpenAny,
    Act::Play(Mood::Calm, 40),
    Act::Open,
    Act::Play(Mood::Late, 70),
    Act::Open,
    Act::Play(Mood::Rush, 200),
    Act::Play(Mood::Calm, 50),
    Act::Open,
    Act::Play(Mood::Hoard, 200),
    Act::Play(Mood::Late, 40),
    Act::Open,
    Act::Play(Mood::Calm, 90),
    Act::Play(Mood::Lossy, 50),
    Act::Open,
    Act::Play(Mood::Calm, 210),
];

const CHIEF_TOKENS: [u32; 3] = [1, 7, 4_000_000_000];

impl Plan {
    pub fn new(kind: Kind, chance: &mut Chance) -> Self {
        let either = chance.pick(&[Game::Chess, Game::Bridge]);
        let (game, places, halls, acts): (_, &[u16], _, &[Act]) = match kind {
            Kind::Chess => (Game::Chess, &[500, 400, 300], 4..=8, &OF_A_CONGRESS),
            Kind::Bridge => (Game::Bridge, &[500, 400, 300], 4..=8, &OF_A_CONGRESS),
            Kind::Full => (either, &[1024, 65535, 700], 3..=4, &OF_FULL),
            Kind::Edges => (either, &[250, 200], 3..=8, &OF_EDGES),
        };
        Self {
            game,
            chief_token: chance.pick(&CHIEF_TOKENS),
            places: chance.pick(places),
            halls,
            begins_late: matches!(kind, Kind::Edges),
            acts,
        }
    }

    pub fn chief(&self) -> Signature {
        Signature {
            grant: 0,
            token: self.chief_token,
        }
    }
}
