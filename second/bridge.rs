//! The book of bridge: its kinds, causes, lines and match points, and what an operation does to a
//! hall's page (docs/RULES.md, "Bridge").

use std::cmp::Ordering;

use crate::book::{self, Answer, Fault, Keys, News, Operation, FIRST_ROUND, LAST_ROUND_TO_CLOSE};

pub const LAYER: u8 = 2;

const DEALS: usize = 16;
const LAST_DEAL: u16 = 15;
/// How many pairs sit North-South, and how many East-West.
const PAIRS: usize = 8;

/// Each deal has the key of its number, and the totals have this one.
const TOTALS_KEY: u16 = 32;

#[derive(Clone, Copy)]
#[repr(u8)]
pub enum Kind {
    Score = 32,
    Line = 33,
    Close = 34,
    Total = 35,
}

impl Kind {
    pub fn from_number(number: u8) -> Option<Self> {
        [Self::Score, Self::Line, Self::Close, Self::Total]
            .into_iter()
            .find(|kind| kind.number() == number)
    }

    pub fn number(self) -> u8 {
        self as u8
    }
}

#[derive(Clone, Copy)]
#[repr(u8)]
pub enum Cause {
    NoSuchDeal = 1,
    NoSuchPair = 2,
    NoSuchLine = 4,
    NoSuchScore = 6,
    CannotClose = 7,
    PairOnAnotherLine = 8,
    NoSuchKind = 9,
    NoSuchHall = 255,
}

impl Cause {
    pub fn from_number(number: u8) -> Option<Self> {
        [
            Self::NoSuchDeal,
            Self::NoSuchPair,
            Self::NoSuchLine,
            Self::NoSuchScore,
            Self::CannotClose,
            Self::PairOnAnotherLine,
            Self::NoSuchKind,
            Self::NoSuchHall,
        ]
        .into_iter()
        .find(|cause| *cause as u8 == number)
    }
}

impl book::Cause for Cause {
    fn layer(&self) -> u8 {
        LAYER
    }

    fn number(&self) -> u8 {
        *self as u8
    }
}

/// A pair's number among those of its direction, which is from 0 to 7.
#[derive(Clone, Copy, PartialEq, Eq, PartialOrd, Ord)]
pub struct Pair(u8);

impl Pair {
    fn from_number(number: u16) -> Option<Self> {
        let number = u8::try_from(number).ok()?;
        (usize::from(number) < PAIRS).then_some(Self(number))
    }

    pub fn number(self) -> u8 {
        self.0
    }

    fn index(self) -> usize {
        usize::from(self.0)
    }
}

/// North-South comes before East-West, and then the lower number: the order of the totals as well as
/// of equal points in the standings.
#[derive(Clone, Copy, PartialEq, Eq, PartialOrd, Ord)]
pub enum Party {
    NorthSouth(Pair),
    EastWest(Pair),
}

/// The score of North-South: a multiple of 10 from -7600 to 7600.
#[derive(Clone, Copy, PartialEq, Eq, PartialOrd, Ord)]
pub struct Score(i32);

impl Score {
    fn from_number(number: i32) -> Option<Self> {
        ((-7600..=7600).contains(&number) && number % 10 == 0).then_some(Self(number))
    }

    pub fn number(self) -> i32 {
        self.0
    }
}

#[derive(Clone, Copy, Default, PartialEq, Eq, PartialOrd, Ord)]
pub struct MatchPoints(pub u32);

/// What came of an operation that was well done.
pub enum Done {
    Scored {
        north_south: Pair,
        east_west: Pair,
        replaced: bool,
    },
    Line(Score),
    Closed {
        next_round: u16,
    },
    Total(MatchPoints),
}

impl book::Done<Party> for Done {
    fn layer(&self) -> u8 {
        LAYER
    }

    fn value(&self) -> i32 {
        match *self {
            Self::Scored { replaced, .. } => replaced.into(),
            Self::Line(score) => score.number(),
            Self::Closed { next_round } => next_round.into(),
            Self::Total(MatchPoints(total)) => total as i32,
        }
    }

    fn news(&self) -> Option<News<Party>> {
        match *self {
            Self::Scored {
                north_south,
                east_west,
                ..
            } => Some(News::TookPart([
                Party::NorthSouth(north_south),
                Party::EastWest(east_west),
            ])),
            Self::Closed { next_round } => Some(News::RoundBegins(next_round)),
            Self::Line(_) | Self::Total(_) => None,
        }
    }
}

#[derive(Clone, Copy)]
struct Line {
    east_west: Pair,
    score: Score,
}

/// A deal's lines, by North-South pair.
type Deal = [Option<Line>; PAIRS];

#[derive(Clone)]
pub struct Page {
    round: u16,
    deals: [Deal; DEALS],
    north_south_totals: [MatchPoints; PAIRS],
    east_west_totals: [MatchPoints; PAIRS],
}

impl Default for Page {
    fn default() -> Self {
        Self {
            round: FIRST_ROUND,
            deals: Default::default(),
            north_south_totals: Default::default(),
            east_west_totals: Default::default(),
        }
    }
}

impl book::Page for Page {
    type Party = Party;
    type Points = MatchPoints;
    type Done = Done;
    type Cause = Cause;
    const NO_SUCH_HALL: Cause = Cause::NoSuchHall;

    fn keys(operation: Operation) -> Keys {
        match Kind::from_number(operation.kind) {
            Some(Kind::Score | Kind::Line) => Keys::of_part(0, operation.a, LAST_DEAL),
            Some(Kind::Close) => Keys::of((0..=LAST_DEAL).chain([TOTALS_KEY])),
            Some(Kind::Total) => Keys::of([TOTALS_KEY]),
            None => Keys::default(),
        }
    }

    fn run(&mut self, operation: Operation) -> Answer<Self> {
        let Operation {
            kind, a, b, c, d, ..
        } = operation;
        match Kind::from_number(kind) {
            Some(Kind::Score) => self.score(a, b, c, d),
            Some(Kind::Line) => self.line(a, b),
            Some(Kind::Close) => self.close(a),
            Some(Kind::Total) => self.total(a),
            None => Err(Cause::NoSuchKind),
        }
        .map_err(|cause| Fault { cause, place: a })
    }

    fn numbers(&self) -> Vec<i64> {
        let mut numbers = vec![self.round.into()];
        let lines = self.deals.iter().flatten();
        numbers.extend(lines.flat_map(line_numbers));
        let totals = self.north_south_totals.iter().chain(&self.east_west_totals);
        numbers.extend(totals.map(|total| i64::from(total.0)));
        numbers
    }

    fn points(&self, party: Party) -> MatchPoints {
        match party {
            Party::NorthSouth(pair) => self.north_south_totals[pair.index()],
            Party::EastWest(pair) => self.east_west_totals[pair.index()],
        }
    }
}

fn line_numbers(line: &Option<Line>) -> [i64; 3] {
    line.map_or([0; 3], |line| {
        [1, line.east_west.0.into(), line.score.0.into()]
    })
}

/// The order of the checks in each operation is the order of faults in the rules.
impl Page {
    fn score(
        &mut self,
        deal: u16,
        north_south: u16,
        score: i32,
        east_west: u16,
    ) -> Result<Done, Cause> {
        let deal = self.deal(deal)?;
        let north_south = Pair::from_number(north_south).ok_or(Cause::NoSuchPair)?;
        let east_west = Pair::from_number(east_west).ok_or(Cause::NoSuchPair)?;
        let score = Score::from_number(score).ok_or(Cause::NoSuchScore)?;
        if other_lines(deal, north_south).any(|line| line.east_west == east_west) {
            return Err(Cause::PairOnAnotherLine);
        }
        let before = deal[north_south.index()].replace(Line { east_west, score });
        Ok(Done::Scored {
            north_south,
            east_west,
            replaced: before.is_some(),
        })
    }

    fn line(&mut self, deal: u16, north_south: u16) -> Result<Done, Cause> {
        let deal = self.deal(deal)?;
        let north_south = Pair::from_number(north_south).ok_or(Cause::NoSuchPair)?;
        let line = deal[north_south.index()].ok_or(Cause::NoSuchLine)?;
        Ok(Done::Line(line.score))
    }

    fn close(&mut self, round: u16) -> Result<Done, Cause> {
        if round != self.round || round > LAST_ROUND_TO_CLOSE || !self.is_comparable() {
            return Err(Cause::CannotClose);
        }
        for deal in std::mem::take(&mut self.deals) {
            self.give_match_points(&deal);
        }
        self.round += 1;
        Ok(Done::Closed {
            next_round: self.round,
        })
    }

    fn total(&self, number: u16) -> Result<Done, Cause> {
        let party = party_of_total(number).ok_or(Cause::NoSuchPair)?;
        Ok(Done::Total(book::Page::points(self, party)))
    }

    fn deal(&mut self, number: u16) -> Result<&mut Deal, Cause> {
        self.deals
            .get_mut(usize::from(number))
            .ok_or(Cause::NoSuchDeal)
    }

    /// Whether some deal has lines, and each line has another to be compared with.
    fn is_comparable(&self) -> bool {
        let mut line_counts = self
            .deals
            .iter()
            .map(|deal| deal.iter().flatten().count())
            .filter(|count| *count > 0)
            .peekable();
        line_counts.peek().is_some() && line_counts.all(|count| count > 1)
    }

    fn give_match_points(&mut self, deal: &Deal) {
        for north_south in pairs() {
            let Some(line) = deal[north_south.index()] else {
                continue;
            };
            for other in other_lines(deal, north_south) {
                let (north_south_gains, east_west_gains) = gains(line.score, other.score);
                self.north_south_totals[north_south.index()].0 += north_south_gains.0;
                self.east_west_totals[line.east_west.index()].0 += east_west_gains.0;
            }
        }
    }
}

fn pairs() -> impl Iterator<Item = Pair> {
    (0..PAIRS as u8).map(Pair)
}

/// The deal's lines but for that of the North-South pair.
fn other_lines(deal: &Deal, north_south: Pair) -> impl Iterator<Item = Line> + '_ {
    pairs()
        .filter(move |pair| *pair != north_south)
        .filter_map(|pair| deal[pair.index()])
}

/// What a line's North-South and East-West gain by comparison with another line of the deal.
fn gains(score: Score, other: Score) -> (MatchPoints, MatchPoints) {
    match score.cmp(&other) {
        Ordering::Greater => (MatchPoints(2), MatchPoints(0)),
        Ordering::Equal => (MatchPoints(1), MatchPoints(1)),
        Ordering::Less => (MatchPoints(0), MatchPoints(2)),
    }
}

/// Totals 0 to 7 are those of North-South, and 8 to 15 those of East-West.
fn party_of_total(number: u16) -> Option<Party> {
    let north_south = Pair::from_number(number).map(Party::NorthSouth);
    north_south.or_else(|| {
        let number = number.checked_sub(PAIRS as u16)?;
        Pair::from_number(number).map(Party::EastWest)
    })
}
