//! The book of chess: its kinds, causes and results, and what an operation does to a hall's page
//! (docs/RULES.md, "Chess").

use crate::book::{self, Answer, Fault, Keys, News, Operation, FIRST_ROUND, LAST_ROUND_TO_CLOSE};

pub const LAYER: u8 = 1;

const BOARDS: usize = 32;
const LAST_BOARD: u16 = 31;
const PLAYERS: usize = 64;

/// Each board has the key of its number, and the totals have this one.
const TOTALS_KEY: u16 = 32;

#[derive(Clone, Copy)]
#[repr(u8)]
pub enum Kind {
    Seat = 16,
    Enter = 17,
    Show = 18,
    Close = 19,
    Total = 20,
}

impl Kind {
    pub fn from_number(number: u8) -> Option<Self> {
        [
            Self::Seat,
            Self::Enter,
            Self::Show,
            Self::Close,
            Self::Total,
        ]
        .into_iter()
        .find(|kind| kind.number() == number)
    }

    pub fn number(self) -> u8 {
        self as u8
    }
}

#[derive(Clone, Copy)]
#[repr(u8)]
pub enum Cause {
    NoSuchBoard = 1,
    NoSuchPlayers = 2,
    BoardHasResult = 3,
    NobodySeated = 4,
    NotTheRound = 5,
    NoSuchResult = 6,
    CannotClose = 7,
    NoSuchKind = 9,
    NoSuchHall = 255,
}

impl Cause {
    pub fn from_number(number: u8) -> Option<Self> {
        [
            Self::NoSuchBoard,
            Self::NoSuchPlayers,
            Self::BoardHasResult,
            Self::NobodySeated,
            Self::NotTheRound,
            Self::NoSuchResult,
            Self::CannotClose,
            Self::NoSuchKind,
            Self::NoSuchHall,
        ]
        .into_iter()
        .find(|cause| *cause as u8 == number)
    }
}

impl book::Cause for Cause {
    fn layer(&self) -> u8 {
        LAYER
    }

    fn number(&self) -> u8 {
        *self as u8
    }
}

/// The result of a game; the rules call it a result, a word that Rust has for something else.
#[derive(Clone, Copy)]
#[repr(u8)]
pub enum Outcome {
    WhiteWon = 1,
    Draw = 2,
    BlackWon = 3,
}

impl Outcome {
    pub fn from_number(number: i32) -> Option<Self> {
        [Self::WhiteWon, Self::Draw, Self::BlackWon]
            .into_iter()
            .find(|outcome| outcome.number() == number)
    }

    pub fn number(self) -> i32 {
        self as i32
    }

    /// What white and black gain by it.
    fn gains(self) -> (HalfPoints, HalfPoints) {
        match self {
            Self::WhiteWon => (HalfPoints(2), HalfPoints(0)),
            Self::Draw => (HalfPoints(1), HalfPoints(1)),
            Self::BlackWon => (HalfPoints(0), HalfPoints(2)),
        }
    }
}

#[derive(Clone, Copy, PartialEq, Eq, PartialOrd, Ord)]
pub struct HalfPoints(pub u32);

/// A player's number, which is from 1 to 64.
#[derive(Clone, Copy, PartialEq, Eq, PartialOrd, Ord)]
pub struct Player(u8);

impl Player {
    fn from_number(number: i32) -> Option<Self> {
        let number = u8::try_from(number).ok()?;
        (1..=PLAYERS)
            .contains(&usize::from(number))
            .then_some(Self(number))
    }

    pub fn number(self) -> u8 {
        self.0
    }

    fn index(self) -> usize {
        usize::from(self.0) - 1
    }
}

/// What came of an operation that was well done.
pub enum Done {
    Seated { white: Player, black: Player },
    Entered { before: Option<Outcome> },
    Shown(Option<Outcome>),
    Closed { next_round: u16 },
    Total(HalfPoints),
}

impl book::Done<Player> for Done {
    fn layer(&self) -> u8 {
        LAYER
    }

    fn value(&self) -> i32 {
        match *self {
            Self::Seated { .. } => 0,
            Self::Entered { before: result } | Self::Shown(result) => number_of(result),
            Self::Closed { next_round } => next_round.into(),
            Self::Total(HalfPoints(total)) => total as i32,
        }
    }

    fn news(&self) -> Option<News<Player>> {
        match *self {
            Self::Seated { white, black } => Some(News::TookPart([white, black])),
            Self::Closed { next_round } => Some(News::RoundBegins(next_round)),
            Self::Entered { .. } | Self::Shown(_) | Self::Total(_) => None,
        }
    }
}

/// The number of a result, or 0 for none.
fn number_of(result: Option<Outcome>) -> i32 {
    result.map_or(0, Outcome::number)
}

#[derive(Clone, Copy)]
struct Game {
    white: Player,
    black: Player,
    outcome: Option<Outcome>,
}

#[derive(Clone)]
pub struct Page {
    round: u16,
    boards: [Option<Game>; BOARDS],
    totals: [HalfPoints; PLAYERS],
}

impl Default for Page {
    fn default() -> Self {
        Self {
            round: FIRST_ROUND,
            boards: [None; BOARDS],
            totals: [HalfPoints(0); PLAYERS],
        }
    }
}

impl book::Page for Page {
    type Party = Player;
    type Points = HalfPoints;
    type Done = Done;
    type Cause = Cause;
    const NO_SUCH_HALL: Cause = Cause::NoSuchHall;

    fn keys(operation: Operation) -> Keys {
        match Kind::from_number(operation.kind) {
            Some(Kind::Seat | Kind::Enter | Kind::Show) => {
                Keys::of_part(0, operation.a, LAST_BOARD)
            }
            Some(Kind::Close) => Keys::of((0..=LAST_BOARD).chain([TOTALS_KEY])),
            Some(Kind::Total) => Keys::of([TOTALS_KEY]),
            None => Keys::default(),
        }
    }

    fn run(&mut self, operation: Operation) -> Answer<Self> {
        let Operation { kind, a, b, c, .. } = operation;
        match Kind::from_number(kind) {
            Some(Kind::Seat) => self.seat(a, b, c),
            Some(Kind::Enter) => self.enter(a, b, c),
            Some(Kind::Show) => self.show(a),
            Some(Kind::Close) => self.close(a),
            Some(Kind::Total) => self.total(a),
            None => Err(Cause::NoSuchKind),
        }
        .map_err(|cause| Fault { cause, place: a })
    }

    fn numbers(&self) -> Vec<i64> {
        let mut numbers = vec![self.round.into()];
        numbers.extend(self.boards.iter().flat_map(board_numbers));
        numbers.extend(self.totals.iter().map(|total| i64::from(total.0)));
        numbers
    }

    fn points(&self, player: Player) -> HalfPoints {
        self.totals[player.index()]
    }
}

fn board_numbers(board: &Option<Game>) -> [i64; 4] {
    board.map_or([0; 4], |game| {
        let result = number_of(game.outcome).into();
        [1, game.white.0.into(), game.black.0.into(), result]
    })
}

/// The order of the checks in each operation is the order of faults in the rules.
impl Page {
    fn seat(&mut self, board: u16, white: u16, black: i32) -> Result<Done, Cause> {
        let board = self.board(board)?;
        let (white, black) = opponents(white, black).ok_or(Cause::NoSuchPlayers)?;
        if board.is_some_and(|game| game.outcome.is_some()) {
            return Err(Cause::BoardHasResult);
        }
        *board = Some(Game {
            white,
            black,
            outcome: None,
        });
        Ok(Done::Seated { white, black })
    }

    fn enter(&mut self, board: u16, round: u16, outcome: i32) -> Result<Done, Cause> {
        let round_being_played = self.round;
        let game = self.game(board)?;
        if round != round_being_played {
            return Err(Cause::NotTheRound);
        }
        let outcome = Outcome::from_number(outcome).ok_or(Cause::NoSuchResult)?;
        Ok(Done::Entered {
            before: game.outcome.replace(outcome),
        })
    }

    fn show(&mut self, board: u16) -> Result<Done, Cause> {
        Ok(Done::Shown(self.game(board)?.outcome))
    }

    fn close(&mut self, round: u16) -> Result<Done, Cause> {
        if round != self.round || round > LAST_ROUND_TO_CLOSE || !self.is_played_out() {
            return Err(Cause::CannotClose);
        }
        for game in std::mem::take(&mut self.boards).into_iter().flatten() {
            self.score(game);
        }
        self.round += 1;
        Ok(Done::Closed {
            next_round: self.round,
        })
    }

    fn total(&self, player: u16) -> Result<Done, Cause> {
        let player = Player::from_number(i32::from(player)).ok_or(Cause::NoSuchPlayers)?;
        Ok(Done::Total(book::Page::points(self, player)))
    }

    fn board(&mut self, number: u16) -> Result<&mut Option<Game>, Cause> {
        self.boards
            .get_mut(usize::from(number))
            .ok_or(Cause::NoSuchBoard)
    }

    fn game(&mut self, board: u16) -> Result<&mut Game, Cause> {
        self.board(board)?.as_mut().ok_or(Cause::NobodySeated)
    }

    fn is_played_out(&self) -> bool {
        let mut games = self.boards.iter().flatten().peekable();
        games.peek().is_some() && games.all(|game| game.outcome.is_some())
    }

    fn score(&mut self, game: Game) {
        if let Some(outcome) = game.outcome {
            let (white_gains, black_gains) = outcome.gains();
            self.totals[game.white.index()].0 += white_gains.0;
            self.totals[game.black.index()].0 += black_gains.0;
        }
    }
}

fn opponents(white: u16, black: i32) -> Option<(Player, Player)> {
    let white = Player::from_number(i32::from(white))?;
    let black = Player::from_number(black)?;
    (white != black).then_some((white, black))
}
