//! The writing of a scoresheet: entries, numbers and blanks in all the ways in which docs/RULES.md
//! lets them be written, and lines that are damaged on purpose.

use crate::chance::Chance;
use crate::kind;

pub type Word = Vec<u8>;

/// A line as it stands on the sheet, without its final newline.
pub type RawLine = &'static [u8];

/// Words that can stand for no number and no result; the empty one lets its word go missing.
const BAD_WORDS: [&[u8]; 13] = [
    b"",
    b"-",
    b"--1",
    b"+1",
    b"1.0",
    b"1-",
    b"65536x",
    b"4294967296",
    b"-2147483649",
    b"123456789012345678901234567890",
    b"\xFF",
    b"1\x00",
    b"\xC2\xBD",
];

const BLANKS_BETWEEN: [&[u8]; 6] = [b"  ", b"\t", b"\r", b" \t ", b"\t\t", b" \r "];
const BLANKS_AROUND: [&[u8]; 5] = [b" ", b"\t", b"\r", b"   ", b" \t\r"];

/// Numbers for the fields that an operation does not look at.
const IDLE_NUMBERS: [u16; 5] = [0, 0, 0, 1, 65535];

#[derive(Clone, Copy)]
pub enum Game {
    Chess,
    Bridge,
}

impl Game {
    fn closing_kind(self) -> u8 {
        match self {
            Self::Chess => kind::CLOSE_OF_CHESS,
            Self::Bridge => kind::CLOSE_OF_BRIDGE,
        }
    }

    fn total_kind(self) -> u8 {
        match self {
            Self::Chess => kind::TOTAL_OF_CHESS,
            Self::Bridge => kind::TOTAL_OF_BRIDGE,
        }
    }
}

#[derive(Clone, Copy)]
pub enum Outcome {
    WhiteWon = 1,
    Draw = 2,
    BlackWon = 3,
}

impl Outcome {
    pub const ALL: [Self; 3] = [Self::WhiteWon, Self::Draw, Self::BlackWon];

    fn word(self) -> Word {
        match self {
            Self::WhiteWon => b"1-0".to_vec(),
            Self::Draw => b"1/2".to_vec(),
            Self::BlackWon => b"0-1".to_vec(),
        }
    }
}

/// An operation without its grant and token, which `as` lines give.
#[derive(Clone, Copy)]
pub struct Operation {
    pub kind: u8,
    pub a: u16,
    pub b: u16,
    pub c: i32,
    pub d: u16,
}

#[derive(Clone, Copy)]
pub enum Entry {
    /// The token is not below 0; only an operation can give such a one.
    Appoint {
        entry: u16,
        token: i32,
    },
    Remove {
        entry: u16,
    },
    Deputy {
        entry: u16,
    },
    Seat {
        board: u16,
        white: u16,
        black: i32,
    },
    Result {
        board: u16,
        round: u16,
        outcome: Outcome,
    },
    Show {
        board: u16,
    },
    Score {
        deal: u16,
        north_south: u16,
        east_west: u16,
        score: i32,
    },
    Line {
        deal: u16,
        north_south: u16,
    },
    Close {
        round: u16,
    },
    Total {
        number: u16,
    },
    Operation(Operation),
}

pub struct Sheet {
    pub bytes: Vec<u8>,
    pub chance: Chance,
    game: Game,
}

impl Sheet {
    pub fn new(game: Game, seed: u64) -> Self {
        Self {
            bytes: Vec::new(),
            chance: Chance::new(seed),
            game,
        }
    }

    pub fn raw_line(&mut self, line: RawLine) {
        self.bytes.extend(line);
        self.bytes.push(b'\n');
    }

    pub fn entry(&mut self, entry: Entry) {
        let words = self.words(entry);
        self.words_line(&words);
    }

    pub fn sign_as(&mut self, grant: u8, token: u32) {
        let words = [b"as".to_vec(), self.number(grant), self.number(token)];
        self.words_line(&words);
    }

    /// A line that would be an entry but has one word too many, or one after the first that is spoilt
    /// or has gone missing. It can never be read.
    pub fn damaged_entry(&mut self, entry: Entry) {
        let mut words = self.words(entry);
        let place = 1 + self.chance.below(words.len());
        let bad_word = self.chance.pick(&BAD_WORDS);
        if place == words.len() {
            words.push(b"7".to_vec());
        } else if bad_word.is_empty() {
            words.remove(place);
        } else {
            words[place] = bad_word.to_vec();
        }
        self.words_line(&words);
    }

    /// Now and then an entry is written as the operation that it is.
    fn words(&mut self, entry: Entry) -> Vec<Word> {
        if self.chance.one_in(6) {
            let operation = self.operation_of(entry);
            self.operation_words(operation)
        } else {
            self.plain_words(entry)
        }
    }

    fn plain_words(&mut self, entry: Entry) -> Vec<Word> {
        let mut words = Vec::new();
        match entry {
            Entry::Appoint { entry, token } => {
                words.extend([b"appoint".to_vec(), self.number(entry), self.number(token)]);
            }
            Entry::Remove { entry } => words.extend([b"remove".to_vec(), self.number(entry)]),
            Entry::Deputy { entry } => words.extend([b"deputy".to_vec(), self.number(entry)]),
            Entry::Seat {
                board,
                white,
                black,
            } => {
                words.extend([b"seat".to_vec(), self.number(board)]);
                words.extend([self.number(white), self.number(black)]);
            }
            Entry::Result {
                board,
                round,
                outcome,
            } => {
                words.extend([b"result".to_vec(), self.number(board)]);
                words.extend([self.number(round), outcome.word()]);
            }
            Entry::Show { board } => words.extend([b"show".to_vec(), self.number(board)]),
            Entry::Score {
                deal,
                north_south,
                east_west,
                score,
            } => {
                words.extend([b"score".to_vec(), self.number(deal)]);
                words.extend([self.number(north_south), self.number(east_west)]);
                words.push(self.number(score));
            }
            Entry::Line { deal, north_south } => {
                words.extend([b"line".to_vec(), self.number(deal)]);
                words.push(self.number(north_south));
            }
            Entry::Close { round } => words.extend([b"close".to_vec(), self.number(round)]),
            Entry::Total { number } => words.extend([b"total".to_vec(), self.number(number)]),
            Entry::Operation(operation) => return self.operation_words(operation),
        }
        words
    }

    fn operation_words(&mut self, operation: Operation) -> Vec<Word> {
        let Operation { kind, a, b, c, d } = operation;
        vec![
            b"op".to_vec(),
            self.number(kind),
            self.number(a),
            self.number(b),
            self.number(c),
            self.number(d),
        ]
    }

    fn operation_of(&mut self, entry: Entry) -> Operation {
        let idle = Operation {
            kind: 0,
            a: 0,
            b: self.chance.pick(&IDLE_NUMBERS),
            c: self.chance.pick(&IDLE_NUMBERS).into(),
            d: self.chance.pick(&IDLE_NUMBERS),
        };
        let with_a_alone = |kind: u8, a: u16| Operation { kind, a, ..idle };
        match entry {
            Entry::Appoint { entry, token } => Operation {
                kind: kind::APPOINT,
                a: entry,
                c: token,
                ..idle
            },
            Entry::Remove { entry } => with_a_alone(kind::REMOVE, entry),
            Entry::Deputy { entry } => with_a_alone(kind::DEPUTY, entry),
            Entry::Seat {
                board,
                white,
                black,
            } => Operation {
                kind: kind::SEAT,
                a: board,
                b: white,
                c: black,
                ..idle
            },
            Entry::Result {
                board,
                round,
                outcome,
            } => Operation {
                kind: kind::RESULT,
                a: board,
                b: round,
                c: outcome as i32,
                ..idle
            },
            Entry::Show { board } => with_a_alone(kind::SHOW, board),
            Entry::Score {
                deal,
                north_south,
                east_west,
                score,
            } => Operation {
                kind: kind::SCORE,
                a: deal,
                b: north_south,
                c: score,
                d: east_west,
            },
            Entry::Line { deal, north_south } => Operation {
                kind: kind::LINE,
                a: deal,
                b: north_south,
                ..idle
            },
            Entry::Close { round } => with_a_alone(self.game.closing_kind(), round),
            Entry::Total { number } => with_a_alone(self.game.total_kind(), number),
            Entry::Operation(operation) => operation,
        }
    }

    /// Now and then with needless zeros.
    fn number(&mut self, number: impl Into<i64>) -> Word {
        let number = number.into();
        let sign = if number < 0 { "-" } else { "" };
        let zeros = if self.chance.one_in(12) {
            self.chance.below(4)
        } else {
            0
        };
        format!("{sign}{}{}", "0".repeat(zeros), number.unsigned_abs()).into_bytes()
    }

    /// Most words stand one space apart, but any blanks may stand between and around them.
    fn words_line(&mut self, words: &[Word]) {
        self.blanks_around();
        for (index, word) in words.iter().enumerate() {
            if index > 0 {
                let blanks: &[u8] = if self.chance.one_in(10) {
                    self.chance.pick(&BLANKS_BETWEEN)
                } else {
                    b" "
                };
                self.bytes.extend(blanks);
            }
            self.bytes.extend(word);
        }
        self.blanks_around();
        self.bytes.push(b'\n');
    }

    fn blanks_around(&mut self) {
        if self.chance.one_in(12) {
            let blanks = self.chance.pick(&BLANKS_AROUND);
            self.bytes.extend(blanks);
        }
    }
}

/// Lines that come in turn, over and over.
pub struct Rota {
    lines: &'static [RawLine],
    taken: usize,
}

impl Rota {
    pub fn new(lines: &'static [RawLine]) -> Self {
        Self { lines, taken: 0 }
    }

    pub fn next(&mut self) -> RawLine {
        let line = self.lines[self.taken % self.lines.len()];
        self.taken += 1;
        line
    }

    /// The lines that have not had a turn yet; they have it now.
    pub fn rest(&mut self) -> &'static [RawLine] {
        let rest = &self.lines[self.taken.min(self.lines.len())..];
        self.taken += rest.len();
        rest
    }
}
