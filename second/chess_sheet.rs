//! A long sheet of chess without a roll: rounds up to the last, mixed with faults, boundary numbers
//! and lines that cannot be read (docs/RULES.md, "Chess" and "The sheet").

use std::ops::RangeInclusive;

use crate::kind;
use crate::sheet::{Entry, Game, Operation, Outcome, RawLine, Rota, Sheet};

const SEED: u64 = 0x5EED_C4E5_5B00_4D32;
const FULL_ROUNDS: u16 = 5;
const LAST_ROUND_TO_CLOSE: u16 = 99;
const ODDITIES_AT_A_TIME: usize = 3;

/// Boards that a full round may use besides the first and the last.
const MIDDLE_BOARDS: RangeInclusive<u16> = 1..=20;
/// Boards at which nobody is seated in a full round.
const EMPTY_BOARDS: RangeInclusive<u16> = 21..=30;
/// Players who are seated at random, besides the last one. Of the others, those in `REPLACED` lose
/// their seats at once, and those in `TURNED_AWAY` are refused each time, so that they have no standing.
const PLAYERS: RangeInclusive<u16> = 1..=40;
const LAST_PLAYER: u16 = 64;
const REPLACED: Opponents = (61, 62);
const TURNED_AWAY: Opponents = (50, 51);

// Among the edges are 256, 257 and 65537, which a book that lost their upper bits would take for 0 or 1.
const EDGE_BOARDS: [u16; 5] = [0, 31, 32, 256, 65535];
const EDGE_PLAYERS: [u16; 7] = [0, 1, 2, 64, 65, 257, 65535];
const EDGE_OPPONENTS: [i32; 7] = [0, 1, 2, 64, 65, 65537, i32::MAX];
const EDGE_KINDS: [u8; 18] = [
    0, 1, 2, 3, 8, 15, 16, 17, 18, 19, 20, 21, 32, 34, 35, 128, 144, 255,
];
const EDGE_OUTCOMES: [i32; 9] = [0, 1, 3, 4, -1, 257, 65537, i32::MIN, i32::MAX];
const EDGE_LAST_FIELDS: [u16; 4] = [0, 1, 32, 65535];
const NO_OUTCOMES: [i32; 7] = [0, 4, -1, 257, 65537, i32::MIN, i32::MAX];

/// Without a roll these make no difference to what the book does.
const SIGNATURES: [(u8, u32); 9] = [
    (0, 0),
    (0, 0),
    (0, 4000000000),
    (1, 0),
    (7, 77),
    (15, 2147483647),
    (16, 1),
    (100, 4294967295),
    (255, 4294967295),
];

/// Of each heading the last that can be read counts: hall 5 and chess, and no chief. No line before
/// `show 0` is an entry that can be read, so the headings after it come too late.
const OPENING: [RawLine; 34] = [
    b"# A long sheet of chess, made by second/generate.rs",
    b"hall",
    b"hall 256",
    b"hall -5",
    b"hall 6 6",
    b"hall five",
    b"hall 6",
    b"game",
    b"game Chess",
    b"game chess bridge",
    b"game go 1",
    b"game 0",
    b"game chess,",
    b"game bridge",
    b"chief",
    b"chief 4294967296",
    b"chief -1",
    b"chief 1 1",
    b"chief one",
    b"show",
    b"seat 0 1",
    b"as 7 4294967296",
    b"\thall  0005\r",
    b"game\tchess",
    b"as 3 5",
    b"hall 8 # no heading",
    b"game bridge # no heading",
    b"chief 0 # no heading",
    b"show 0",
    b"hall 6",
    b"game bridge",
    b"chief 4000000000",
    b"as 0 0",
    b"chief",
];

/// Lines that cannot be read after the first entry.
const UNREADABLE: [RawLine; 119] = [
    b"hall 5",
    b"hall",
    b"hall 256 and more",
    b"game",
    b"game bridge",
    b"game go",
    b"chief",
    b"chief 1",
    b"chief -1",
    b"Game chess",
    b"Hall 5",
    b"SEAT 1 2 3",
    b"seats 1 2 3",
    b"sea t 1 2 3",
    b"7 1 2 3",
    b"-",
    b"op16 1 2 3",
    b"show# 1",
    b"seat",
    b"seat 1",
    b"seat 1 2",
    b"seat 1 2 3 4",
    b"seat 1 2 3 # a note",
    b"seat 1,2,3",
    b"seat 65536 1 2",
    b"seat 1 65536 2",
    b"seat 1 2 2147483648",
    b"seat 1 2 4294967297",
    b"seat 1 2 -5",
    b"seat 1 2 -0",
    b"seat 1 -5 2",
    b"seat -5 1 2",
    b"seat 1 +1 2",
    b"seat 1 1.0 2",
    b"seat x 65536 -5 too many",
    b"result",
    b"result 0",
    b"result 0 1",
    b"result 0 1 1",
    b"result 0 1 2-0",
    b"result 0 1 1/2-1/2",
    b"result 0 1 01-0",
    b"result 0 1 1 - 0",
    b"result 0 1 1-0 0-1",
    b"result 0 1 1-",
    b"result 65536 1 1-0",
    b"result 0 65536 1-0",
    b"result -5 1 1-0",
    b"result x y z",
    b"show",
    b"show 0 0",
    b"show 65536",
    b"show -5",
    b"show -0",
    b"show +1",
    b"show 1.0",
    b"show --1",
    b"show -",
    b"show 0x1",
    b"show 1e1",
    b"show 100000000000000000000000000000",
    b"show 000000000000000000000000065536",
    b"show 18446744073709551616",
    b"close",
    b"close 1 1",
    b"close 65536",
    b"close one",
    b"total",
    b"total 1 1",
    b"total 65536",
    b"total 999999999999999999999999999999",
    b"op",
    b"op 16",
    b"op 16 0",
    b"op 16 0 0",
    b"op 16 0 0 0",
    b"op 16 0 0 0 0 0",
    b"op 256 0 0 0 0",
    b"op -5 0 0 0 0",
    b"op 16 65536 0 0 0",
    b"op 16 0 65536 0 0",
    b"op 16 0 -5 0 0",
    b"op 17 0 1 1-0 0",
    b"op 16 0 0 2147483648 0",
    b"op 16 0 0 -2147483649 0",
    b"op 16 0 0 -100000000000000000000000000000 0",
    b"op 16 0 0 --1 0",
    b"op 16 0 0 - 0",
    b"op 16 0 0 - 1",
    b"op 16 0 0 1- 0",
    b"op 16 0 0 +1 0",
    b"op 16 0 0 1.0 0",
    b"op 18 0 0 0 65536",
    b"op 18 0 0 0 -0",
    b"op 18 0 0 0 -5",
    b"op 18 0 0 0 d",
    b"op 18 0 0 0 0 # a note",
    b"as",
    b"as 9",
    b"as 9 9 9",
    b"as 256 9",
    b"as -0 9",
    b"as 9 4294967296",
    b"as 9 -1",
    b"as 9 token",
    b"As 9 9",
    b"appoint 1",
    b"appoint 1 2147483648",
    b"appoint 1 -1",
    b"remove",
    b"deputy 65536",
    b"score 0 0 0",
    b"score 0 0 0 -2147483649",
    b"score 0 0 65536 0",
    b"line 0",
    b"\xEF\xBB\xBFshow 0",
    b"sh\xF6w 0",
    b"show\x00 0",
    b"show \xD9\xA1",
];

/// Lines that are passed over or are entries, written in unusual ways.
const UNUSUAL: [RawLine; 26] = [
    b"",
    b" ",
    b"\r",
    b"\t \r\t",
    b"#",
    b"# seat 1 2 3",
    b"#hall 9",
    b"\t # a comment after blanks",
    b"#\xFF\x80\x00",
    b"# \xC3\xA9t\xC3\xA9\r",
    b"\r\t show\r0\t\r",
    b"show 000000000000000000000000000000",
    b"show 00000000000000000000000000000000000031",
    b"op 018 0031 00065535 -0 0",
    b"op 20 64 0 -00000000000000000000000000000000005 0",
    b"op 020 1 65535 -2147483648 65535",
    b"op 20 1 65535 2147483647 0",
    b"op 17 0 0 -000 0",
    b"op 16 65535 65535 -2147483648 0",
    b"seat 65535 65535 2147483647",
    b"appoint 65535 2147483647",
    b"remove 0",
    b"deputy 15",
    b"score 0 0 0 -0",
    b"line 15 7",
    b"op 1 1 0 5 0",
];

/// Entries at the edge of one field while the others are in order, or with two faults at once.
const AT_AN_EDGE: [RawLine; 32] = [
    b"seat 0 0 1",
    b"seat 0 1 0",
    b"seat 0 65 1",
    b"seat 0 1 65",
    b"seat 31 64 1",
    b"seat 31 1 64",
    b"seat 0 64 64",
    b"seat 31 1 1",
    b"seat 0 257 2",
    b"seat 0 2 65537",
    b"seat 31 1 2147483647",
    b"seat 32 50 51",
    b"seat 32 0 0",
    b"seat 65535 50 51",
    b"op 16 31 1 -1 0",
    b"op 16 31 1 -2147483648 0",
    b"op 16 31 1 2147483647 0",
    b"op 17 32 0 0 0",
    b"op 17 25 0 0 0",
    b"op 17 0 0 0 0",
    b"result 65535 65535 1-0",
    b"show 31",
    b"show 32",
    b"show 65535",
    b"total 0",
    b"total 1",
    b"total 64",
    b"total 65",
    b"total 65535",
    b"close 0",
    b"close 99",
    b"close 100",
];

/// White and black, in the number types of their fields.
type Opponents = (u16, i32);

pub fn generate() -> Vec<u8> {
    let mut generator = Generator {
        sheet: Sheet::new(Game::Chess, SEED),
        round: 1,
        unreadable: Rota::new(&UNREADABLE),
        unusual: Rota::new(&UNUSUAL),
        at_an_edge: Rota::new(&AT_AN_EDGE),
    };
    generator.run();
    generator.sheet.bytes
}

/// The sheet so far and the round that it has reached.
struct Generator {
    sheet: Sheet,
    round: u16,
    unreadable: Rota,
    unusual: Rota,
    at_an_edge: Rota,
}

/// The course of the sheet.
impl Generator {
    fn run(&mut self) {
        for line in OPENING {
            self.sheet.raw_line(line);
        }
        while self.round <= FULL_ROUNDS {
            self.full_round();
        }
        while self.round <= LAST_ROUND_TO_CLOSE {
            self.quick_round();
        }
        self.round_without_end();
    }

    /// One board is seated first and gets its result last, and no oddity gives it one; so the round
    /// cannot be closed in between, whatever the oddities do.
    fn full_round(&mut self) {
        self.close(self.round);
        let boards = self.choose_boards();
        let (held_back, others) = (boards[0], &boards[1..]);
        for board in &boards {
            self.seat_anyone(*board);
            self.oddities();
        }
        for board in others {
            self.play(*board);
            self.oddities();
        }
        self.close(self.round);
        self.enter_any_result(held_back);
        self.close_neighbours();
        self.close_for_good();
        self.sheet.entry(Entry::Show { board: held_back });
        for _ in 0..3 {
            let player = self.player();
            self.sheet.entry(Entry::Total { number: player });
        }
    }

    /// The shortest way to the next round.
    fn quick_round(&mut self) {
        let board = self.sheet.chance.within(0..=31);
        self.seat_anyone(board);
        self.enter_any_result(board);
        self.close_for_good();
    }

    /// Round 100 is played like any other but cannot be closed. The sheet ends without a final newline.
    fn round_without_end(&mut self) {
        self.seat(0, (LAST_PLAYER, 1));
        self.lines_without_a_turn();
        self.result(0, LAST_ROUND_TO_CLOSE, Outcome::Draw);
        self.enter_any_result(0);
        self.close_neighbours();
        self.close(self.round);
        self.sheet.entry(Entry::Show { board: 0 });
        for player in [0, 1, 2, 3, 4, 5, TURNED_AWAY.0, REPLACED.0, LAST_PLAYER, 65] {
            self.sheet.entry(Entry::Total { number: player });
        }
        self.sheet.bytes.extend(b"total 64");
    }

    /// The board to be held back comes first.
    fn choose_boards(&mut self) -> Vec<u16> {
        let mut boards = Vec::new();
        while boards.len() < 4 {
            let board = self.sheet.chance.within(MIDDLE_BOARDS);
            if !boards.contains(&board) {
                boards.push(board);
            }
        }
        boards.extend([0, 31]);
        boards
    }

    fn seat_anyone(&mut self, board: u16) {
        if self.sheet.chance.one_in(12) {
            self.seat(board, REPLACED);
        }
        let opponents = self.opponents();
        self.seat(board, opponents);
    }

    fn opponents(&mut self) -> Opponents {
        let white = self.player();
        loop {
            let black = self.player();
            if black != white {
                return (white, i32::from(black));
            }
        }
    }

    fn player(&mut self) -> u16 {
        if self.sheet.chance.one_in(20) {
            LAST_PLAYER
        } else {
            self.sheet.chance.within(PLAYERS)
        }
    }

    fn enter_any_result(&mut self, board: u16) {
        let outcome = self.sheet.chance.pick(&Outcome::ALL);
        self.result(board, self.round, outcome);
    }

    /// Gives the board a result, and tries what may be done to a board before and after it.
    fn play(&mut self, board: u16) {
        let now = self.round;
        if self.sheet.chance.one_in(3) {
            self.sheet.entry(Entry::Show { board });
        }
        if self.sheet.chance.one_in(3) {
            let c = self.sheet.chance.pick(&NO_OUTCOMES);
            self.sheet.entry(Entry::Operation(Operation {
                kind: kind::RESULT,
                a: board,
                b: now,
                c,
                d: 0,
            }));
        }
        if self.sheet.chance.one_in(2) {
            let round = self.sheet.chance.pick(&[0, now - 1, now + 1, now + 256]);
            self.result(board, round, Outcome::Draw);
        }
        self.enter_any_result(board);
        if self.sheet.chance.one_in(3) {
            self.enter_any_result(board);
        }
        if self.sheet.chance.one_in(2) {
            self.seat(board, TURNED_AWAY);
        }
        if self.sheet.chance.one_in(2) {
            self.sheet.entry(Entry::Show { board });
        }
    }

    fn seat(&mut self, board: u16, (white, black): Opponents) {
        self.sheet.entry(Entry::Seat {
            board,
            white,
            black,
        });
    }

    fn result(&mut self, board: u16, round: u16, outcome: Outcome) {
        self.sheet.entry(Entry::Result {
            board,
            round,
            outcome,
        });
    }

    fn close(&mut self, round: u16) {
        self.sheet.entry(Entry::Close { round });
    }

    fn close_neighbours(&mut self) {
        self.close(self.round - 1);
        self.close(self.round + 1);
    }

    fn close_for_good(&mut self) {
        self.close(self.round);
        self.round += 1;
    }
}

/// Oddities: lines that a deputy would not write, or not so.
impl Generator {
    fn oddities(&mut self) {
        for _ in 0..ODDITIES_AT_A_TIME {
            match self.sheet.chance.below(13) {
                0..=3 => {
                    let entry = self.odd_entry();
                    self.sheet.entry(entry);
                }
                4 | 5 => self.sheet.raw_line(self.at_an_edge.next()),
                6..=8 => self.sheet.raw_line(self.unreadable.next()),
                9 => self.sheet.raw_line(self.unusual.next()),
                10 => self.change_signature(),
                _ => {
                    let entry = self.odd_entry();
                    self.sheet.damaged_entry(entry);
                }
            }
        }
    }

    /// Every line of every table has come once after these.
    fn lines_without_a_turn(&mut self) {
        for table in [
            &mut self.unreadable,
            &mut self.unusual,
            &mut self.at_an_edge,
        ] {
            for line in table.rest() {
                self.sheet.raw_line(line);
            }
        }
    }

    fn change_signature(&mut self) {
        let (grant, token) = self.sheet.chance.pick(&SIGNATURES);
        self.sheet.sign_as(grant, token);
    }

    fn odd_entry(&mut self) -> Entry {
        match self.sheet.chance.below(11) {
            0 | 1 => self.odd_seat(),
            2..=4 => self.odd_result(),
            5 => Entry::Show {
                board: self.odd_board(),
            },
            6 => Entry::Close {
                round: self.odd_round(),
            },
            7 => Entry::Total {
                number: self.sheet.chance.pick(&EDGE_PLAYERS),
            },
            _ => self.odd_operation(),
        }
    }

    fn odd_seat(&mut self) -> Entry {
        Entry::Seat {
            board: self.sheet.chance.pick(&EDGE_BOARDS),
            white: self.sheet.chance.pick(&EDGE_PLAYERS),
            black: self.sheet.chance.pick(&EDGE_OPPONENTS),
        }
    }

    fn odd_result(&mut self) -> Entry {
        Entry::Result {
            board: self.odd_board(),
            round: self.odd_round(),
            outcome: self.sheet.chance.pick(&Outcome::ALL),
        }
    }

    /// Never at the board that is held back, nor at one that is to stay empty.
    fn odd_operation(&mut self) -> Entry {
        let kind = self.sheet.chance.pick(&EDGE_KINDS);
        let a = self.sheet.chance.pick(&EDGE_BOARDS);
        let b = self.odd_round();
        let c = self.sheet.chance.pick(&EDGE_OUTCOMES);
        let d = self.sheet.chance.pick(&EDGE_LAST_FIELDS);
        let (a, b) = match kind {
            kind::CLOSE_OF_CHESS => (b, a),
            _ => (a, b),
        };
        Entry::Operation(Operation { kind, a, b, c, d })
    }

    /// Never the board that is held back.
    fn odd_board(&mut self) -> u16 {
        if self.sheet.chance.one_in(3) {
            self.sheet.chance.within(EMPTY_BOARDS)
        } else {
            self.sheet.chance.pick(&EDGE_BOARDS)
        }
    }

    fn odd_round(&mut self) -> u16 {
        let now = self.round;
        self.sheet
            .chance
            .pick(&[0, 99, 100, now - 1, now, now, now, now + 1, 65535])
    }
}
