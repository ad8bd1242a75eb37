//! What consoles ask of a hall's book: mostly what helps the play on at the hall, and odd things now and
//! then (docs/RULES.md, "Chess", "Bridge" and "The roll of deputies").

use crate::book::Operation;
use crate::chance::Chance;
use crate::kind;
use crate::operations::{Game, Signature};

/// How many of a page's numbers are the roll's.
const ROLL: usize = 16;
const BOARD_NUMBERS: usize = 4;
const LINE_NUMBERS: usize = 3;
const PAIRS: usize = 8;

const BOARDS: [u16; 12] = [0, 0, 1, 1, 2, 2, 3, 3, 4, 5, 31, 32];
const DEALS: [u16; 10] = [0, 0, 0, 1, 1, 1, 2, 2, 15, 16];
const TOKENS: [i32; 8] = [1, 2, 77, 78, 4000, 65536, 2147483646, 2147483647];

const EDGE_KINDS: [u8; 21] = [
    0, 1, 2, 3, 4, 15, 16, 17, 18, 19, 20, 21, 31, 32, 33, 34, 35, 36, 128, 254, 255,
];
const EDGE_NUMBERS: [u16; 14] = [0, 0, 1, 1, 2, 7, 8, 15, 16, 31, 32, 64, 256, 65535];
const EDGE_VALUES: [i32; 12] = [
    0,
    1,
    2,
    3,
    4,
    -10,
    64,
    7600,
    7610,
    65537,
    i32::MIN,
    i32::MAX,
];
const NEVER_STANDING: [Signature; 6] = [
    Signature { grant: 0, token: 0 },
    Signature { grant: 1, token: 0 },
    Signature {
        grant: 15,
        token: u32::MAX,
    },
    Signature {
        grant: 16,
        token: 1,
    },
    Signature {
        grant: 17,
        token: 0,
    },
    Signature {
        grant: 255,
        token: u32::MAX,
    },
];

/// A hall's page in numbers, and who once had a grant in any hall.
pub struct Asker<'a> {
    pub chance: &'a mut Chance,
    pub game: Game,
    pub page: Vec<i64>,
    pub once_appointed: &'a [Signature],
}

impl Asker<'_> {
    pub fn signature(&mut self) -> Signature {
        let deputies = self.deputies();
        match self.chance.below(24) {
            0..=9 => self.entry(0),
            10..=20 if !deputies.is_empty() => self.chance.pick(&deputies),
            21 | 22 if !self.once_appointed.is_empty() => self.chance.pick(self.once_appointed),
            23 => self.chance.pick(&NEVER_STANDING),
            _ => self.entry(0),
        }
    }

    pub fn operation(&mut self, signature: Signature) -> Operation {
        let few_deputies = self.deputies().len() < 2;
        match self.chance.below(24) {
            0 => self.odd(signature),
            1..=3 => self.of_roll(signature),
            4..=9 if few_deputies => self.of_roll(signature),
            _ => match self.game {
                Game::Chess => self.of_chess(signature),
                Game::Bridge => self.of_bridge(signature),
            },
        }
    }

    fn entry(&self, grant: u8) -> Signature {
        let token = self.page[usize::from(grant)] as u32;
        Signature { grant, token }
    }

    fn deputies(&self) -> Vec<Signature> {
        let deputies = (1..ROLL as u8).map(|grant| self.entry(grant));
        deputies.filter(|deputy| deputy.token != 0).collect()
    }

    /// Mostly it is the chief who appoints and removes.
    fn of_roll(&mut self, signature: Signature) -> Operation {
        let kind = self.chance.pick(&[
            kind::APPOINT,
            kind::APPOINT,
            kind::APPOINT,
            kind::REMOVE,
            kind::DEPUTY,
        ]);
        let signature = match kind {
            kind::APPOINT | kind::REMOVE if !self.chance.one_in(8) => self.entry(0),
            _ => signature,
        };
        let c = self.chance.pick(&TOKENS);
        Operation {
            kind,
            a: self.roll_entry(),
            c: if kind == kind::APPOINT { c } else { 0 },
            ..signature.idle()
        }
    }

    fn roll_entry(&mut self) -> u16 {
        match self.chance.below(12) {
            0 => self.chance.pick(&[0, 15, 16, 65535]),
            _ => self.chance.within(1..=4),
        }
    }

    fn odd(&mut self, signature: Signature) -> Operation {
        Operation {
            kind: self.chance.pick(&EDGE_KINDS),
            a: self.chance.pick(&EDGE_NUMBERS),
            b: self.chance.pick(&EDGE_NUMBERS),
            c: self.chance.pick(&EDGE_VALUES),
            d: self.chance.pick(&EDGE_NUMBERS),
            ..signature.idle()
        }
    }

    /// Mostly the round being played.
    fn round(&mut self) -> u16 {
        let now = self.page[ROLL] as u16;
        match self.chance.below(12) {
            0 => self.chance.pick(&[0, now - 1, now + 1, now + 256, 65535]),
            _ => now,
        }
    }

    fn close(&mut self, kind: u8, signature: Signature) -> Operation {
        Operation {
            kind,
            a: self.round(),
            ..signature.idle()
        }
    }
}

/// Chess.
impl Asker<'_> {
    fn of_chess(&mut self, signature: Signature) -> Operation {
        match self.chance.below(8) {
            0..=4 => self.next_of_chess(signature),
            _ => self.any_of_chess(signature),
        }
    }

    /// What brings the round to its end.
    fn next_of_chess(&mut self, signature: Signature) -> Operation {
        let seated: Vec<u16> = (0..32)
            .filter(|board| self.seated_and_result(*board).0 == 1)
            .collect();
        let without_result = |board: &u16| self.seated_and_result(*board).1 == 0;
        let played: Vec<u16> = seated.iter().copied().filter(without_result).collect();
        if !played.is_empty() && !self.chance.one_in(5) {
            let board = self.chance.pick(&played);
            self.result(board, signature)
        } else if !seated.is_empty() && !self.chance.one_in(5) {
            self.close(kind::CLOSE_OF_CHESS, signature)
        } else {
            let board = self.chance.pick(&BOARDS);
            self.seat(board, signature)
        }
    }

    fn any_of_chess(&mut self, signature: Signature) -> Operation {
        use kind::{CLOSE_OF_CHESS, RESULT, SEAT, SHOW, TOTAL_OF_CHESS};
        let board = self.chance.pick(&BOARDS);
        let choices: &[u8] = match self.seated_and_result(board) {
            (0, _) => &[SEAT, SEAT, SHOW, RESULT, CLOSE_OF_CHESS, TOTAL_OF_CHESS],
            _ => &[SEAT, SHOW, RESULT, RESULT, CLOSE_OF_CHESS, TOTAL_OF_CHESS],
        };
        match self.chance.pick(choices) {
            SEAT => self.seat(board, signature),
            RESULT => self.result(board, signature),
            CLOSE_OF_CHESS => self.close(CLOSE_OF_CHESS, signature),
            TOTAL_OF_CHESS => self.total(TOTAL_OF_CHESS, 0..=13, signature),
            kind => Operation {
                kind,
                a: board,
                ..signature.idle()
            },
        }
    }

    fn seated_and_result(&self, board: u16) -> (i64, i64) {
        let start = ROLL + 1 + BOARD_NUMBERS * usize::from(board);
        match self.page[start..] {
            [seated, _, _, result, ..] if board < 32 => (seated, result),
            _ => (0, 0),
        }
    }

    fn seat(&mut self, board: u16, signature: Signature) -> Operation {
        let white = self.player();
        let black = self.player();
        Operation {
            kind: kind::SEAT,
            a: board,
            b: white,
            c: black.into(),
            ..signature.idle()
        }
    }

    fn player(&mut self) -> u16 {
        match self.chance.below(16) {
            0 => self.chance.pick(&[0, 64, 65, 257]),
            _ => self.chance.within(1..=12),
        }
    }

    fn result(&mut self, board: u16, signature: Signature) -> Operation {
        Operation {
            kind: kind::RESULT,
            a: board,
            b: self.round(),
            c: match self.chance.below(16) {
                0 => self.chance.pick(&[0, 4, -1, 257]),
                _ => self.chance.within(1..=3).into(),
            },
            ..signature.idle()
        }
    }

    fn total(
        &mut self,
        kind: u8,
        range: std::ops::RangeInclusive<u16>,
        signature: Signature,
    ) -> Operation {
        Operation {
            kind,
            a: self.chance.within(range),
            ..signature.idle()
        }
    }
}

/// Bridge.
impl Asker<'_> {
    fn of_bridge(&mut self, signature: Signature) -> Operation {
        match self.chance.below(8) {
            0..=4 => self.next_of_bridge(signature),
            _ => self.any_of_bridge(signature),
        }
    }

    /// What brings the round to its end.
    fn next_of_bridge(&mut self, signature: Signature) -> Operation {
        let with_one_line: Vec<u16> = (0..16).filter(|deal| self.lines_on(*deal) == 1).collect();
        let is_played = (0..16).any(|deal| self.lines_on(deal) > 1);
        if !with_one_line.is_empty() && !self.chance.one_in(5) {
            let deal = self.chance.pick(&with_one_line);
            self.score(deal, signature)
        } else if is_played && !self.chance.one_in(3) {
            self.close(kind::CLOSE_OF_BRIDGE, signature)
        } else {
            let deal = self.chance.pick(&DEALS);
            self.score(deal, signature)
        }
    }

    fn any_of_bridge(&mut self, signature: Signature) -> Operation {
        use kind::{CLOSE_OF_BRIDGE, LINE, SCORE, TOTAL_OF_BRIDGE};
        let deal = self.chance.pick(&DEALS);
        let choices = [SCORE, SCORE, LINE, CLOSE_OF_BRIDGE, TOTAL_OF_BRIDGE];
        match self.chance.pick(&choices) {
            SCORE => self.score(deal, signature),
            CLOSE_OF_BRIDGE => self.close(CLOSE_OF_BRIDGE, signature),
            TOTAL_OF_BRIDGE => self.total(TOTAL_OF_BRIDGE, 0..=16, signature),
            kind => Operation {
                kind,
                a: deal,
                b: self.pair(),
                ..signature.idle()
            },
        }
    }

    fn lines_on(&self, deal: u16) -> usize {
        let start = ROLL + 1 + LINE_NUMBERS * PAIRS * usize::from(deal);
        let lines = self.page[start..].chunks(LINE_NUMBERS).take(PAIRS);
        match deal {
            0..=15 => lines.filter(|line| line[0] == 1).count(),
            _ => 0,
        }
    }

    fn score(&mut self, deal: u16, signature: Signature) -> Operation {
        let scores = [0, 50, 110, 420, 620, 7600, -100, -110, -7600];
        Operation {
            kind: kind::SCORE,
            a: deal,
            b: self.pair(),
            c: match self.chance.below(16) {
                0 => self.chance.pick(&[7610, -7610, 5, i32::MIN]),
                _ => self.chance.pick(&scores),
            },
            d: self.pair(),
            ..signature.idle()
        }
    }

    fn pair(&mut self) -> u16 {
        match self.chance.below(16) {
            0 => self.chance.pick(&[8, 255, 65535]),
            _ => self.chance.within(0..=7),
        }
    }
}
