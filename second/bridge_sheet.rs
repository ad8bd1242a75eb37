//! A long sheet of bridge under a roll: several rounds, mixed with deputies who come and go, faults,
//! boundary numbers and lines that cannot be read (docs/RULES.md, "Bridge" and "The roll of deputies").

use std::ops::RangeInclusive;

use crate::kind;
use crate::sheet::{Entry, Game, Operation, Outcome, RawLine, Rota, Sheet};

const SEED: u64 = 0xB41D_6E5E_ED00_0C4F;
const ROUNDS: u16 = 6;
const ODDITIES_AT_A_TIME: usize = 2;

/// The first and the last deal, where oddities may enter scores as well. They have two lines from the
/// start of a round on, so that no such score is ever alone.
const OUTER_DEALS: [u16; 2] = [0, 15];
const MIDDLE_DEALS: [u16; 11] = [1, 2, 3, 4, 5, 6, 7, 8, 9, 10, 11];
/// Deals without lines.
const EMPTY_DEALS: RangeInclusive<u16> = 12..=14;

/// Pairs that play. Of the others, `REPLACED` loses its line at once and stands with no points, and those
/// in `TURNED_AWAY` are refused each time, so that they have no standing.
const NORTH_SOUTH: [u16; 7] = [0, 1, 2, 3, 4, 5, 7];
const EAST_WEST: [u16; 6] = [0, 1, 2, 4, 6, 7];
const REPLACED: u16 = 5;
const TURNED_AWAY: Pairs = (6, 3);

/// Few enough for equal scores to be frequent.
const SCORES: [i32; 12] = [
    420, 420, 420, -50, -50, 0, 620, -100, 1430, 7600, -7600, -10,
];

// Among the edges are 256 and 327680, which a book that lost their upper bits would take for 0.
const EDGE_DEALS: [u16; 5] = [0, 15, 16, 256, 65535];
const EDGE_PAIRS: [u16; 7] = [0, 0, 7, 7, 8, 256, 65535];
const EDGE_SCORES: [i32; 14] = [
    7600,
    7610,
    -7600,
    -7610,
    5,
    -5,
    0,
    10,
    7605,
    327680,
    -327680,
    2147483640,
    i32::MIN,
    i32::MAX,
];
const NO_SCORES: [i32; 6] = [7610, -7610, 5, -15, i32::MIN, i32::MAX];
const EDGE_TOTALS: [u16; 6] = [0, 7, 8, 15, 16, 65535];
const EDGE_KINDS: [u8; 15] = [0, 4, 16, 17, 18, 19, 20, 31, 32, 33, 34, 35, 36, 160, 255];
const EDGE_ENTRIES: [u16; 6] = [0, 1, 15, 16, 256, 65535];
const NO_DEPUTYS_ENTRIES: [u16; 4] = [0, 16, 256, 65535];
const EDGE_TOKENS: [i32; 3] = [0, 1, i32::MAX];
const NO_TOKENS: [i32; 4] = [0, -1, -294967296, i32::MIN];

const CHIEF: Console = Console {
    grant: 0,
    token: 4000000000,
};
const DEPUTIES: RangeInclusive<u16> = 1..=15;
const APPOINTED_FIRST: [Console; 4] = [
    Console { grant: 1, token: 1 },
    Console {
        grant: 15,
        token: 2147483647,
    },
    Console {
        grant: 7,
        token: 70707,
    },
    Console {
        grant: 8,
        token: 70707,
    },
];

/// Consoles that never stand, whoever is appointed: no entry has such a number, or no token that.
const NEVER_STANDING: [Console; 11] = [
    Console { grant: 0, token: 0 },
    Console { grant: 1, token: 0 },
    Console { grant: 1, token: 2 },
    Console {
        grant: 1,
        token: 65537,
    },
    Console { grant: 9, token: 0 },
    Console {
        grant: 0,
        token: 4000000001,
    },
    // The lower 16 bits of the chief's token.
    Console {
        grant: 0,
        token: 10240,
    },
    Console {
        grant: 15,
        token: CHIEF.token,
    },
    Console {
        grant: 16,
        token: CHIEF.token,
    },
    Console {
        grant: 17,
        token: 1,
    },
    Console {
        grant: 255,
        token: 4294967295,
    },
];

/// The chief is said twice, and the later counts. No line up to `chief 4000000000` is an entry that can be
/// read, so the headings after the first entry alone come too late.
const OPENING: [RawLine; 33] = [
    b"# A long sheet of bridge, made by second/generate.rs",
    b"hall 2 2",
    b"hall 256",
    b"hall two",
    b"hall 2",
    b"game",
    b"game Bridge",
    b"game bridges",
    b"game bridge chess",
    b"game \x00",
    b"game\r bridge\t",
    b"chief",
    b"chief 4294967296",
    b"chief -0",
    b"chief 4000000000 0",
    b"chief token",
    b"chief 5",
    b"close one",
    b"score 0 0 0 420 0",
    b"as",
    b"as 0",
    b"as 256 0",
    b"as 0 4294967296",
    b"chief 4000000000",
    b"as 0 5",
    b"score 0 6 3 420",
    b"as 0 4000000000",
    b"hall 3",
    b"game chess",
    b"chief 5",
    b"deputy 0",
    b"deputy 1",
    b"close 1",
];

/// Lines that cannot be read after the first entry.
const UNREADABLE: [RawLine; 96] = [
    b"hall 2",
    b"hall",
    b"hall 256 and more",
    b"game chess",
    b"game",
    b"game go",
    b"chief 1",
    b"chief 4294967296",
    b"chief",
    b"HALL 2",
    b"bridge",
    b"Score 0 0 0 0",
    b"scores 0 0 0 0",
    b"sco re 0 0 0 0",
    b"op32 0 0 0 0",
    b"line# 0 0",
    b"-",
    b"420",
    b"as",
    b"as 0",
    b"as 0 4000000000 0",
    b"as 0 4000000000 # the chief",
    b"as 256 1",
    b"as -1 1",
    b"as 1 4294967296",
    b"as 1 -1",
    b"as 1 1.0",
    b"as x y z",
    b"appoint",
    b"appoint 1",
    b"appoint 1 1 1",
    b"appoint 65536 1",
    b"appoint 1 2147483648",
    b"appoint 1 4000000000",
    b"appoint 1 -1",
    b"appoint -1 1",
    b"remove",
    b"remove 1 1",
    b"remove 65536",
    b"remove -0",
    b"deputy",
    b"deputy 1 1",
    b"deputy 65536",
    b"deputy one",
    b"score",
    b"score 0",
    b"score 0 0",
    b"score 0 0 0",
    b"score 0 0 0 0 0",
    b"score 65536 0 0 0",
    b"score 0 65536 0 0",
    b"score 0 0 65536 0",
    b"score -1 0 0 0",
    b"score 0 -1 0 0",
    b"score 0 0 -1 0",
    b"score 0 0 0 2147483648",
    b"score 0 0 0 -2147483649",
    b"score 0 0 0 --420",
    b"score 0 0 0 +420",
    b"score 0 0 0 - 420",
    b"score 0 0 0 -",
    b"score 0 0 0 420-",
    b"score 0 0 0 -100000000000000000000000000000",
    b"score x y z w v",
    b"line",
    b"line 0",
    b"line 0 0 0",
    b"line 65536 0",
    b"line 0 65536",
    b"line 0 -5",
    b"close",
    b"close 1 1",
    b"close 65536",
    b"total",
    b"total 1 1",
    b"total 65536",
    b"total -0",
    b"seat 0 1",
    b"seat 0 1 2147483648",
    b"result 0 1 2-0",
    b"result 0 1",
    b"show 65536",
    b"op",
    b"op 32",
    b"op 32 0",
    b"op 32 0 0",
    b"op 32 0 0 420",
    b"op 32 0 0 420 65536",
    b"op 32 0 0 420 -1",
    b"op 32 0 0 2147483648 0",
    b"op 32 0 0 420 0 0",
    b"op 256 0 0 0 0",
    b"op 32 0 0 \xE2\x88\x92420 0",
    b"\xEF\xBB\xBFline 0 0",
    b"l\xEFne 0 0",
    b"line\x00 0 0",
];

/// Lines that are passed over or are entries, written in unusual ways.
const UNUSUAL: [RawLine; 18] = [
    b"",
    b" \t\r ",
    b"#",
    b"# score 0 0 0 420",
    b"#chief 5",
    b"\t\r # as 0 5",
    b"#\xFF\x80\x00",
    b"\r\t line\r0\t\r0",
    b"line 00000000000000000000000000000000015 0000007",
    b"score 0000 007 00 -0",
    b"score 15 7 0 -0000000000000000000000000000000000050",
    b"score 15 0 7 000000000000000000000000000000000000420",
    b"op 0000033 0015 0000 -2147483648 65535",
    b"op 35 15 65535 2147483647 65535",
    b"total 000000000000000000000000000000",
    b"deputy 0000000000000000000000000000000",
    b"op 3 0015 65535 -2147483648 65535",
    b"score 65535 65535 65535 -2147483648",
];

/// Entries at the edge of one field while the others are in order, or with two faults at once. None of
/// them alters the roll, closes a round or scores on any but the outer deals.
const AT_AN_EDGE: [RawLine; 59] = [
    b"score 16 0 0 0",
    b"score 65535 0 0 0",
    b"score 16 8 8 5",
    b"score 0 8 0 0",
    b"score 0 0 8 0",
    b"score 15 65535 0 0",
    b"score 15 0 65535 0",
    b"score 15 256 0 0",
    b"score 15 0 256 0",
    b"score 0 8 0 5",
    b"score 0 6 3 7610",
    b"score 0 6 3 -7610",
    b"score 0 6 3 5",
    b"score 0 6 3 -7605",
    b"score 0 6 3 -2147483648",
    b"score 0 6 3 2147483647",
    b"score 0 7 7 7600",
    b"score 0 7 7 -7600",
    b"score 15 7 7 0",
    b"score 15 0 7 0",
    b"score 15 0 7 5",
    b"score 15 7 0 0",
    b"line 0 7",
    b"line 0 8",
    b"line 15 0",
    b"line 15 65535",
    b"line 16 0",
    b"line 65535 65535",
    b"line 13 0",
    b"line 13 8",
    b"total 0",
    b"total 7",
    b"total 8",
    b"total 15",
    b"total 16",
    b"total 65535",
    b"close 0",
    b"close 99",
    b"close 100",
    b"close 65535",
    b"seat 0 1 2",
    b"seat 65535 0 0",
    b"result 0 1 1-0",
    b"result 1 1 1/2",
    b"result 2 1 0-1",
    b"show 0",
    b"op 17 0 1 4 0",
    b"op 19 1 0 0 0",
    b"op 20 1 0 0 0",
    b"op 0 15 0 0 0",
    b"op 4 15 0 0 0",
    b"op 255 65535 65535 -1 65535",
    b"appoint 0 0",
    b"appoint 16 0",
    b"appoint 15 0",
    b"remove 0",
    b"remove 16",
    b"deputy 15",
    b"deputy 16",
];

/// North-South and East-West.
type Pairs = (u16, u16);

/// Under which grant and token entries are made.
#[derive(Clone, Copy, PartialEq, Eq)]
struct Console {
    grant: u8,
    token: u32,
}

pub fn generate() -> Vec<u8> {
    let mut generator = Generator {
        sheet: Sheet::new(Game::Bridge, SEED),
        round: 1,
        console: CHIEF,
        appointed: Vec::new(),
        dismissed: Vec::new(),
        unreadable: Rota::new(&UNREADABLE),
        unusual: Rota::new(&UNUSUAL),
        at_an_edge: Rota::new(&AT_AN_EDGE),
    };
    generator.run();
    generator.sheet.bytes
}

/// The sheet so far, the round that it has reached, the console that it goes on with, the deputies'
/// consoles that stand, and those that stood until their deputy was removed or replaced.
struct Generator {
    sheet: Sheet,
    round: u16,
    console: Console,
    appointed: Vec<Console>,
    dismissed: Vec<Console>,
    unreadable: Rota,
    unusual: Rota,
    at_an_edge: Rota,
}

/// The course of the sheet.
impl Generator {
    /// The opening leaves the console to the chief.
    fn run(&mut self) {
        for line in OPENING {
            self.sheet.raw_line(line);
        }
        for console in APPOINTED_FIRST {
            self.appoint(console);
        }
        while self.round <= ROUNDS {
            self.round_to_the_end();
        }
        self.round_left_open();
    }

    /// One deal has a line alone until the end, and no oddity gives it another; so the round cannot be
    /// closed in between, whatever the oddities do.
    fn round_to_the_end(&mut self) {
        self.take_any_standing();
        self.close(self.round);
        let deals = self.sheet.chance.sample(&MIDDLE_DEALS, 3);
        let (held_back, others) = (deals[0], &deals[1..]);
        let pairs = self.any_pairs(2);
        self.score_anything(held_back, pairs[0]);
        self.close(self.round);
        for deal in OUTER_DEALS {
            self.score_lines(deal, 2);
        }
        self.change_roll();
        for deal in others {
            self.play(*deal);
            self.oddities();
        }
        self.take_any_standing();
        self.close(self.round);
        self.score_anything(held_back, pairs[1]);
        self.close_neighbours();
        self.close_for_good();
        self.sheet.entry(Entry::Line {
            deal: held_back,
            north_south: pairs[0].0,
        });
        let number = self.sheet.chance.within(0..=15);
        self.sheet.entry(Entry::Total { number });
    }

    /// The last round is not closed, since a deal has one line alone. The sheet ends without a final newline.
    fn round_left_open(&mut self) {
        self.take(CHIEF);
        let pairs = self.any_pairs(1);
        self.score_anything(MIDDLE_DEALS[0], pairs[0]);
        for deal in OUTER_DEALS {
            self.score_lines(deal, 2);
        }
        self.lines_without_a_turn();
        self.close_neighbours();
        self.close(self.round);
        for entry in EDGE_ENTRIES {
            self.sheet.entry(Entry::Deputy { entry });
        }
        for number in 0..=16 {
            self.sheet.entry(Entry::Total { number });
        }
        self.sheet.bytes.extend(b"total 15");
    }

    /// Gives the deal its lines, and tries what may be done to a deal before and after.
    fn play(&mut self, deal: u16) {
        self.take_any_standing();
        let count = 2 + self.sheet.chance.below(4);
        let pairs = self.any_pairs(count);
        for (north_south, east_west) in &pairs {
            if self.sheet.chance.one_in(4) {
                self.score_anything(deal, (*north_south, REPLACED));
            }
            self.score_anything(deal, (*north_south, *east_west));
            self.oddities();
        }
        self.take_any_standing();
        let (first, second) = (pairs[0], pairs[1]);
        let no_score = self.sheet.chance.pick(&NO_SCORES);
        self.score(deal, first, no_score);
        self.score_anything(deal, first);
        self.score_anything(deal, (first.0, second.1));
        self.score_anything(deal, (TURNED_AWAY.0, second.1));
        for north_south in [first.0, TURNED_AWAY.0] {
            self.sheet.entry(Entry::Line { deal, north_south });
        }
    }

    fn score_lines(&mut self, deal: u16, count: usize) {
        for pairs in self.any_pairs(count) {
            self.score_anything(deal, pairs);
        }
    }

    fn score_anything(&mut self, deal: u16, pairs: Pairs) {
        let score = self.sheet.chance.pick(&SCORES);
        self.score(deal, pairs, score);
    }

    fn score(&mut self, deal: u16, (north_south, east_west): Pairs, score: i32) {
        self.sheet.entry(Entry::Score {
            deal,
            north_south,
            east_west,
            score,
        });
    }

    fn any_pairs(&mut self, count: usize) -> Vec<Pairs> {
        let north_south = self.sheet.chance.sample(&NORTH_SOUTH, count);
        let east_west = self.sheet.chance.sample(&EAST_WEST, count);
        north_south.into_iter().zip(east_west).collect()
    }

    fn close(&mut self, round: u16) {
        self.sheet.entry(Entry::Close { round });
    }

    fn close_neighbours(&mut self) {
        self.close(self.round - 1);
        self.close(self.round + 1);
    }

    fn close_for_good(&mut self) {
        self.close(self.round);
        self.round += 1;
    }
}

/// The deputies. Only what this part writes alters the roll.
impl Generator {
    fn change_roll(&mut self) {
        self.take(CHIEF);
        let grant = self.sheet.chance.within(DEPUTIES) as u8;
        let token = self.sheet.chance.pick(&[1, 12345, 2147483647]);
        self.appoint(Console { grant, token });
        self.remove_a_deputy();
        self.remove_nobody();
        self.let_the_chief_fail();
        self.let_a_deputy_fail();
        self.use_idle_consoles();
    }

    /// The chief has the console.
    fn appoint(&mut self, console: Console) {
        self.dismiss(console.grant);
        self.appointed.push(console);
        let entry = console.grant.into();
        let token = console.token as i32;
        self.sheet.entry(Entry::Appoint { entry, token });
        self.sheet.entry(Entry::Deputy { entry });
    }

    /// The deputy keeps the token, and a console that goes on as if nothing had happened.
    fn remove_a_deputy(&mut self) {
        let choice = self.sheet.chance.below(self.appointed.len());
        let console = self.appointed[choice];
        if self.sheet.chance.one_in(2) {
            self.take(console);
            self.let_console_go_on();
            self.take(CHIEF);
        }
        self.dismiss(console.grant);
        self.sheet.entry(Entry::Remove {
            entry: console.grant.into(),
        });
        self.take(console);
        self.let_console_go_on();
        self.take(CHIEF);
    }

    fn remove_nobody(&mut self) {
        let is_appointed = |entry: u16| {
            let mut appointed = self.appointed.iter();
            appointed.any(|console| u16::from(console.grant) == entry)
        };
        if let Some(entry) = DEPUTIES.rev().find(|entry| !is_appointed(*entry)) {
            self.sheet.entry(Entry::Remove { entry });
            self.sheet.entry(Entry::Deputy { entry });
        }
    }

    fn dismiss(&mut self, grant: u8) {
        let (dismissed, kept): (Vec<_>, Vec<_>) = self
            .appointed
            .iter()
            .partition(|console| console.grant == grant);
        self.appointed = kept;
        self.dismissed.extend(dismissed);
    }

    fn let_the_chief_fail(&mut self) {
        self.sheet.entry(Entry::Appoint {
            entry: self.in_turn(&NO_DEPUTYS_ENTRIES),
            token: self.in_turn(&EDGE_TOKENS),
        });
        self.sheet.entry(Entry::Operation(Operation {
            kind: kind::APPOINT,
            a: self.in_turn(&[1, 15]),
            b: 0,
            c: self.in_turn(&NO_TOKENS),
            d: 0,
        }));
        self.sheet.entry(Entry::Remove {
            entry: self.in_turn(&NO_DEPUTYS_ENTRIES),
        });
        self.sheet.entry(Entry::Deputy {
            entry: self.in_turn(&EDGE_ENTRIES),
        });
    }

    fn let_a_deputy_fail(&mut self) {
        let console = self.sheet.chance.pick(&self.appointed);
        self.take(console);
        let entry = self.in_turn(&EDGE_ENTRIES);
        let token = self.in_turn(&EDGE_TOKENS);
        self.sheet.entry(Entry::Appoint { entry, token });
        self.sheet.entry(Entry::Remove { entry });
        self.sheet.entry(Entry::Deputy { entry });
    }

    /// There are enough rounds for each of the choices.
    fn in_turn<T: Copy>(&self, choices: &[T]) -> T {
        choices[usize::from(self.round) % choices.len()]
    }

    /// Two of those that never stand, in turn, and one that stood once.
    fn use_idle_consoles(&mut self) {
        let turn = 2 * usize::from(self.round);
        let never_standing = NEVER_STANDING.into_iter().cycle().skip(turn).take(2);
        for console in never_standing.chain(self.any_idle_again()) {
            self.take(console);
            self.let_console_go_on();
        }
    }

    fn any_idle_again(&mut self) -> Option<Console> {
        let mut idle = self.dismissed.clone();
        idle.retain(|console| !self.appointed.contains(console));
        (!idle.is_empty()).then(|| self.sheet.chance.pick(&idle))
    }

    /// Entries that alter nothing under a console that does not stand, and neither the roll nor the round
    /// under a deputy's that does.
    fn let_console_go_on(&mut self) {
        let entry = match self.sheet.chance.below(4) {
            0 => Entry::Appoint { entry: 1, token: 1 },
            1 => Entry::Remove { entry: 15 },
            2 => Entry::Deputy { entry: 0 },
            _ => Entry::Close { round: self.round },
        };
        self.sheet.entry(entry);
        let score = self.odd_score();
        self.sheet.entry(score);
    }

    fn take_any_standing(&mut self) {
        let console = if self.sheet.chance.one_in(3) {
            CHIEF
        } else {
            self.sheet.chance.pick(&self.appointed)
        };
        self.take(console);
    }

    fn take(&mut self, console: Console) {
        if console != self.console {
            self.console = console;
            self.sheet.sign_as(console.grant, console.token);
        }
    }
}

/// Oddities: lines that a deputy would not write, or not so. They are made under any console.
impl Generator {
    fn oddities(&mut self) {
        for _ in 0..ODDITIES_AT_A_TIME {
            match self.sheet.chance.below(12) {
                0..=3 => {
                    let entry = self.odd_entry();
                    self.sheet.entry(entry);
                }
                4..=6 => self.sheet.raw_line(self.at_an_edge.next()),
                7 | 8 => self.sheet.raw_line(self.unreadable.next()),
                9 => self.sheet.raw_line(self.unusual.next()),
                _ => {
                    let entry = self.odd_entry();
                    self.sheet.damaged_entry(entry);
                }
            }
        }
    }

    /// Every line of every table has come once after these.
    fn lines_without_a_turn(&mut self) {
        for table in [
            &mut self.unreadable,
            &mut self.unusual,
            &mut self.at_an_edge,
        ] {
            for line in table.rest() {
                self.sheet.raw_line(line);
            }
        }
    }

    fn odd_entry(&mut self) -> Entry {
        match self.sheet.chance.below(11) {
            0..=2 => self.odd_score(),
            3 | 4 => Entry::Line {
                deal: self.odd_deal(),
                north_south: self.sheet.chance.pick(&EDGE_PAIRS),
            },
            5 => Entry::Close {
                round: self.odd_round(),
            },
            6 => Entry::Total {
                number: self.sheet.chance.pick(&EDGE_TOTALS),
            },
            7 => self.entry_of_chess(),
            8 => Entry::Deputy {
                entry: self.sheet.chance.pick(&EDGE_ENTRIES),
            },
            _ => self.odd_operation(),
        }
    }

    fn odd_score(&mut self) -> Entry {
        Entry::Score {
            deal: self.sheet.chance.pick(&EDGE_DEALS),
            north_south: self.sheet.chance.pick(&EDGE_PAIRS),
            east_west: self.sheet.chance.pick(&EDGE_PAIRS),
            score: self.sheet.chance.pick(&EDGE_SCORES),
        }
    }

    fn entry_of_chess(&mut self) -> Entry {
        let board = self.sheet.chance.pick(&EDGE_DEALS);
        match self.sheet.chance.below(3) {
            0 => Entry::Seat {
                board,
                white: 1,
                black: 2,
            },
            1 => Entry::Result {
                board,
                round: self.round,
                outcome: self.sheet.chance.pick(&Outcome::ALL),
            },
            _ => Entry::Show { board },
        }
    }

    /// Never on a middle deal.
    fn odd_operation(&mut self) -> Entry {
        let kind = self.sheet.chance.pick(&EDGE_KINDS);
        let a = match kind {
            kind::CLOSE_OF_BRIDGE => self.odd_round(),
            kind::TOTAL_OF_BRIDGE => self.sheet.chance.pick(&EDGE_TOTALS),
            _ => self.sheet.chance.pick(&EDGE_DEALS),
        };
        Entry::Operation(Operation {
            kind,
            a,
            b: self.sheet.chance.pick(&EDGE_PAIRS),
            c: self.sheet.chance.pick(&EDGE_SCORES),
            d: self.sheet.chance.pick(&EDGE_PAIRS),
        })
    }

    fn odd_deal(&mut self) -> u16 {
        if self.sheet.chance.one_in(3) {
            self.sheet.chance.within(EMPTY_DEALS)
        } else {
            self.sheet.chance.pick(&EDGE_DEALS)
        }
    }

    fn odd_round(&mut self) -> u16 {
        let now = self.round;
        self.sheet
            .chance
            .pick(&[0, 99, 100, now - 1, now, now, now, now + 1, 65535])
    }
}
