//! Calls with any arguments, mostly such as are refused, and lines that cannot be read or are written
//! in unusual ways.

use crate::book::{Operation, HALLS};
use crate::chance::Chance;
use crate::messages::{Halls, LAST_STAMP};
use crate::script::{Call, Issue};

pub const CALLS: [&str; 6] = ["open", "issue", "deliver", "work", "clock", "drop"];

const EDGE_HALLS: [u8; 6] = [0, 3, 7, 8, 16, 255];
const EDGE_CONSOLES: [u8; 6] = [0, 7, 15, 16, 17, 255];
const EDGE_CLASSES: [u8; 7] = [0, 1, 2, 3, 4, 128, 255];
const EDGE_TIMES: [u64; 5] = [
    LAST_STAMP,
    LAST_STAMP + 1,
    LAST_STAMP * 2,
    u64::MAX - 1,
    u64::MAX,
];

/// A call of this word where there are so many messages. An Open among these is always refused.
pub fn call(chance: &mut Chance, word: &str, messages: usize) -> Call {
    let hall = any_or_edge(chance, 8, &EDGE_HALLS);
    match word {
        "open" => Call::Open {
            halls: chance.pick(&[0, 0, 9, 9, 10, 128, 255]),
        },
        "issue" => Call::Issue(issue(chance)),
        "deliver" => Call::Deliver {
            place: place(chance, messages),
        },
        "work" => Call::Work { hall },
        "clock" => Call::Clock {
            hall,
            time: chance.pick(&EDGE_TIMES),
        },
        _ => Call::Drop {
            place: place(chance, messages),
        },
    }
}

fn issue(chance: &mut Chance) -> Issue {
    Issue {
        console: any_or_edge(chance, 16, &EDGE_CONSOLES),
        class: chance.pick(&EDGE_CLASSES),
        halls: Halls(chance.within(0..=255) as u8),
        operations: [Operation::default(); HALLS],
    }
}

fn any_or_edge(chance: &mut Chance, count: usize, edges: &[u8]) -> u8 {
    if chance.one_in(2) {
        chance.below(count) as u8
    } else {
        chance.pick(edges)
    }
}

fn place(chance: &mut Chance, messages: usize) -> u64 {
    let end = messages as u64;
    chance.pick(&[
        end,
        end,
        end + 1,
        1023,
        1024,
        65536,
        u64::from(u32::MAX) + 1,
        u64::MAX,
    ])
}

/// Lines that cannot be read, or are passed over, once a call has been made; and lines with `as`.
pub const LINES: [&[u8]; 126] = [
    b"",
    b" ",
    b"\r",
    b"\t \r\t",
    b"#",
    b"# open 3",
    b"#deliver 0",
    b"\t # a comment after blanks",
    b"#\xFF\x80\x00",
    b"as 0 1",
    b"as 1 77",
    b"as 255 4294967295",
    b" as\t000 000004000000000 ",
    b"as",
    b"as 1",
    b"as 1 77 0",
    b"as 256 1",
    b"as -1 1",
    b"as 1 4294967296",
    b"as chief 1",
    b"As 0 1",
    b"book",
    b"book chess",
    b"book go",
    b"chief 1",
    b"chief",
    b"post 5",
    b"post 65536",
    b"pages",
    b"pages 1",
    b"Pages",
    b"page",
    b"hall 1",
    b"game chess",
    b"find 17",
    b"seat 0 1 2",
    b"close 1",
    b"op 16 0 1 0 0 0 0",
    b"open",
    b"open 256",
    b"open -1",
    b"open eight",
    b"open 8 8",
    b"open 3 # halls",
    b"OPEN 3",
    b"opens 3",
    b"o pen 3",
    b"open# 3",
    b"open\x00 3",
    b"\xEF\xBB\xBFopen 3",
    b"work",
    b"work 256",
    b"work 0 0",
    b"work -0",
    b"clock",
    b"clock 0",
    b"clock 256 1",
    b"clock 0 18446744073709551616",
    b"clock 0 -1",
    b"clock 0 1 1",
    b"clock 0 1e9",
    b"clock 999999999999999999999999999999999999999999999 1",
    b"clock 0 999999999999999999999999999999999999999999999",
    b"drop",
    b"drop -1",
    b"drop 18446744073709551616",
    b"drop 18446744073709551615 0",
    b"drop 0x0",
    b"deliver",
    b"deliver last",
    b"deliver -0",
    b"deliver 18446744073709551616",
    b"deliver 340282366920938463463374607431768211456",
    b"deliver 0 all",
    b"issue",
    b"issue 0",
    b"issue 256",
    b"issue -1 single 1",
    b"issue 0 single",
    b"issue 0 Single 1",
    b"issue 0 256 1",
    b"issue 0 -1 1",
    b"issue 0 double 1",
    b"issue 0 1.0 1",
    b"issue 0 single 256",
    b"issue 0 single -1",
    b"issue 0 single 1,2",
    b"issue 0 single 1 0",
    b"issue 0 single 1 seat 0 1 2",
    b"issue 0 single 1 # a note",
    b"issue 0 single 1 ALL show 0",
    b"issue 0 single 1 at",
    b"issue 0 single 1 at 8 show 0",
    b"issue 0 single 1 at -1 show 0",
    b"issue 0 single 1 at all show 0",
    b"issue 0 single 1 at 0",
    b"issue 0 single 1 at 0 at 1 show 0",
    b"issue 0 single 1 at 0 shows 0",
    b"issue 0 single 1 all",
    b"issue 0 single 1 all all show 0",
    b"issue 0 single 1 all as 0 1",
    b"issue 0 single 1 all show",
    b"issue 0 single 1 all show 65536",
    b"issue 0 single 1 all show 0 0",
    b"issue 0 single 1 all show 0 at",
    b"issue 0 single 1 all show 0 at 7",
    b"issue 0 single 1 all show 0 at 7 seat 0 1",
    b"issue 0 single 1 all appoint 1 -1",
    b"issue 0 single 1 all appoint 1 2147483648",
    b"issue 0 single 1 all seat 0 1 -2",
    b"issue 0 single 1 all result 0 1 1",
    b"issue 0 single 1 all result 0 1 1/2 1/2",
    b"issue 0 single 1 all score 0 0 0 2147483648",
    b"issue 0 single 1 all score 0 0 0 -2147483649",
    b"issue 0 single 1 all line 0 -0",
    b"issue 0 single 1 all op",
    b"issue 0 single 1 all op 256 0 1 0 0 0 0",
    b"issue 0 single 1 all op 16 256 1 0 0 0 0",
    b"issue 0 single 1 all op 16 0 4294967296 0 0 0 0",
    b"issue 0 single 1 all op 16 0 -1 0 0 0 0",
    b"issue 0 single 1 all op 16 0 1 65536 0 0 0",
    b"issue 0 single 1 all op 16 0 1 0 65536 0 0",
    b"issue 0 single 1 all op 16 0 1 0 0 2147483648 0",
    b"issue 0 single 1 all op 16 0 1 0 0 0 65536",
    b"issue 0 single 1 all op 16 0 1 0 0 0",
    b"issue 0 single 1 all op 16 0 1 0 0 0 0 0",
];

/// Lines before the first call that are no headings or do not count: a later heading is in their place.
pub const FIRST_LINES: [&[u8]; 24] = [
    b"book",
    b"book Chess",
    b"book chess bridge",
    b"book bridge",
    b"book chess",
    b"chief",
    b"chief -1",
    b"chief 4294967296",
    b"chief 1 1",
    b"chief 99",
    b"post",
    b"post 65536",
    b"post -1",
    b"post many",
    b"post 1024 places",
    b"post 0",
    b"post 1",
    b"pages all",
    b"pages # in full",
    b"hall 3",
    b"open nine",
    b"issue 0 single 1 all close",
    b"as 5 5",
    b"as 5",
];
