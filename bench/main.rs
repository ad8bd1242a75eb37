//! The benchmark: makes the same lists of calls by the proved library and by the plain program in
//! `second/`, in one process, and prints how many calls a second each made.
//!
//!     bench/run [SEED [CALLS [REPEATS]]]
//!     bench/run --profile ROW ours|plain [SEED [CALLS [REPEATS]]]
//!
//! The proved library is the static library that `rt lib` builds of `crates/measured`; the modules of
//! the plain program are compiled into this one. `bench/run` builds both for release and for the same
//! processors: `rt lib` at -O3 as one LLVM module for x86-64-v2, and so does `rustc` with one unit.
//!
//! A list is made from its seed before anything is timed (`lists.rs`). A side makes its calls one by
//! one at a congress not yet opened, over a new roll on a new book, with 1,024 places in the post: it
//! reads a call from a row, makes it, and writes a row of what it told; at the end it writes the
//! pages. The memory for these rows is got once for each side, and cleared before each repeat and out
//! of the time; congress, book and post are made anew by both sides within it.
//!
//! The sides take turns, ours first. The time is that of the processor, and the best of each side
//! counts, so that what else runs on the machine matters little. After every repeat a checksum of all
//! rows and pages is compared; where it differs the first difference is told, and the program goes on
//! with the next list and ends with status 1.
//!
//! With --profile one side makes the calls of one list, for a profiler, and it is printed what they
//! told.
// The modules are shared with other programs, which need more of them.
#![allow(dead_code)]

#[path = "../second/asking.rs"]
mod asking;
#[path = "../second/book.rs"]
mod book;
#[path = "../second/bridge.rs"]
mod bridge;
#[path = "../second/chance.rs"]
mod chance;
#[path = "../second/chess.rs"]
mod chess;
#[path = "../second/congress.rs"]
mod congress;
#[path = "../second/deliver.rs"]
mod deliver;
#[path = "../second/kind.rs"]
mod kind;
#[path = "../second/messages.rs"]
mod messages;
#[path = "../second/operations.rs"]
mod operations;
#[path = "../second/roll.rs"]
mod roll;
#[path = "../second/wording.rs"]
mod wording;
#[path = "../second/words.rs"]
mod words;

mod clock;
mod lists;
mod plain;
mod proved;
mod rows;

use std::process::ExitCode;
use std::time::Duration;

use book::{Page, HALLS};
use lists::{Mix, CHIEF_TOKEN};
use messages::Class;
use operations::Game;
use rows::{Calls, ToldRow, Written, DELIVER, DROP, ISSUE, OUTCOME, REFUSAL, WORK};

const SEED: u64 = 1;
const CALLS: usize = 200_000;
const REPEATS: usize = 51;

struct Row {
    name: &'static str,
    mix: Mix,
}

const fn row(name: &'static str, game: Game, halls: usize, class: Class) -> Row {
    let is_full = false;
    Row {
        name,
        mix: Mix {
            game,
            halls,
            class,
            is_full,
        },
    }
}

const fn full(name: &'static str, game: Game, class: Class) -> Row {
    let is_full = true;
    let halls = HALLS;
    Row {
        name,
        mix: Mix {
            game,
            halls,
            class,
            is_full,
        },
    }
}

/// One hall has single transactions alone.
const ROWS: [Row; 13] = [
    row("chess, 1 hall, single", Game::Chess, 1, Class::Single),
    row("chess, 4 halls, single", Game::Chess, 4, Class::Single),
    row(
        "chess, 4 halls, independent",
        Game::Chess,
        4,
        Class::Independent,
    ),
    row(
        "chess, 4 halls, coordinated",
        Game::Chess,
        4,
        Class::Coordinated,
    ),
    row("chess, 8 halls, single", Game::Chess, 8, Class::Single),
    row(
        "chess, 8 halls, independent",
        Game::Chess,
        8,
        Class::Independent,
    ),
    row(
        "chess, 8 halls, coordinated",
        Game::Chess,
        8,
        Class::Coordinated,
    ),
    full(
        "chess, 8 halls, full queue",
        Game::Chess,
        Class::Independent,
    ),
    row("bridge, 1 hall, single", Game::Bridge, 1, Class::Single),
    row("bridge, 4 halls, single", Game::Bridge, 4, Class::Single),
    row(
        "bridge, 4 halls, independent",
        Game::Bridge,
        4,
        Class::Independent,
    ),
    row(
        "bridge, 8 halls, coordinated",
        Game::Bridge,
        8,
        Class::Coordinated,
    ),
    full(
        "bridge, 8 halls, full queue",
        Game::Bridge,
        Class::Independent,
    ),
];

fn main() -> ExitCode {
    let arguments: Vec<String> = std::env::args().skip(1).collect();
    let said = match arguments.first().map(String::as_str) {
        Some("--profile") => profile(&arguments[1..]),
        _ => table(&arguments),
    };
    match said {
        Some(true) => ExitCode::SUCCESS,
        Some(false) => ExitCode::FAILURE,
        None => {
            eprintln!("usage: run [SEED [CALLS [REPEATS]]]");
            eprintln!("       run --profile ROW ours|plain [SEED [CALLS [REPEATS]]]");
            ExitCode::FAILURE
        }
    }
}

/// How much is measured.
struct Size {
    seed: u64,
    calls: usize,
    repeats: usize,
}

impl Size {
    fn read(arguments: &[String]) -> Option<Self> {
        let number = |place: usize, usual: u64| match arguments.get(place) {
            None => Some(usual),
            Some(word) => word.parse().ok(),
        };
        let size = Self {
            seed: number(0, SEED)?,
            calls: number(1, CALLS as u64)? as usize,
            repeats: number(2, REPEATS as u64)? as usize,
        };
        let is_some = size.seed > 0 && size.calls > 0 && size.repeats > 0;
        (arguments.len() <= 3 && is_some).then_some(size)
    }
}

/// Prints a row for each mix. The answer is whether both sides told the same everywhere.
fn table(arguments: &[String]) -> Option<bool> {
    let size = Size::read(arguments)?;
    println!("| list | of a thousand calls: issue / deliver / work / drop; refused, passed over | proved, calls a second | plain, calls a second | proved / plain | checksum |");
    println!("|---|---|---:|---:|---:|---|");
    let mut is_same = true;
    for (place, row) in ROWS.iter().enumerate() {
        is_same &= measured(row, place as u64, &size);
    }
    Some(is_same)
}

fn measured(row: &Row, place: u64, size: &Size) -> bool {
    match row.mix.game {
        Game::Chess => measured_over(chess::Page::default(), row, place, size),
        Game::Bridge => measured_over(bridge::Page::default(), row, place, size),
    }
}

fn list<P: Page>(page: P, row: &Row, place: u64, size: &Size) -> Calls {
    // Seeds that differ little are to give states that differ much, and never 0.
    let seed = (size.seed * 1_000 + place).wrapping_mul(0x9E37_79B9_7F4A_7C15) | 1;
    lists::list(
        row.mix,
        roll::Page::new(CHIEF_TOKEN, page),
        seed,
        size.calls,
    )
}

fn measured_over<P: Page>(page: P, row: &Row, place: u64, size: &Size) -> bool {
    let calls = list(page.clone(), row, place, size);
    let mut ours = Written::new(calls.rows.len());
    let mut theirs = Written::new(calls.rows.len());
    let mut best = [Duration::MAX; 2];
    for _ in 0..size.repeats {
        ours.clear();
        theirs.clear();
        best[0] = best[0].min(time(|| by_proved(row.mix.game, &calls, &mut ours)));
        best[1] = best[1].min(time(|| by_plain(page.clone(), &calls, &mut theirs)));
        if ours.checksum() != theirs.checksum() || ours != theirs {
            tell_difference(row, &ours, &theirs);
            return false;
        }
    }
    let [ours_rate, theirs_rate] = best.map(|time| calls.rows.len() as f64 / time.as_secs_f64());
    println!(
        "| {} | {} | {:.0} | {:.0} | {:.2} | {:016x} |",
        row.name,
        counts(&calls, &ours),
        ours_rate,
        theirs_rate,
        ours_rate / theirs_rate,
        ours.checksum(),
    );
    true
}

fn by_proved(game: Game, calls: &Calls, written: &mut Written) {
    let Written { told, pages } = written;
    let is_made = proved::measure(game, CHIEF_TOKEN, calls, told, pages);
    assert!(is_made, "there are as many places as calls");
}

fn by_plain<P: Page>(page: P, calls: &Calls, written: &mut Written) {
    let Written { told, pages } = written;
    plain::measure(roll::Page::new(CHIEF_TOKEN, page), calls, told, pages);
}

/// The processor time that the work takes.
fn time(work: impl FnOnce()) -> Duration {
    let start = clock::processor_time();
    work();
    clock::processor_time() - start
}

/// What the list is made of.
fn counts(calls: &Calls, written: &Written) -> String {
    let per_thousand = |count: usize| count * 1_000 / calls.rows.len();
    let of_kind = |kind: u8| {
        let count = calls.rows.iter().filter(|call| call.kind == kind).count();
        per_thousand(count).to_string()
    };
    let of_told = |meant: fn(&ToldRow) -> bool| {
        let count = written.told.iter().filter(|told| meant(told)).count();
        per_thousand(count)
    };
    let refused = of_told(|told| told.kind == REFUSAL);
    let passed_over = of_told(|told| told.kind == OUTCOME && told.number == 0);
    let kinds = [ISSUE, DELIVER, WORK, DROP].map(of_kind);
    format!("{}; {refused}, {passed_over}", kinds.join(" / "))
}

/// How many calls told each number of a kind.
fn told_with(written: &Written, kind: u8, numbers: usize) -> Vec<usize> {
    let mut counts = vec![0; numbers];
    for told in written.told.iter().filter(|told| told.kind == kind) {
        counts[usize::from(told.number)] += 1;
    }
    counts
}

fn tell_difference(row: &Row, ours: &Written, theirs: &Written) {
    eprintln!("{}: the sides differ", row.name);
    let mut told = ours.told.iter().zip(&theirs.told).enumerate();
    if let Some((place, (ours, theirs))) = told.find(|(_, (ours, theirs))| ours != theirs) {
        eprintln!(
            "call {place} told {ours:?} by the proved library, {theirs:?} by the plain program"
        );
    }
    let mut numbers = ours.pages.iter().zip(&theirs.pages).enumerate();
    if let Some((place, (ours, theirs))) = numbers.find(|(_, (ours, theirs))| ours != theirs) {
        let (hall, place) = (place / rows::WIDTH, place % rows::WIDTH);
        eprintln!("number {place} of hall {hall} is {ours} by the proved library, {theirs} by the plain program");
    }
}

/// One side makes the calls of one row.
fn profile(arguments: &[String]) -> Option<bool> {
    let [name, side, rest @ ..] = arguments else {
        return None;
    };
    let place = ROWS.iter().position(|row| row.name == name)?;
    let is_ours = match side.as_str() {
        "ours" => true,
        "plain" => false,
        _ => return None,
    };
    let size = Size::read(rest)?;
    match ROWS[place].mix.game {
        Game::Chess => profile_over(chess::Page::default(), place, is_ours, &size),
        Game::Bridge => profile_over(bridge::Page::default(), place, is_ours, &size),
    }
    Some(true)
}

fn profile_over<P: Page>(page: P, place: usize, is_ours: bool, size: &Size) {
    let row = &ROWS[place];
    let calls = list(page.clone(), row, place as u64, size);
    let mut written = Written::new(calls.rows.len());
    for _ in 0..size.repeats {
        match is_ours {
            true => by_proved(row.mix.game, &calls, &mut written),
            false => by_plain(page.clone(), &calls, &mut written),
        }
    }
    println!("calls: {}", counts(&calls, &written));
    println!("outcomes 0 to 11: {:?}", told_with(&written, OUTCOME, 12));
    println!("refusals 0 to 9: {:?}", told_with(&written, REFUSAL, 10));
    println!("checksum: {:016x}", written.checksum());
}
