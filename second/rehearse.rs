//! Makes the calls of scripts at a congress and prints what they told, as docs/RULES.md says, or draws them; or
//! checks what they lead to, against the plain order of each hall worked out anew after each call.
//!
//!     rehearse [--check] [[--picture] SCRIPT ..] [--picture]
//!     rehearse --help
//!
//! The scripts are read from the files. Standard input is read where none is named, and drawn where `--picture`
//! comes last.
// The modules are shared with other programs, which need more of them.
#![allow(dead_code)]

mod arrows;
mod book;
mod bridge;
mod check;
mod chess;
mod congress;
mod deliver;
mod frame;
mod layout;
mod messages;
mod operations;
mod picture;
mod roll;
mod rows;
mod script;
mod stage;
mod standings;
mod telling;
mod wording;
mod words;

use std::ffi::{OsStr, OsString};
use std::fs;
use std::io::{self, Read, Write};
use std::process::ExitCode;

use book::Page;
use operations::Game;
use script::{Line, Script};
use stage::{Rehearsal, Stage};

/// The argument before a file that is drawn.
const PICTURE: &str = "--picture";

const HELP: &str = "\
rehearse [SCRIPT ..]          makes the calls of each script, or of standard input
rehearse --picture [SCRIPT]   draws its calls, in SVG
rehearse --check [SCRIPT ..]  checks what each call leads to
rehearse --help               prints this; docs/RULES.md has the language
";

/// What is printed of a script, and whether nothing was amiss.
type Printed = (String, bool);

/// A script to be read from a file, or from standard input where no name is given.
struct Order {
    name: Option<OsString>,
    is_drawn: bool,
}

fn main() -> ExitCode {
    let mut arguments: Vec<OsString> = std::env::args_os().skip(1).collect();
    let is_check = arguments.first().is_some_and(|first| first == "--check");
    if is_check {
        arguments.remove(0);
    }
    if asks_for_help(&arguments) {
        write(HELP.as_bytes());
        return ExitCode::SUCCESS;
    }
    let print = if is_check { checked } else { rehearsed };
    match print_all(&read_orders(arguments), print) {
        true => ExitCode::SUCCESS,
        false => ExitCode::FAILURE,
    }
}

/// After the first file it would be the name of one.
fn asks_for_help(arguments: &[OsString]) -> bool {
    let mut others = arguments.iter().filter(|argument| *argument != PICTURE);
    others.next().is_some_and(|first| first == "--help")
}

fn read_orders(arguments: Vec<OsString>) -> Vec<Order> {
    let mut orders = Vec::new();
    let mut is_drawn = false;
    for argument in arguments {
        if argument == PICTURE {
            is_drawn = true;
            continue;
        }
        let name = Some(argument);
        orders.push(Order { name, is_drawn });
        is_drawn = false;
    }
    if is_drawn || orders.is_empty() {
        orders.push(Order {
            name: None,
            is_drawn,
        });
    }
    orders
}

/// A file that cannot be read is told on standard error, and ends the program.
fn print_all(orders: &[Order], print: fn(Script) -> Printed) -> bool {
    let mut all_well = true;
    for (index, Order { name, is_drawn }) in orders.iter().enumerate() {
        let Some(input) = read_input(name.as_deref()) else {
            return false;
        };
        if let (Some(name), false) = (name, is_drawn) {
            let heading: [&[u8]; 3] = [b"script ", name.as_encoded_bytes(), b"\n"];
            write(if index > 0 { b"\n" } else { b"" });
            write(&heading.concat());
        }
        let print = if *is_drawn { drawn } else { print };
        let (printed, is_well) = print(script::read(&input));
        write(printed.as_bytes());
        all_well &= is_well;
    }
    all_well
}

fn read_input(name: Option<&OsStr>) -> Option<Vec<u8>> {
    let Some(name) = name else {
        let mut input = Vec::new();
        // What came before a read error is a script like any other.
        let _ = io::stdin().read_to_end(&mut input);
        return Some(input);
    };
    let tell = |error: &io::Error| eprintln!("rehearse: {}: {error}", name.to_string_lossy());
    fs::read(name).inspect_err(tell).ok()
}

/// Nobody is left to hear of a write error.
fn write(bytes: &[u8]) {
    let _ = io::stdout().write_all(bytes);
}

fn rehearsed(script: Script) -> Printed {
    match script.headings.game {
        Game::Chess => rehearsed_over(chess::Page::default(), script),
        Game::Bridge => rehearsed_over(bridge::Page::default(), script),
    }
}

fn rehearsed_over(page: impl Page, script: Script) -> Printed {
    let mut rehearsal = Rehearsal::new(stage(page, &script));
    let mut printed = String::new();
    for Line { number, content } in &script.lines {
        printed += &match content {
            Ok(call) => telling::call_line(*number, call, rehearsal.make(call)),
            Err(unreadable) => telling::unread_line(*number, unreadable),
        };
    }
    printed += &telling::account(&rehearsal, script.headings.has_pages);
    (printed, true)
}

fn drawn(script: Script) -> Printed {
    let drawn = match script.headings.game {
        Game::Chess => picture::picture(stage(chess::Page::default(), &script), &script.lines),
        Game::Bridge => picture::picture(stage(bridge::Page::default(), &script), &script.lines),
    };
    (drawn, true)
}

fn checked(script: Script) -> Printed {
    match script.headings.game {
        Game::Chess => checked_over(chess::Page::default(), script),
        Game::Bridge => checked_over(bridge::Page::default(), script),
    }
}

fn checked_over(page: impl Page, script: Script) -> Printed {
    match check::check(stage(page, &script), &script.lines) {
        Ok(calls) => (format!("checked {calls} calls\n"), true),
        Err(violation) => (format!("violation at {violation}\n"), false),
    }
}

fn stage<P: Page>(page: P, script: &Script) -> Stage<roll::Page<P>> {
    let page = roll::Page::new(script.headings.chief_token, page);
    Stage::new(script.headings.places.into(), page)
}
