//! Runs a scoresheet from standard input through a new book and prints its account, as
//! docs/RULES.md says.
// The modules are shared with other programs, which need more of them.
#![allow(dead_code)]

mod account;
mod book;
mod bridge;
mod chess;
mod lines;
mod operations;
mod roll;
mod standings;
mod wording;
mod words;

use std::io::{self, Read, Write};

use account::{Account, Event, Record};
use book::{Book, Page};
use lines::{Line, Sheet};
use operations::Game;
use standings::Progress;

fn main() {
    let mut input = Vec::new();
    // What came before a read error is a sheet like any other, and nobody is left to hear of a write
    // error: neither keeps the program from ending with status 0.
    let _ = io::stdin().read_to_end(&mut input);
    let account = account_of(lines::read(&input));
    let _ = io::stdout().write_all(account.as_bytes());
}

fn account_of(sheet: Sheet) -> String {
    match sheet.headings.game {
        Game::Chess => account_of_game(chess::Page::default(), sheet),
        Game::Bridge => account_of_game(bridge::Page::default(), sheet),
    }
}

fn account_of_game(page: impl Page, sheet: Sheet) -> String {
    match sheet.headings.chief {
        None => run(page, sheet).to_string(),
        Some(token) => run(roll::Page::new(token, page), sheet).to_string(),
    }
}

fn run<P: Page>(page: P, sheet: Sheet) -> Account<P> {
    let hall = sheet.headings.hall;
    let mut book = Book::new(page);
    let mut progress = Progress::default();
    let mut records = Vec::new();
    for Line { number, content } in sheet.lines {
        let event = match content {
            Ok(operation) => {
                let answer = book.run(hall, operation);
                progress.note(&answer);
                Event::Answered(operation, answer)
            }
            Err(unreadable) => Event::NotRead(unreadable),
        };
        records.push(Record {
            line: number,
            event,
        });
    }
    Account {
        game: sheet.headings.game,
        hall,
        round: progress.round,
        records,
        ranking: ranking(&progress, &book, hall),
    }
}

/// No party is left out: a hall that has no page has no parties either.
fn ranking<P: Page>(progress: &Progress<P>, book: &Book<P>, hall: u8) -> Vec<String> {
    let page = book.page(hall);
    page.map_or(Vec::new(), |page| progress.ranking(page))
}
