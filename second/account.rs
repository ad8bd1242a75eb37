//! Prints the account of a scoresheet that has been run (docs/RULES.md, "The account").

use std::fmt::{self, Display, Formatter};

use crate::book::{Answer, Operation, Page};
use crate::operations::Game;
use crate::wording;
use crate::words::Unreadable;

/// What the account tells.
pub struct Account<P: Page> {
    pub game: Game,
    pub hall: u8,
    pub round: u16,
    pub records: Vec<Record<P>>,
    pub ranking: Vec<String>,
}

pub struct Record<P: Page> {
    pub line: usize,
    pub event: Event<P>,
}

pub enum Event<P: Page> {
    Answered(Operation, Answer<P>),
    NotRead(Unreadable),
}

impl<P: Page> Display for Account<P> {
    fn fmt(&self, out: &mut Formatter) -> fmt::Result {
        writeln!(out, "{} scoresheet of hall {}", self.game, self.hall)?;
        write_part(out, "Entries", &self.entries())?;
        write_part(
            out,
            &format!("Standings before round {}", self.round),
            &self.ranking,
        )?;
        write_part(out, "Refused", &self.refused())?;
        write_part(out, "Not read", &self.not_read())
    }
}

fn write_part(out: &mut Formatter, heading: &str, lines: &[String]) -> fmt::Result {
    writeln!(out, "\n{heading}")?;
    if lines.is_empty() {
        return writeln!(out, "none");
    }
    lines.iter().try_for_each(|line| writeln!(out, "{line}"))
}

impl<P: Page> Account<P> {
    fn entries(&self) -> Vec<String> {
        let entry = |Record { line, event }: &Record<P>| match event {
            Event::Answered(operation, answer) => {
                format!("line {line}: {operation}: {}", wording::answer::<P>(answer))
            }
            Event::NotRead(_) => format!("line {line}: cannot be read"),
        };
        self.records.iter().map(entry).collect()
    }

    fn refused(&self) -> Vec<String> {
        let refusal = |Record { line, event }: &Record<P>| match event {
            Event::Answered(_, Err(fault)) => Some(format!("line {line}: {fault}")),
            _ => None,
        };
        self.records.iter().filter_map(refusal).collect()
    }

    fn not_read(&self) -> Vec<String> {
        let complaint = |Record { line, event }: &Record<P>| match event {
            Event::NotRead(Unreadable { word, expected }) => {
                Some(format!("line {line}: word {word}: expected {expected}"))
            }
            _ => None,
        };
        self.records.iter().filter_map(complaint).collect()
    }
}
