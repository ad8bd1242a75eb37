//! The rows of the picture, and the two texts of each: what is called, and what this told
//! (docs/RULES.md, "Rows and lifelines").

use crate::deliver::{Event, Outcome};
use crate::messages::{Class, CONSOLES};
use crate::script::{Call, Issue};
use crate::stage::Told;
use crate::telling::{outcome_word, refusal_word};
use crate::wording;
use crate::words::Unreadable;

/// A line of the script that makes a call, with what it told, or one that cannot be read.
pub struct Row<'a> {
    pub line: usize,
    pub content: Result<(&'a Call, Told), &'a Unreadable>,
}

impl Row<'_> {
    /// Nothing where the line cannot be read.
    pub fn call_text(&self) -> String {
        match self.content {
            Ok((call, _)) => call_text(call),
            Err(_) => String::new(),
        }
    }

    pub fn told_text(&self) -> String {
        match self.content {
            Ok((call, told)) => told_text(call, told),
            Err(Unreadable { word, expected }) => {
                format!("cannot be read: word {word}, expected {expected}")
            }
        }
    }

    /// How many halls it opened, if it is an Open that was not refused.
    pub fn opened(&self) -> Option<usize> {
        match self.content {
            Ok((Call::Open { halls }, Told::Done)) => Some((*halls).into()),
            _ => None,
        }
    }

    /// The console that an Issue names, refused or not, if there is such a console.
    pub fn console(&self) -> Option<usize> {
        let Ok((Call::Issue(issue), _)) = self.content else {
            return None;
        };
        let console = usize::from(issue.console);
        (console < CONSOLES).then_some(console)
    }
}

fn call_text(call: &Call) -> String {
    let word = call.word();
    match call {
        Call::Open { halls } => format!("{word} {halls}"),
        Call::Issue(issue) => {
            let (console, halls) = (issue.console, issue.halls.0);
            format!("{word} {console} {} {halls}", class_text(issue.class))
        }
        Call::Deliver { place } | Call::Drop { place } => format!("{word} {place}"),
        Call::Work { hall } => format!("{word} {hall}"),
        Call::Clock { hall, time } => format!("{word} {hall} {time}"),
    }
}

fn class_text(number: u8) -> String {
    match Class::from_number(number) {
        Some(Class::Single) => "single".to_string(),
        Some(Class::Independent) => "independent".to_string(),
        Some(Class::Coordinated) => "coordinated".to_string(),
        None => number.to_string(),
    }
}

fn told_text(call: &Call, told: Told) -> String {
    match (call, told) {
        (Call::Issue(issue), Told::Issued(transaction)) => {
            format!("issued {transaction}: {}", asked_text(issue))
        }
        (_, Told::Came(event)) => event_text(event),
        (_, Told::Refused(refusal)) => {
            let (number, word) = (refusal.number(), refusal_word(refusal));
            format!("refused with {number}, {word}")
        }
        _ => "done".to_string(),
    }
}

/// What the least of the named halls is asked for, and whether another is asked for something else.
fn asked_text(issue: &Issue) -> String {
    let mut asked = issue.halls.ascending().map(|hall| issue.operations[hall]);
    let Some(first) = asked.next() else {
        return String::new();
    };
    let is_one = asked.all(|operation| operation == first);
    format!("{first}{}", if is_one { "" } else { " .." })
}

fn event_text(event: Event) -> String {
    let Event {
        outcome,
        transaction,
        stamp,
        answer,
        ..
    } = event;
    let word = outcome_word(outcome);
    if outcome == Outcome::PassedOver {
        return word.to_string();
    }
    let mut text = format!("{word} {transaction}, stamp {stamp}");
    if !answer.is_well_done() {
        text += &format!(": {}", wording::words_of_cause(answer.layer, answer.cause));
    }
    text
}
