//! Prints what the calls of a rehearsal told, and its account (docs/RULES.md, "What is printed").

use crate::book::{NumericAnswer, Page};
use crate::congress::Refusal;
use crate::deliver::{Event, Outcome, Part};
use crate::script::Call;
use crate::stage::{Rehearsal, Told};
use crate::standings::Progress;
use crate::wording;
use crate::words::Unreadable;

pub fn call_line(number: usize, call: &Call, told: Told) -> String {
    let told = match told {
        Told::Done => "done".to_string(),
        Told::Issued(transaction) => format!("transaction transaction={transaction}"),
        Told::Came(event) => format!("outcome {}", event_text(event)),
        Told::Refused(refusal) => {
            let word = refusal_word(refusal);
            format!("refusal refusal={} word={word}", refusal.number())
        }
    };
    format!("line={number} call={} told={told}\n", call.word())
}

pub fn unread_line(number: usize, unreadable: &Unreadable) -> String {
    let Unreadable { word, expected } = unreadable;
    format!("line={number} told=unread word={word} expected={expected}\n")
}

fn event_text(event: Event) -> String {
    let Event {
        outcome,
        transaction,
        hall,
        stamp,
        answer,
    } = event;
    let NumericAnswer {
        layer,
        cause,
        place,
        value,
    } = answer;
    let (number, word) = (outcome.number(), outcome_word(outcome));
    format!(
        "outcome={number} word={word} transaction={transaction} hall={hall} stamp={stamp} \
         layer={layer} cause={cause} place={place} value={value}"
    )
}

pub fn outcome_word(outcome: Outcome) -> &'static str {
    match outcome {
        Outcome::PassedOver => "passed-over",
        Outcome::Entered => "entered",
        Outcome::DoneAtOnce => "done-at-once",
        Outcome::MetConflict => "met-conflict",
        Outcome::Aborted => "aborted",
        Outcome::Counted => "counted",
        Outcome::Readied => "readied",
        Outcome::Removed => "removed",
        Outcome::Replied => "replied",
        Outcome::Confirmed => "confirmed",
        Outcome::Freed => "freed",
        Outcome::Done => "done",
    }
}

pub fn refusal_word(refusal: Refusal) -> &'static str {
    match refusal {
        Refusal::NotThere => "not-there",
        Refusal::TransactionOpen => "busy",
        Refusal::HallsDoNotFit => "bad-halls",
        Refusal::SequencesUsedUp => "used-up",
        Refusal::PastTheLastStamp => "too-late",
        Refusal::NoRoomInPost => "no-room",
        Refusal::QueueFull => "queue-full",
        Refusal::NothingMayRun => "nothing-runs",
        Refusal::PostTooShort => "short-post",
    }
}

/// The account, with an empty line before each hall. Before the first Open there is none.
pub fn account<P: Page>(rehearsal: &Rehearsal<P>, has_pages: bool) -> String {
    let open = rehearsal.stage.congress.halls.len();
    let halls = (0..open).map(|hall| format!("\n{}", hall_text(rehearsal, hall, has_pages)));
    halls.collect()
}

fn hall_text<P: Page>(rehearsal: &Rehearsal<P>, hall: usize, has_pages: bool) -> String {
    let Some(page) = rehearsal.stage.book.page(hall as u8) else {
        return String::new();
    };
    let parts = rehearsal.plain_order(hall);
    let mut progress = Progress::default();
    parts.iter().for_each(|part| progress.note(&part.answer));
    let order: Vec<String> = parts.into_iter().map(part_text).collect();
    let mut text = format!("Hall {hall}\nplain order:\n{}", listed(&order));
    text += &format!("standings before round {}:\n", progress.round);
    text += &listed(&progress.ranking(page));
    if has_pages {
        text += &page_text(page);
    }
    text
}

fn part_text<P: Page>(part: &Part<P>) -> String {
    let Part {
        stamp,
        transaction,
        operation,
        ..
    } = part;
    let answer = wording::answer::<P>(&part.answer);
    format!("{stamp}. transaction {transaction}: {operation}: {answer}")
}

fn listed(lines: &[String]) -> String {
    match lines {
        [] => "none\n".to_string(),
        _ => lines.iter().map(|line| format!("{line}\n")).collect(),
    }
}

fn page_text<P: Page>(page: &P) -> String {
    let numbers: Vec<String> = page.numbers().iter().map(i64::to_string).collect();
    format!("page: {}\n", numbers.join(" "))
}
