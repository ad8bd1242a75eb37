//! The plain side: makes the calls of rows by the independent program, as `crates/measured` makes them
//! by the proved library.

use crate::book::{Book, Operation, Page, HALLS};
use crate::congress::{Congress, Refusal};
use crate::deliver::Event;
use crate::messages::{Halls, Message, Transaction};
use crate::rows::{
    CallRow, Calls, PartsRow, ToldRow, CLOCK, DELIVER, ISSUE, NOTHING, OPEN, OUTCOME, POST_PLACES,
    REFUSAL, TRANSACTION, WIDTH, WORK,
};

pub struct Plain<P: Page> {
    pub congress: Congress,
    pub post: Vec<Message>,
    pub book: Book<P>,
}

impl<P: Page> Plain<P> {
    /// A congress not yet opened, over a book with this page in every hall.
    pub fn new(page: P) -> Self {
        Self {
            congress: Congress::default(),
            post: vec![Message::default(); POST_PLACES],
            book: Book::new(page),
        }
    }

    pub fn make(&mut self, parts: &[PartsRow], call: &CallRow) -> ToldRow {
        let Self {
            congress,
            post,
            book,
        } = self;
        let at = usize::from(call.at);
        let told = match call.kind {
            OPEN => congress.open(at).map(|()| nothing()),
            ISSUE => {
                let operations = operations(parts.get(call.number as usize));
                congress
                    .issue(post, at, call.class, Halls(call.halls), &operations)
                    .map(transaction)
            }
            DELIVER => congress
                .deliver(post, call.number as usize, book)
                .map(|step| outcome(&step.event)),
            WORK => congress
                .work(post, at, book)
                .map(|step| outcome(&step.event)),
            CLOCK => congress.clock(at, call.number).map(|()| nothing()),
            _ => congress
                .drop(post, call.number as usize)
                .map(|()| nothing()),
        };
        told.unwrap_or_else(refusal)
    }
}

fn operations(parts: Option<&PartsRow>) -> [Operation; HALLS] {
    match parts {
        Some(parts) => parts.operations.map(Operation::from),
        None => [Operation::default(); HALLS],
    }
}

fn nothing() -> ToldRow {
    ToldRow {
        kind: NOTHING,
        ..ToldRow::default()
    }
}

fn transaction(transaction: Transaction) -> ToldRow {
    ToldRow {
        kind: TRANSACTION,
        transaction: transaction.0,
        ..ToldRow::default()
    }
}

fn outcome(event: &Event) -> ToldRow {
    ToldRow {
        stamp: event.stamp,
        transaction: event.transaction.0,
        value: event.answer.value,
        place: event.answer.place,
        kind: OUTCOME,
        number: event.outcome.number(),
        hall: event.hall as u8,
        layer: event.answer.layer,
        cause: event.answer.cause,
    }
}

fn refusal(refusal: Refusal) -> ToldRow {
    ToldRow {
        kind: REFUSAL,
        number: refusal.number(),
        ..ToldRow::default()
    }
}

/// Makes the calls at a congress not yet opened, and writes what each told and at the end the pages.
#[inline(never)]
pub fn measure<P: Page>(page: P, calls: &Calls, told: &mut [ToldRow], pages: &mut [i64]) {
    let mut plain = Plain::new(page);
    for (call, told) in calls.rows.iter().zip(told) {
        *told = plain.make(&calls.parts, call);
    }
    for (hall, places) in pages.chunks_mut(WIDTH).enumerate() {
        let numbers = plain.book.page(hall as u8).map_or(Vec::new(), P::numbers);
        places[..numbers.len()].copy_from_slice(&numbers);
    }
}
