//! Checks, after each call of a rehearsal, what the order of all halls promises:
//!
//! - each hall's page and answers are those of its plain order, run singly from the page that it had
//!   at the last Open;
//! - no transaction is done at one hall and fallen at another;
//! - the stamps of a transaction's parts are equal;
//! - no part of a coordinated transaction is done with a fault;
//! - a transaction that its console was told to be confirmed is done at every hall that it names;
//! - under a grant that was removed nothing is well done before it is appointed again.

use std::collections::{BTreeMap, BTreeSet};

use crate::book::{Book, NumericAnswer, Page, HALLS};
use crate::deliver::{Outcome, Part};
use crate::messages::{Class, Halls, Transaction};
use crate::roll;
use crate::script::{Call, Issue, Line};
use crate::stage::{Rehearsal, Stage, Told};

const GRANTS: usize = 16;

/// Which grants of a hall were removed and not appointed again.
type Removed = [bool; GRANTS];

struct Checker<P> {
    /// The book, and what was removed, at the last Open that was not refused.
    opened: Book<P>,
    removed_when_opened: [Removed; HALLS],
    removed: [Removed; HALLS],
    /// Since that Open.
    issued: BTreeMap<Transaction, Halls>,
    fallen: BTreeSet<Transaction>,
    confirmed: BTreeSet<Transaction>,
}

/// How many calls the script has, or the first violation.
pub fn check<P: Page>(stage: Stage<P>, lines: &[Line]) -> Result<usize, String> {
    let mut checker = Checker::new(stage.book.clone());
    let mut rehearsal = Rehearsal::new(stage);
    let mut calls = 0;
    for Line { number, content } in lines {
        if let Ok(call) = content {
            let told = rehearsal.make(call);
            checker.note(call, told, &rehearsal);
            let checked = checker.check(&rehearsal);
            checked.map_err(|violation| format!("line {number}: {violation}"))?;
            calls += 1;
        }
    }
    Ok(calls)
}

impl<P: Page> Checker<P> {
    fn new(book: Book<P>) -> Self {
        Self {
            opened: book,
            removed_when_opened: Default::default(),
            removed: Default::default(),
            issued: BTreeMap::new(),
            fallen: BTreeSet::new(),
            confirmed: BTreeSet::new(),
        }
    }

    fn note(&mut self, call: &Call, told: Told, rehearsal: &Rehearsal<P>) {
        match (call, told) {
            (Call::Open { .. }, Told::Done) => {
                self.opened = rehearsal.stage.book.clone();
                self.removed_when_opened = self.removed;
                self.issued.clear();
                self.fallen.clear();
                self.confirmed.clear();
            }
            (Call::Issue(Issue { halls, .. }), Told::Issued(transaction)) => {
                self.issued.insert(transaction, *halls);
            }
            (_, Told::Came(event)) => match event.outcome {
                Outcome::MetConflict | Outcome::Aborted | Outcome::Removed => {
                    self.fallen.insert(event.transaction);
                }
                Outcome::Confirmed => {
                    self.confirmed.insert(event.transaction);
                }
                _ => {}
            },
            _ => {}
        }
    }

    fn check(&mut self, rehearsal: &Rehearsal<P>) -> Result<(), String> {
        self.check_transactions(&rehearsal.parts)?;
        self.check_confirmed(&rehearsal.parts)?;
        for hall in 0..HALLS {
            let parts = rehearsal.plain_order(hall);
            self.check_plain_order(hall, &parts, rehearsal)?;
            self.check_grants(hall, &parts)?;
        }
        Ok(())
    }

    fn check_transactions(&self, parts: &[Part<P>]) -> Result<(), String> {
        let mut stamps = BTreeMap::new();
        for Part {
            transaction,
            class,
            stamp,
            answer,
            ..
        } in parts
        {
            if self.fallen.contains(transaction) {
                return Err(format!("transaction {transaction} is done and fallen"));
            }
            if stamps
                .insert(transaction, stamp)
                .is_some_and(|other| other != stamp)
            {
                return Err(format!("transaction {transaction} has two stamps"));
            }
            if *class == Class::Coordinated && answer.is_err() {
                return Err(format!("transaction {transaction} is done with a fault"));
            }
        }
        Ok(())
    }

    fn check_confirmed(&self, parts: &[Part<P>]) -> Result<(), String> {
        let done: BTreeSet<_> = parts
            .iter()
            .map(|part| (part.transaction, part.hall))
            .collect();
        for transaction in &self.confirmed {
            let mut named = self.issued[transaction].ascending();
            if let Some(hall) = named.find(|hall| !done.contains(&(*transaction, *hall))) {
                return Err(format!(
                    "transaction {transaction} is confirmed and not done at hall {hall}"
                ));
            }
        }
        Ok(())
    }

    fn check_plain_order(
        &self,
        hall: usize,
        parts: &[&Part<P>],
        rehearsal: &Rehearsal<P>,
    ) -> Result<(), String> {
        let mut plain = self.opened.clone();
        for part in parts {
            let answer = plain.run(hall as u8, part.operation);
            if numeric::<P>(&answer) != numeric::<P>(&part.answer) {
                let transaction = part.transaction;
                return Err(format!(
                    "hall {hall} answered transaction {transaction} otherwise than in plain order"
                ));
            }
        }
        if numbers(&plain, hall) != numbers(&rehearsal.stage.book, hall) {
            return Err(format!("hall {hall} has another page than in plain order"));
        }
        Ok(())
    }

    fn check_grants(&mut self, hall: usize, parts: &[&Part<P>]) -> Result<(), String> {
        let mut removed = self.removed_when_opened[hall];
        for part in parts.iter().filter(|part| part.answer.is_ok()) {
            let grant = part.operation.grant;
            if removed.get(usize::from(grant)).copied().unwrap_or(false) {
                let transaction = part.transaction;
                return Err(format!(
                    "hall {hall} did transaction {transaction} under grant {grant}, which was removed"
                ));
            }
            let entry = removed.get_mut(usize::from(part.operation.a));
            match (roll::Kind::from_number(part.operation.kind), entry) {
                (Some(roll::Kind::Appoint), Some(entry)) => *entry = false,
                (Some(roll::Kind::Remove), Some(entry)) => *entry = true,
                _ => {}
            }
        }
        self.removed[hall] = removed;
        Ok(())
    }
}

fn numeric<P: Page>(answer: &crate::book::Answer<P>) -> NumericAnswer {
    NumericAnswer::of::<P>(answer)
}

fn numbers<P: Page>(book: &Book<P>, hall: usize) -> Option<Vec<i64>> {
    book.page(hall as u8).map(P::numbers)
}
