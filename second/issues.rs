//! The issues of a script's maker: consoles, classes, halls and operations.

use crate::asking::Asker;
use crate::book::{NumericAnswer, Operation, Page, HALLS};
use crate::congress::Mode;
use crate::kind;
use crate::maker::Maker;
use crate::messages::{Class, Halls, CONSOLES};
use crate::moves::TRIALS;
use crate::operations::Signature;
use crate::plan::Mood;
use crate::script::{Call, Issue};

/// What an operation is chosen for.
#[derive(Clone, Copy)]
struct Wish {
    /// The chief asks, whatever comes of it.
    is_chiefs: bool,
    is_well_done: bool,
    /// No entry at the hall holds a key that it needs.
    passes: bool,
}

/// Issues.
impl<P: Page> Maker<P> {
    pub fn issue(&mut self) -> bool {
        let is_busy = self.open_transactions() >= self.busy && !self.mood.crowds();
        if is_busy && !(self.chance.one_in(3) && self.nothing_moves()) {
            return false;
        }
        let class = self.choose_class();
        let halls = self.choose_halls(class);
        self.issue_to(class, halls)
    }

    pub fn issue_to(&mut self, class: Class, halls: Halls) -> bool {
        let Some(console) = self.free_console() else {
            return false;
        };
        let issue = Issue {
            console,
            class: class.number(),
            halls,
            operations: self.choose_operations(halls),
        };
        self.sign_for(&issue);
        let place = self.stage.congress.messages as u64;
        self.call(&Call::Issue(issue));
        if class == Class::Single && self.chance.one_in(2) {
            self.call(&Call::Deliver { place });
        }
        true
    }

    pub fn open_transactions(&self) -> usize {
        let consoles = self.stage.congress.consoles.iter();
        consoles
            .filter(|console| console.has_open_transaction)
            .count()
    }

    fn free_console(&mut self) -> Option<u8> {
        let consoles = &self.stage.congress.consoles;
        let is_free = |console: &u8| !consoles[usize::from(*console)].has_open_transaction;
        let free: Vec<u8> = (0..CONSOLES as u8).filter(is_free).collect();
        (!free.is_empty()).then(|| self.chance.pick(&free))
    }

    fn choose_class(&mut self) -> Class {
        use Class::{Coordinated, Independent, Single};
        if self.open_halls().len() == 1 {
            return Single;
        }
        match self.mood.crowds() {
            true => Independent,
            false => self.chance.pick(&[
                Single,
                Single,
                Single,
                Independent,
                Coordinated,
                Coordinated,
            ]),
        }
    }

    /// Singles mostly go where something may be done at once.
    fn choose_halls(&mut self, class: Class) -> Halls {
        let open = self.open_halls();
        let halls = &self.stage.congress.halls;
        let is_locking = |hall: &usize| halls[*hall].mode == Mode::Locking;
        let locking: Vec<usize> = open.iter().copied().filter(is_locking).collect();
        if class == Class::Single && !locking.is_empty() && !self.chance.one_in(3) {
            return Halls::of(self.chance.pick(&locking));
        }
        if self.mood.crowds() {
            return self.crowded_halls();
        }
        let count = match (class, self.mood) {
            (Class::Single, _) => 1,
            (_, Mood::Hoard) => 2 + self.chance.below(open.len() - 1),
            _ => 2 + self.chance.below(open.len() - 1).min(self.chance.below(4)),
        };
        let chosen = self.chance.sample(&open, count);
        chosen.into_iter().fold(Halls::default(), Halls::with)
    }

    /// A hall that was locked, and two others if there are so many.
    fn crowded_halls(&mut self) -> Halls {
        let others = &self.open_halls()[1..];
        let chosen = self.chance.sample(others, others.len().min(2));
        chosen.into_iter().fold(Halls::of(0), Halls::with)
    }

    /// Mostly one operation for all halls. In a crowd it is mostly the chief who asks.
    fn choose_operations(&mut self, halls: Halls) -> [Operation; HALLS] {
        let mut operations = [Operation::default(); HALLS];
        let wish = Wish {
            is_chiefs: self.mood.crowds() && !self.chance.one_in(8),
            is_well_done: !self.chance.one_in(4),
            passes: !self.chance.one_in(3),
        };
        let is_one = self.chance.one_in(2);
        let mut one = None;
        for hall in halls.ascending() {
            let operation = match one {
                Some(operation) if is_one => operation,
                _ => self.choose_operation(hall, wish),
            };
            one = Some(operation);
            operations[hall] = operation;
        }
        operations
    }

    fn choose_operation(&mut self, hall: usize, wish: Wish) -> Operation {
        let mut operation = self.any_operation(hall, wish);
        for _ in 0..TRIALS {
            let is_well_done = !wish.is_well_done || self.is_well_done(hall, operation);
            let passes = !wish.passes || self.passes(hall, operation);
            if wish.is_chiefs || is_well_done && passes {
                break;
            }
            operation = self.any_operation(hall, wish);
        }
        operation
    }

    fn any_operation(&mut self, hall: usize, wish: Wish) -> Operation {
        let page = self.stage.book.page(hall as u8);
        let mut asker = Asker {
            chance: &mut self.chance,
            game: self.plan.game,
            page: page.map_or(Vec::new(), P::numbers),
            once_appointed: &self.once_appointed,
        };
        let signature = match wish.is_chiefs {
            true => self.plan.chief(),
            false => asker.signature(),
        };
        asker.operation(signature)
    }

    fn is_well_done(&self, hall: usize, operation: Operation) -> bool {
        let verdict = self.stage.book.verdict(hall as u8, operation);
        NumericAnswer::of::<P>(&verdict).is_well_done()
    }

    fn passes(&self, hall: usize, operation: Operation) -> bool {
        let needed = P::keys(operation);
        let mut entries = self.stage.congress.entries(hall);
        !entries.any(|entry| entry.keys.meets(needed))
    }

    /// Mostly the operations bear what an `as` line before them says.
    fn sign_for(&mut self, issue: &Issue) {
        let first = issue.halls.ascending().next();
        let operation = first.map_or(Operation::default(), |hall| issue.operations[hall]);
        let signature = Signature {
            grant: operation.grant,
            token: operation.token,
        };
        if signature != self.reader.signature && !self.chance.one_in(3) {
            self.sign_as(signature);
        }
    }

    /// Parts of the chief's wait at two halls, so that others of the chief's meet conflict there. They
    /// lack each other's votes.
    pub fn lock_two_halls(&mut self) {
        let Some(console) = self.free_console() else {
            return;
        };
        let read = Operation {
            kind: kind::DEPUTY,
            a: 1,
            ..self.plan.chief().idle()
        };
        let place = self.stage.congress.messages as u64;
        self.call(&Call::Issue(Issue {
            console,
            class: Class::Coordinated.number(),
            halls: Halls::of(0).with(1),
            operations: [read; HALLS],
        }));
        for place in [place, place + 1] {
            self.call(&Call::Deliver { place });
        }
    }
}
