//! The rows in which calls go to both sides, and in which both write what was told. They are laid out
//! as `crates/measured/src/rows.rt` has them.

use crate::book::{Operation, HALLS};

/// An operation, with its fields in the order in which both sides declare those of theirs.
#[derive(Clone, Copy, Default)]
#[repr(C)]
pub struct OperationRow {
    pub kind: u8,
    pub grant: u8,
    pub token: u32,
    pub a: u16,
    pub b: u16,
    pub c: i32,
    pub d: u16,
}

impl From<Operation> for OperationRow {
    fn from(operation: Operation) -> Self {
        let Operation {
            kind,
            grant,
            token,
            a,
            b,
            c,
            d,
        } = operation;
        Self {
            kind,
            grant,
            token,
            a,
            b,
            c,
            d,
        }
    }
}

impl From<OperationRow> for Operation {
    fn from(row: OperationRow) -> Self {
        let OperationRow {
            kind,
            grant,
            token,
            a,
            b,
            c,
            d,
        } = row;
        Self {
            kind,
            grant,
            token,
            a,
            b,
            c,
            d,
        }
    }
}

pub const OPEN: u8 = 0;
pub const ISSUE: u8 = 1;
pub const DELIVER: u8 = 2;
pub const WORK: u8 = 3;
pub const CLOCK: u8 = 4;
pub const DROP: u8 = 5;

/// What each hall is asked by an Issue. These rows are a list of their own, so that a list of calls
/// takes few bytes, and memory costs little beside the calls.
#[derive(Clone, Copy, Default)]
#[repr(C)]
pub struct PartsRow {
    pub operations: [OperationRow; HALLS],
}

/// A call. `number` is a place, a time, or the number of a row of parts; `at` a console, a hall, or how many
/// halls are opened.
#[derive(Clone, Copy, Default)]
#[repr(C)]
pub struct CallRow {
    pub number: u64,
    pub kind: u8,
    pub at: u8,
    pub class: u8,
    pub halls: u8,
}

pub const NOTHING: u8 = 0;
pub const TRANSACTION: u8 = 1;
pub const OUTCOME: u8 = 2;
pub const REFUSAL: u8 = 3;

/// What a call told. `number` is that of an outcome or a refusal; what a kind has not is 0.
#[derive(Clone, Copy, Default, PartialEq, Eq, Debug)]
#[repr(C)]
pub struct ToldRow {
    pub stamp: u64,
    pub transaction: u32,
    pub value: i32,
    pub place: u16,
    pub kind: u8,
    pub number: u8,
    pub hall: u8,
    pub layer: u8,
    pub cause: u8,
}

/// A list of calls, and of the parts that its Issues name.
#[derive(Clone, Default)]
pub struct Calls {
    pub parts: Vec<PartsRow>,
    pub rows: Vec<CallRow>,
}

/// So many numbers of each page are written, whatever the book is.
pub const WIDTH: usize = 512;
pub const PAGE_NUMBERS: usize = HALLS * WIDTH;

/// How many places the post has.
pub const POST_PLACES: usize = 1024;

/// What a list of calls told, and the pages at its end.
#[derive(Clone, PartialEq, Eq)]
pub struct Written {
    pub told: Vec<ToldRow>,
    pub pages: Vec<i64>,
}

impl Written {
    pub fn new(calls: usize) -> Self {
        Self {
            told: vec![ToldRow::default(); calls],
            pages: vec![0; PAGE_NUMBERS],
        }
    }

    /// Both sides start from memory cleared alike.
    pub fn clear(&mut self) {
        self.told.fill(ToldRow::default());
        self.pages.fill(0);
    }

    /// Of each number of each row and of each page, in order.
    pub fn checksum(&self) -> u64 {
        let told = self.told.iter().flat_map(|row| {
            [
                row.stamp,
                row.transaction.into(),
                row.value as u64,
                row.place.into(),
                row.kind.into(),
                row.number.into(),
                row.hall.into(),
                row.layer.into(),
                row.cause.into(),
            ]
        });
        let pages = self.pages.iter().map(|number| *number as u64);
        told.chain(pages)
            .fold(0xCBF2_9CE4_8422_2325, |hash: u64, number| {
                (hash ^ number)
                    .wrapping_mul(0x9E37_79B9_7F4A_7C15)
                    .rotate_left(29)
            })
    }
}
