//! Reads a scoresheet's lines into headings and operations, or says where a line cannot be read and
//! what was expected there (docs/RULES.md, "The sheet").

use crate::book::Operation;
use crate::operations::{self, Game, Signature};
use crate::words::{self, Expected, Unreadable, Words, EIGHT_BITS, THIRTY_TWO_BITS};

const FIRST_WORD: Expected = Expected::Phrase("hall, game, chief, as or an entry");
const ENTRY_NOT_HEADING: Expected = Expected::Phrase("an entry or as, since headings come first");

pub struct Sheet {
    pub headings: Headings,
    pub lines: Vec<Line>,
}

#[derive(Default)]
pub struct Headings {
    pub hall: u8,
    pub game: Game,
    /// The chief's token, where there is a roll.
    pub chief: Option<u32>,
}

/// A line that is an entry or cannot be read; no other line leaves a trace in the account.
pub struct Line {
    pub number: usize,
    pub content: Result<Operation, Unreadable>,
}

pub fn read(input: &[u8]) -> Sheet {
    let mut reader = Reader::default();
    let mut lines = Vec::new();
    for (number, text) in words::lines(input) {
        if let Some(content) = reader.read_line(text).transpose() {
            lines.push(Line { number, content });
        }
    }
    Sheet {
        headings: reader.headings,
        lines,
    }
}

/// What the lines read so far say about those that follow.
#[derive(Default)]
struct Reader {
    headings: Headings,
    signature: Signature,
    entry_was_read: bool,
}

enum Statement {
    Nothing,
    Hall(u8),
    Game(Game),
    Chief(u32),
    As(Signature),
    Entry(Operation),
}

impl Reader {
    /// The line's operation, where it is an entry. A line that cannot be read changes nothing.
    fn read_line(&mut self, text: &[u8]) -> Result<Option<Operation>, Unreadable> {
        match self.statement(text)? {
            Statement::Nothing => {}
            Statement::Hall(hall) => self.headings.hall = hall,
            Statement::Game(game) => self.headings.game = game,
            Statement::Chief(token) => self.headings.chief = Some(token),
            Statement::As(signature) => self.signature = signature,
            Statement::Entry(operation) => {
                self.entry_was_read = true;
                return Ok(Some(operation));
            }
        }
        Ok(None)
    }

    fn statement(&self, text: &[u8]) -> Result<Statement, Unreadable> {
        let mut words = Words::of(text);
        let statement = match words.next() {
            None | Some([b'#', ..]) => return Ok(Statement::Nothing),
            Some(b"hall" | b"game" | b"chief") if self.entry_was_read => {
                return Err(words.fault(ENTRY_NOT_HEADING));
            }
            Some(b"hall") => Statement::Hall(words.number(EIGHT_BITS)?),
            Some(b"game") => Statement::Game(operations::read_game(&mut words)?),
            Some(b"chief") => Statement::Chief(words.number(THIRTY_TWO_BITS)?),
            Some(b"as") => Statement::As(Signature::read(&mut words)?),
            Some(b"op") => Statement::Entry(self.any_operation(&mut words)?),
            Some(name) => Statement::Entry(self.named_operation(name, &mut words)?),
        };
        words.end()?;
        Ok(statement)
    }

    fn any_operation(&self, words: &mut Words) -> Result<Operation, Unreadable> {
        let kind = words.number(EIGHT_BITS)?;
        operations::read_fields(words, kind, self.signature)
    }

    fn named_operation(&self, name: &[u8], words: &mut Words) -> Result<Operation, Unreadable> {
        operations::read_named(name, words, self.headings.game, self.signature)?
            .ok_or_else(|| words.fault(FIRST_WORD))
    }
}
