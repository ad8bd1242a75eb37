//! Reads a script's lines into headings and calls, or says where a line cannot be read and what was
//! expected there (docs/RULES.md, "The script").

use crate::book::{Operation, HALLS};
use crate::messages::{Class, Halls};
use crate::operations::{self, Game, Signature};
use crate::words::{
    self, Expected, Unreadable, Words, EIGHT_BITS, SIXTEEN_BITS, SIXTY_FOUR_BITS, THIRTY_TWO_BITS,
    THREE_BITS,
};

const FIRST_WORD: Expected = Expected::Phrase("a heading or a call");
const CALL_NOT_HEADING: Expected = Expected::Phrase("a call or as, since headings come first");
const CLASS: Expected =
    Expected::Phrase("single, independent, coordinated or a number from 0 to 255");
const PART: Expected = Expected::Phrase("at, all or the end of the line");
const OPERATION: Expected = Expected::Phrase("an operation");

const CHIEF: Signature = Signature { grant: 0, token: 1 };

pub struct Script {
    pub headings: Headings,
    pub lines: Vec<Line>,
}

#[derive(Clone, Copy)]
pub struct Headings {
    pub game: Game,
    pub chief_token: u32,
    pub places: u16,
    pub has_pages: bool,
}

impl Default for Headings {
    fn default() -> Self {
        Self {
            game: Game::Chess,
            chief_token: CHIEF.token,
            places: 1024,
            has_pages: false,
        }
    }
}

/// A line that is a call or cannot be read; no other line leaves a trace in what is printed.
pub struct Line {
    pub number: usize,
    pub content: Result<Call, Unreadable>,
}

#[derive(Clone)]
pub enum Call {
    Open { halls: u8 },
    Issue(Issue),
    Deliver { place: u64 },
    Work { hall: u8 },
    Clock { hall: u8, time: u64 },
    Drop { place: u64 },
}

#[derive(Clone)]
pub struct Issue {
    pub console: u8,
    pub class: u8,
    pub halls: Halls,
    pub operations: [Operation; HALLS],
}

impl Call {
    pub fn word(&self) -> &'static str {
        match self {
            Self::Open { .. } => "open",
            Self::Issue(_) => "issue",
            Self::Deliver { .. } => "deliver",
            Self::Work { .. } => "work",
            Self::Clock { .. } => "clock",
            Self::Drop { .. } => "drop",
        }
    }
}

pub fn read(input: &[u8]) -> Script {
    let mut reader = Reader::default();
    let mut lines = Vec::new();
    for (number, text) in words::lines(input) {
        if let Some(content) = reader.read_line(text).transpose() {
            lines.push(Line { number, content });
        }
    }
    Script {
        headings: reader.headings,
        lines,
    }
}

/// What the lines read so far say about those that follow.
pub struct Reader {
    pub headings: Headings,
    pub signature: Signature,
    call_was_read: bool,
}

impl Default for Reader {
    fn default() -> Self {
        Self {
            headings: Headings::default(),
            signature: CHIEF,
            call_was_read: false,
        }
    }
}

enum Statement {
    Nothing,
    Book(Game),
    Chief(u32),
    Post(u16),
    Pages,
    As(Signature),
    Call(Call),
}

impl Reader {
    /// The line's call, where it is one. A line that cannot be read changes nothing.
    pub fn read_line(&mut self, text: &[u8]) -> Result<Option<Call>, Unreadable> {
        match self.statement(text)? {
            Statement::Nothing => {}
            Statement::Book(game) => self.headings.game = game,
            Statement::Chief(token) => self.headings.chief_token = token,
            Statement::Post(places) => self.headings.places = places,
            Statement::Pages => self.headings.has_pages = true,
            Statement::As(signature) => self.signature = signature,
            Statement::Call(call) => {
                self.call_was_read = true;
                return Ok(Some(call));
            }
        }
        Ok(None)
    }

    fn statement(&self, text: &[u8]) -> Result<Statement, Unreadable> {
        let mut words = Words::of(text);
        let statement = match words.next() {
            None | Some([b'#', ..]) => return Ok(Statement::Nothing),
            Some(b"book" | b"chief" | b"post" | b"pages") if self.call_was_read => {
                return Err(words.fault(CALL_NOT_HEADING));
            }
            Some(b"book") => Statement::Book(operations::read_game(&mut words)?),
            Some(b"chief") => Statement::Chief(words.number(THIRTY_TWO_BITS)?),
            Some(b"post") => Statement::Post(words.number(SIXTEEN_BITS)?),
            Some(b"pages") => Statement::Pages,
            Some(b"as") => Statement::As(Signature::read(&mut words)?),
            Some(name) => Statement::Call(self.call(name, &mut words)?),
        };
        words.end()?;
        Ok(statement)
    }

    fn call(&self, name: &[u8], words: &mut Words) -> Result<Call, Unreadable> {
        Ok(match name {
            b"open" => Call::Open {
                halls: words.number(EIGHT_BITS)?,
            },
            b"issue" => Call::Issue(self.issue(words)?),
            b"deliver" => Call::Deliver {
                place: words.number(SIXTY_FOUR_BITS)?,
            },
            b"work" => Call::Work {
                hall: words.number(EIGHT_BITS)?,
            },
            b"clock" => Call::Clock {
                hall: words.number(EIGHT_BITS)?,
                time: words.number(SIXTY_FOUR_BITS)?,
            },
            b"drop" => Call::Drop {
                place: words.number(SIXTY_FOUR_BITS)?,
            },
            _ => return Err(words.fault(FIRST_WORD)),
        })
    }

    fn issue(&self, words: &mut Words) -> Result<Issue, Unreadable> {
        Ok(Issue {
            console: words.number(EIGHT_BITS)?,
            class: read_class(words)?,
            halls: Halls(words.number(EIGHT_BITS)?),
            operations: self.parts(words)?,
        })
    }

    /// The operations of all halls. Of two for one hall the later counts.
    fn parts(&self, words: &mut Words) -> Result<[Operation; HALLS], Unreadable> {
        let mut operations = [Operation::default(); HALLS];
        while let Some(word) = words.next() {
            match word {
                b"at" => {
                    let hall: usize = words.number(THREE_BITS)?;
                    operations[hall] = self.operation(words)?;
                }
                b"all" => operations = [self.operation(words)?; HALLS],
                _ => return Err(words.fault(PART)),
            }
        }
        Ok(operations)
    }

    fn operation(&self, words: &mut Words) -> Result<Operation, Unreadable> {
        match words.next() {
            Some(b"op") => {
                let kind = words.number(EIGHT_BITS)?;
                let signature = Signature::read(words)?;
                operations::read_fields(words, kind, signature)
            }
            Some(name) => {
                let game = self.headings.game;
                operations::read_named(name, words, game, self.signature)?
                    .ok_or_else(|| words.fault(OPERATION))
            }
            None => Err(words.fault(OPERATION)),
        }
    }
}

fn read_class(words: &mut Words) -> Result<u8, Unreadable> {
    match words.next() {
        Some(b"single") => Ok(Class::Single.number()),
        Some(b"independent") => Ok(Class::Independent.number()),
        Some(b"coordinated") => Ok(Class::Coordinated.number()),
        word => word
            .and_then(|word| words::number_within(word, EIGHT_BITS))
            .ok_or_else(|| words.fault(CLASS)),
    }
}
