//! Writes calls as the words of a script's lines, in the ways in which docs/RULES.md lets them be
//! written ("The script").

use crate::book::{Operation, HALLS};
use crate::chance::Chance;
use crate::kind;
use crate::messages::{Class, Halls};
use crate::operations::{Game, Signature};
use crate::script::{Call, Issue};

const BLANKS_BETWEEN: [&str; 5] = ["  ", "\t", "\r", " \t ", "\r\r"];
const BLANKS_AROUND: [&str; 4] = [" ", "\t", "\r", " \r\t"];
/// Words that can hardly be read anywhere; the empty one lets its word go missing.
const BAD_WORDS: [&str; 12] = [
    "",
    "-",
    "-1",
    "+1",
    "1.0",
    "256",
    "65536",
    "2147483648",
    "4294967296",
    "18446744073709551616",
    "at",
    "\u{bd}",
];

pub struct Speaker<'a> {
    pub chance: &'a mut Chance,
    pub game: Game,
    /// What operations bear that do not say so themselves.
    pub signature: Signature,
}

impl Speaker<'_> {
    pub fn call(&mut self, call: &Call) -> Vec<String> {
        let mut words = vec![call.word().to_string()];
        match call {
            Call::Open { halls } => words.push(self.number(*halls)),
            Call::Issue(issue) => self.issue(issue, &mut words),
            Call::Work { hall } => words.push(self.number(*hall)),
            Call::Clock { hall, time } => {
                words.extend([self.number(*hall), self.number(*time)]);
            }
            Call::Deliver { place } | Call::Drop { place } => words.push(self.number(*place)),
        }
        words
    }

    /// One word is replaced; the line may still be read.
    pub fn damage(&mut self, words: &mut [String]) {
        let index = self.chance.below(words.len());
        words[index] = self.chance.pick(&BAD_WORDS).to_string();
    }

    /// Most words stand one space apart, but any blanks may stand between and around them.
    pub fn line(&mut self, words: &[String]) -> String {
        let mut line = self.blanks(16, "", &BLANKS_AROUND);
        for (index, word) in words.iter().enumerate() {
            if index > 0 {
                line += &self.blanks(20, " ", &BLANKS_BETWEEN);
            }
            line += word;
        }
        line + &self.blanks(16, "", &BLANKS_AROUND)
    }

    fn blanks(&mut self, one_in: usize, usual: &str, others: &[&str]) -> String {
        if self.chance.one_in(one_in) {
            self.chance.pick(others).to_string()
        } else {
            usual.to_string()
        }
    }

    /// Now and then with needless zeros.
    fn number(&mut self, number: impl Into<i128>) -> String {
        let number = number.into();
        let sign = if number < 0 { "-" } else { "" };
        let zeros = if self.chance.one_in(16) {
            self.chance.below(4)
        } else {
            0
        };
        format!("{sign}{}{}", "0".repeat(zeros), number.unsigned_abs())
    }

    fn numbers<const N: usize>(&mut self, numbers: [i128; N]) -> [String; N] {
        numbers.map(|number| self.number(number))
    }
}

/// The words of an Issue.
impl Speaker<'_> {
    fn issue(&mut self, issue: &Issue, words: &mut Vec<String>) {
        words.push(self.number(issue.console));
        words.push(self.class(issue.class));
        words.push(self.number(issue.halls.0));
        self.parts(issue, words);
    }

    fn class(&mut self, number: u8) -> String {
        match Class::from_number(number) {
            Some(Class::Single) if !self.chance.one_in(4) => "single".to_string(),
            Some(Class::Independent) if !self.chance.one_in(4) => "independent".to_string(),
            Some(Class::Coordinated) if !self.chance.one_in(4) => "coordinated".to_string(),
            _ => self.number(number),
        }
    }

    /// Where one operation goes to all named halls it is mostly said once; else the last may come
    /// first, for all of them, and is then replaced at the others.
    fn parts(&mut self, issue: &Issue, words: &mut Vec<String>) {
        let named: Vec<usize> = named_halls(issue.halls);
        let Some(last) = named.last().map(|hall| issue.operations[*hall]) else {
            return;
        };
        let is_one = named.iter().all(|hall| issue.operations[*hall] == last);
        let says_all = self.chance.one_in(6) || is_one && !self.chance.one_in(4);
        if says_all {
            words.push("all".to_string());
            words.extend(self.operation(&last));
        }
        for hall in self.chance.sample(&named, named.len()) {
            let operation = issue.operations[hall];
            let is_said = says_all && operation == last;
            let is_nothing = !says_all && operation == Operation::default();
            if !is_said && !is_nothing || self.chance.one_in(24) {
                words.push("at".to_string());
                words.push(self.number(hall as u8));
                words.extend(self.operation(&operation));
            }
        }
    }

    fn operation(&mut self, operation: &Operation) -> Vec<String> {
        let Operation { grant, token, .. } = *operation;
        let is_signed = self.signature == Signature { grant, token };
        if is_signed && !self.chance.one_in(8) {
            if let Some(words) = self.named(operation) {
                return words;
            }
        }
        let Operation {
            kind, a, b, c, d, ..
        } = *operation;
        let mut words = vec!["op".to_string()];
        words.extend(self.numbers([kind.into(), grant.into(), token.into()]));
        words.extend(self.numbers([a.into(), b.into(), c.into(), d.into()]));
        words
    }

    /// None where only `op` can say it.
    fn named(&mut self, operation: &Operation) -> Option<Vec<String>> {
        let Operation {
            kind, a, b, c, d, ..
        } = *operation;
        let (a, b, c, d) = (a.into(), b.into(), i128::from(c), d.into());
        match (kind, b, d) {
            (kind::APPOINT, 0, 0) if c >= 0 => Some(self.with("appoint", [a, c])),
            (kind::SEAT, _, 0) if c >= 0 => Some(self.with("seat", [a, b, c])),
            (kind::RESULT, _, 0) if (1..=3).contains(&c) => {
                let mut words = self.with("result", [a, b]);
                words.push(["1-0", "1/2", "0-1"][c as usize - 1].to_string());
                Some(words)
            }
            (kind::SCORE, _, _) => Some(self.with("score", [a, b, d, c])),
            (kind::LINE, _, 0) if c == 0 => Some(self.with("line", [a, b])),
            (_, 0, 0) if c == 0 => {
                let name = name_with_a_alone(kind, self.game)?;
                Some(self.with(name, [a]))
            }
            _ => None,
        }
    }

    fn with<const N: usize>(&mut self, name: &str, numbers: [i128; N]) -> Vec<String> {
        let mut words = vec![name.to_string()];
        words.extend(self.numbers(numbers));
        words
    }
}

fn name_with_a_alone(kind: u8, game: Game) -> Option<&'static str> {
    match (kind, game) {
        (kind::REMOVE, _) => Some("remove"),
        (kind::DEPUTY, _) => Some("deputy"),
        (kind::SHOW, _) => Some("show"),
        (kind::CLOSE_OF_CHESS, Game::Chess) | (kind::CLOSE_OF_BRIDGE, Game::Bridge) => {
            Some("close")
        }
        (kind::TOTAL_OF_CHESS, Game::Chess) | (kind::TOTAL_OF_BRIDGE, Game::Bridge) => {
            Some("total")
        }
        _ => None,
    }
}

fn named_halls(halls: Halls) -> Vec<usize> {
    (0..HALLS).filter(|hall| halls.has(*hall)).collect()
}
