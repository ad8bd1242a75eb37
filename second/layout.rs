//! Where things are in the picture, across and down (docs/RULES.md, "Rows and lifelines").

use crate::arrows::Who;
use crate::rows::Row;

const FIRST_ROW: usize = 112;
const ROW_HEIGHT: usize = 18;
const LIFELINE_WIDTH: usize = 72;
const LEAST_WIDTH: usize = 640;

/// The lengths of the headings over the two texts of the rows.
const CALL_HEADING: usize = 4;
const TOLD_HEADING: usize = 33;

pub struct Layout {
    pub lifelines: Vec<Who>,
    pub left: usize,
    pub right: usize,
    pub width: usize,
    pub height: usize,
}

impl Layout {
    pub fn of(rows: &[Row]) -> Self {
        let call_lengths = rows.iter().map(|row| row.call_text().len());
        let told_lengths = rows.iter().map(|row| row.told_text().len());
        let longest_call = call_lengths.fold(CALL_HEADING, usize::max);
        let longest_told = told_lengths.fold(TOLD_HEADING, usize::max);
        let lifelines = lifelines(rows);
        let left = 78 + 7 * longest_call;
        let right = match lifelines.len() {
            0 => left,
            many => left + LIFELINE_WIDTH * (many - 1) + 42,
        };
        Self {
            lifelines,
            left,
            right,
            width: LEAST_WIDTH.max(right + 20 + 6 * longest_told),
            height: y(rows.len()),
        }
    }

    /// Of the lifeline. All who send, receive or do something have one.
    pub fn x(&self, who: Who) -> usize {
        self.left + LIFELINE_WIDTH * self.index(who)
    }

    fn index(&self, who: Who) -> usize {
        let index = self.lifelines.iter().position(|other| *other == who);
        index.expect("a lifeline")
    }

    /// So far from the one lifeline as a step for each lifeline on the way to the other leads.
    pub fn x_between(&self, from: Who, to: Who, step: usize) -> usize {
        let (i, j) = (self.index(from), self.index(to));
        if i < j {
            self.x(from) + step * (j - i)
        } else {
            self.x(from) - step * (i - j)
        }
    }
}

/// The middle of the row.
pub fn y(row: usize) -> usize {
    FIRST_ROW + ROW_HEIGHT * row
}

/// Consoles that are asked to issue come first, then the halls that were ever open.
fn lifelines(rows: &[Row]) -> Vec<Who> {
    let mut consoles: Vec<usize> = rows.iter().filter_map(Row::console).collect();
    consoles.sort();
    consoles.dedup();
    let halls = rows.iter().filter_map(Row::opened).max().unwrap_or(0);
    let consoles = consoles.into_iter().map(Who::Console);
    consoles.chain((0..halls).map(Who::Hall)).collect()
}
