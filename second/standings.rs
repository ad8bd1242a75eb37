//! The standings of the parties that took part (docs/RULES.md, "The account").

use std::cmp::Reverse;
use std::collections::BTreeSet;

use crate::book::{Answer, Done, News, Page, FIRST_ROUND};

/// Who took part, and the round that the last closing began, as the answers so far told.
pub struct Progress<P: Page> {
    parties: BTreeSet<P::Party>,
    pub round: u16,
}

impl<P: Page> Default for Progress<P> {
    fn default() -> Self {
        Self {
            parties: BTreeSet::new(),
            round: FIRST_ROUND,
        }
    }
}

impl<P: Page> Progress<P> {
    pub fn note(&mut self, answer: &Answer<P>) {
        match answer.as_ref().ok().and_then(|done| done.news()) {
            Some(News::TookPart(both)) => self.parties.extend(both),
            Some(News::RoundBegins(next_round)) => self.round = next_round,
            None => {}
        }
    }

    /// A line for each party, with its points on the page: most points first, and of equal points the
    /// lesser party.
    pub fn ranking(&self, page: &P) -> Vec<String> {
        let with_points = |party: &P::Party| (*party, page.points(*party));
        let mut ranking: Vec<_> = self.parties.iter().map(with_points).collect();
        // The sort is stable, so that of equal points the lesser party stays first.
        ranking.sort_by_key(|(_, points)| Reverse(*points));
        let line = |(party, points): &(P::Party, P::Points)| {
            let place = 1 + ranking.partition_point(|(_, ahead)| ahead > points);
            format!("{place}. {party}: {points}")
        };
        ranking.iter().map(line).collect()
    }
}
