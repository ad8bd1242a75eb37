//! The single moves of a script's maker: calls to be tried, messages to be delivered or dropped, and
//! halls that work or change their clocks.

use std::ops::RangeInclusive;

use crate::book::{Page, HALLS};
use crate::maker::Maker;
use crate::messages::{Message, LAST_STAMP};
use crate::plan::Mood;
use crate::script::Call;
use crate::stage::Told;
use crate::wild;

/// How many calls, and how many messages, are tried at a time.
pub const TRIALS: usize = 40;
const MESSAGES_TRIED: usize = 200;

// What a call told, in short: the number of an outcome, 100 and that of a refusal together, or else 200.
pub const READIED: u8 = 6;
pub const REMOVED: u8 = 7;
pub const REFUSED: u8 = 100;
pub const NO_ROOM: u8 = 106;
pub const QUEUE_FULL: u8 = 107;
const OTHER: u8 = 200;

/// What is sought now and then, the rarest first.
const SOUGHT: [(&str, &[u8]); 5] = [
    (
        "deliver",
        &[0, 1, 2, 3, 4, 5, 6, 7, 8, 9, 10, 101, 105, 106, 107],
    ),
    ("work", &[11, 101, 106, 108]),
    ("issue", &[101, 102, 103, 106]),
    ("clock", &[101, 105]),
    ("drop", &[101]),
];

/// Calls that mostly matter little.
impl<P: Page> Maker<P> {
    pub fn wild_call(&mut self) {
        let call = self.any_wild_call();
        self.call(&call);
    }

    pub fn any_wild_call(&mut self) -> Call {
        let word = self.chance.pick(&wild::CALLS);
        wild::call(&mut self.chance, word, self.stage.congress.messages)
    }

    /// Seeks a call that tells something rarely told so far, and makes it if there is one.
    pub fn rare_call(&mut self) {
        let (word, sought) = self.chance.pick(&SOUGHT);
        let times = |told: &&u8| self.told.get(&(word, **told)).copied().unwrap_or(0);
        let mut by_rarity: Vec<u8> = sought.to_vec();
        by_rarity.sort_by_key(|told| times(&told));
        let mut rarest = by_rarity.into_iter().take(4);
        if !rarest.any(|told| self.find_call(word, told)) {
            self.wild_call();
        }
    }

    /// Makes a call of this word that tells this, if there is one.
    pub fn find_call(&mut self, word: &str, told: u8) -> bool {
        let mut candidates = self.candidates(word).into_iter();
        let found = candidates.find(|call| self.would_tell(call) == told);
        if let Some(call) = &found {
            self.call(call);
        }
        found.is_some()
    }

    fn candidates(&mut self, word: &str) -> Vec<Call> {
        match word {
            "deliver" => {
                let mut places = self.places(|_| true);
                places.push(self.stage.congress.messages);
                let deliver = |place| Call::Deliver {
                    place: place as u64,
                };
                places.into_iter().map(deliver).collect()
            }
            "work" => (0..=HALLS as u8).map(|hall| Call::Work { hall }).collect(),
            _ => {
                let messages = self.stage.congress.messages;
                let wild = |_| wild::call(&mut self.chance, word, messages);
                (0..TRIALS).map(wild).collect()
            }
        }
    }

    fn would_tell(&self, call: &Call) -> u8 {
        code(self.stage.clone().make(call).0)
    }
}

/// Messages.
impl<P: Page> Maker<P> {
    /// The places of such messages in any order.
    pub fn places(&mut self, is_meant: fn(&Message) -> bool) -> Vec<usize> {
        let messages = &self.stage.post[..self.stage.congress.messages];
        let meant = |place: &usize| is_meant(&messages[*place]);
        let places: Vec<usize> = (0..messages.len()).filter(meant).collect();
        self.chance.sample(&places, places.len())
    }

    /// Whether the message would change something.
    pub fn is_live(&self, place: usize) -> bool {
        let told = self.would_tell(&Call::Deliver {
            place: place as u64,
        });
        0 < told && told < REFUSED
    }

    pub fn deliver(&mut self, is_meant: fn(&Message) -> bool) -> bool {
        let places = self.places(is_meant);
        let live = places
            .into_iter()
            .take(MESSAGES_TRIED)
            .find(|place| self.is_live(*place));
        let Some(place) = live.map(|place| place as u64) else {
            return false;
        };
        self.call(&Call::Deliver { place });
        let is_half_full = 2 * self.stage.congress.messages > self.stage.post.len();
        let keeps = if is_half_full { 1 } else { 5 };
        if self.mood.drops() && self.chance.below(8) >= keeps {
            self.call(&Call::Drop { place });
        }
        true
    }

    pub fn deliver_any(&mut self) -> bool {
        let Some(place) = self.places(|_| true).pop() else {
            return false;
        };
        self.call(&Call::Deliver {
            place: place as u64,
        });
        true
    }

    pub fn drop_spent(&mut self) -> bool {
        let places = self.places(|_| true);
        let mut tried = places.into_iter().take(TRIALS);
        let spent = tried.find(|place| {
            self.would_tell(&Call::Deliver {
                place: *place as u64,
            }) == 0
        });
        self.drop_if_any(spent)
    }

    pub fn drop_vote(&mut self) -> bool {
        let place = self
            .places(|message| matches!(message, Message::Vote(_)))
            .pop();
        self.drop_if_any(place)
    }

    pub fn lose(&mut self) -> bool {
        let place = self.places(|_| true).pop();
        self.drop_if_any(place)
    }

    fn drop_if_any(&mut self, place: Option<usize>) -> bool {
        if let Some(place) = place {
            self.call(&Call::Drop {
                place: place as u64,
            });
        }
        place.is_some()
    }
}

/// Halls.
impl<P: Page> Maker<P> {
    pub fn open_halls(&self) -> Vec<usize> {
        (0..self.stage.congress.halls.len()).collect()
    }

    pub fn plain_open(&mut self, halls: RangeInclusive<u16>) -> u8 {
        let halls = self.chance.within(halls) as u8;
        self.call(&Call::Open { halls });
        halls
    }

    pub fn open(&mut self, halls: RangeInclusive<u16>) {
        let halls = self.plain_open(halls);
        if self.plan.begins_late {
            let left = self.chance.pick(&[20, 100, 300, 1000]);
            for hall in 0..halls {
                let time = LAST_STAMP - left - self.chance.below(left as usize) as u64;
                self.call(&Call::Clock { hall, time });
            }
        }
    }

    pub fn work(&mut self) -> bool {
        let halls = self.open_halls();
        let mut halls = self.chance.sample(&halls, halls.len()).into_iter();
        let Some(hall) = halls.find(|hall| self.may_work(*hall)) else {
            return false;
        };
        self.call(&Call::Work { hall: hall as u8 });
        true
    }

    pub fn may_work(&self, hall: usize) -> bool {
        self.would_tell(&Call::Work { hall: hall as u8 }) < REFUSED
    }

    pub fn emptiest_hall(&self) -> usize {
        let entries = |hall: &usize| self.stage.congress.entries(*hall).count();
        self.open_halls()
            .into_iter()
            .min_by_key(entries)
            .unwrap_or(0)
    }

    fn any_hall(&mut self) -> usize {
        self.chance.below(self.stage.congress.halls.len())
    }

    /// The hall's greatest stamp or time.
    fn now(&self, hall: usize) -> u64 {
        let hall = &self.stage.congress.halls[hall];
        hall.clock.max(hall.last)
    }

    pub fn clock(&mut self) -> bool {
        let hall = self.any_hall();
        let now = self.now(hall);
        let jump = 1 << self.chance.within(0..=36);
        let late = LAST_STAMP - self.chance.pick(&[0, 1, 2, 5, 20, 60]);
        let soon = (now + self.chance.below(9) as u64).min(LAST_STAMP);
        let choices = [soon, soon, now / 2, 0, (now + jump).min(LAST_STAMP)];
        let time = match self.mood {
            Mood::Late => late,
            _ if self.plan.begins_late && self.chance.one_in(6) => late,
            _ if self.plan.begins_late => soon,
            _ => self.chance.pick(&choices),
        };
        self.call(&Call::Clock {
            hall: hall as u8,
            time,
        });
        true
    }

    /// A clock at the last stamp while a request comes, and then back where it was.
    pub fn stop_clock(&mut self) -> bool {
        let places = self.places(|message| matches!(message, Message::Request(_)));
        let Some(place) = places.into_iter().find(|place| self.is_live(*place)) else {
            return false;
        };
        let Message::Request(request) = self.stage.post[place] else {
            return false;
        };
        let hall = request.hall as u8;
        let clock = self.stage.congress.halls[request.hall].clock;
        self.call(&Call::Clock {
            hall,
            time: LAST_STAMP,
        });
        self.call(&Call::Deliver {
            place: place as u64,
        });
        self.call(&Call::Clock { hall, time: clock });
        true
    }
}

pub fn code(told: Told) -> u8 {
    match told {
        Told::Came(event) => event.outcome.number(),
        Told::Refused(refusal) => REFUSED + refusal.number(),
        Told::Done | Told::Issued(_) => OTHER,
    }
}
