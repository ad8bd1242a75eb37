//! Makes a script line by line, and makes its calls at a stage of its own as it goes, so as to choose
//! calls that are likely to matter.

use std::collections::BTreeMap;

use crate::book::Page;
use crate::chance::Chance;
use crate::kind;
use crate::messages::{Class, Halls, Message, CONSOLES};
use crate::moves::{code, NO_ROOM, QUEUE_FULL, READIED, REMOVED};
use crate::operations::{Game, Signature};
use crate::plan::{Act, Mood, Move, Plan};
use crate::script::{Call, Reader};
use crate::speech::Speaker;
use crate::stage::Stage;
use crate::wild;

/// Only these places of a post are used.
const PLACES_USED: usize = 1024;
const QUEUE_PLACES: usize = 64;
const FILLING_CALLS: usize = 600;
const CLEARING_CALLS: usize = 60;
/// After how many calls at a full post or queue a mood is over.
const PATIENCE: usize = 50;

type Row = (&'static str, u8);

pub struct Maker<P: Page> {
    pub chance: Chance,
    pub plan: Plan,
    pub stage: Stage<P>,
    pub reader: Reader,
    pub text: Vec<u8>,
    pub calls: usize,
    pub told: BTreeMap<Row, usize>,
    pub once_appointed: Vec<Signature>,
    pub mood: Mood,
    /// How many consoles may have an open transaction, as long as the mood does not crowd.
    pub busy: usize,
    /// How many calls were made at a full post or queue in this mood.
    pub calls_when_full: usize,
}

impl<P: Page> Maker<P> {
    /// The page is that of the plan's game under a roll with its chief.
    pub fn new(chance: Chance, plan: Plan, page: P) -> Self {
        let places = usize::from(plan.places).min(PLACES_USED);
        Self {
            chance,
            plan,
            stage: Stage::new(places, page),
            reader: Reader::default(),
            text: Vec::new(),
            calls: 0,
            told: BTreeMap::new(),
            once_appointed: Vec::new(),
            mood: Mood::Calm,
            busy: 3,
            calls_when_full: 0,
        }
    }

    /// A script of so many calls, or more where it takes more to fill queue and post.
    pub fn script(mut self, calls: usize, title: &str) -> Vec<u8> {
        self.headings(title);
        self.calls_before_the_first_open();
        let acts = self.plan.acts;
        let is_open = |act: &Act| matches!(act, Act::Open);
        let last_open = acts.iter().rposition(is_open).unwrap_or(0);
        self.act(&acts[..last_open], calls);
        self.make_up();
        self.act(&acts[last_open..], calls);
        while self.calls < calls {
            self.open(self.plan.halls.clone());
            self.play(Mood::Calm, calls - self.calls);
        }
        self.text
    }

    fn act(&mut self, acts: &[Act], calls: usize) {
        for act in acts {
            match *act {
                Act::Open => self.open(self.plan.halls.clone()),
                Act::OpenAny => self.open(1..=8),
                Act::Play(mood, share) => self.play(mood, calls * share / 1000),
            }
        }
    }

    /// Fills queue and post again if something was refused nowhere for want of room there.
    fn make_up(&mut self) {
        for _ in 0..2 {
            if self.lacks("deliver", QUEUE_FULL) {
                self.plain_open(self.plan.halls.clone());
                self.play(Mood::Rush, FILLING_CALLS);
                self.play(Mood::Calm, CLEARING_CALLS);
            }
            let mut words = ["deliver", "work", "issue"].into_iter();
            if words.any(|word| self.lacks(word, NO_ROOM)) {
                self.plain_open(self.plan.halls.clone());
                self.play(Mood::Hoard, FILLING_CALLS);
                self.play(Mood::Calm, CLEARING_CALLS);
            }
        }
    }

    fn lacks(&self, word: &'static str, told: u8) -> bool {
        !self.told.contains_key(&(word, told))
    }

    fn play(&mut self, mood: Mood, calls: usize) {
        let end = self.calls + calls;
        self.mood = mood;
        self.calls_when_full = 0;
        if mood.crowds() {
            self.lock_two_halls();
        }
        while self.calls < end && self.calls_when_full < PATIENCE && !self.is_stuck() {
            self.turn();
        }
    }

    /// Whether all consoles wait, and nothing that may come changes anything.
    fn is_stuck(&self) -> bool {
        self.open_transactions() == CONSOLES && self.nothing_moves()
    }

    pub fn nothing_moves(&self) -> bool {
        let mut places = 0..self.stage.congress.messages;
        let mut halls = self.open_halls().into_iter();
        !places.any(|place| self.is_live(place)) && !halls.any(|hall| self.may_work(hall))
    }

    fn turn(&mut self) {
        if self.chance.one_in(40) {
            self.busy = 1 + self.chance.below(6);
        }
        match self.chance.below(100) {
            0..=2 => self.odd_line(),
            3..=5 => self.wild_call(),
            6..=10 if !self.mood.crowds() => self.rare_call(),
            _ => self.usual_call(),
        }
    }

    fn usual_call(&mut self) {
        let is_queue_full = self.stage.congress.queue.len() >= QUEUE_PLACES;
        if is_queue_full && self.chance.one_in(8) && self.find_call("deliver", QUEUE_FULL) {
            return;
        }
        let is_full = match self.mood {
            Mood::Rush => is_queue_full,
            mood => self.room() < 8 && !mood.drops(),
        };
        if is_full {
            return self.call_when_full();
        }
        if self.room() < 12 && self.chance.one_in(2) {
            return self.make_room();
        }
        self.make_any_move();
    }

    fn make_any_move(&mut self) {
        for _ in 0..24 {
            let chosen = self.choose_move();
            if self.make_move(chosen) {
                return;
            }
        }
        self.wild_call();
    }

    fn make_room(&mut self) {
        let mood_drops_votes = self.mood.crowds() && self.drop_vote();
        if !mood_drops_votes && !self.drop_spent() {
            self.lose();
        }
    }

    /// Often a call for which post or queue has no room. After many of them the mood is over.
    fn call_when_full(&mut self) {
        if self.calls_when_full == 0 && !self.mood.drops() {
            self.fill_up();
        }
        self.calls_when_full += 1;
        let word = self.chance.pick(&["deliver", "work", "issue"]);
        let is_made = match self.chance.below(8) {
            0 | 1 => self.find_call(word, NO_ROOM),
            2 => self.deliver(|_| true),
            3 => self.work(),
            _ => false,
        };
        if !is_made {
            self.make_any_move();
        }
    }

    /// Fills the last places of the post with replies and requests, and delivers them.
    fn fill_up(&mut self) {
        let first = self.stage.congress.messages;
        while self.room() > 0 {
            if !self.find_call("deliver", REMOVED) && !self.issue_to_fill() {
                break;
            }
        }
        for place in first..self.stage.congress.messages {
            self.call(&Call::Deliver {
                place: place as u64,
            });
        }
        self.find_call("deliver", READIED);
        for word in ["deliver", "work", "issue"] {
            self.find_call(word, NO_ROOM);
        }
    }

    fn issue_to_fill(&mut self) -> bool {
        let hall = self.emptiest_hall();
        match self.room() {
            1 | 2 => self.issue_to(Class::Single, Halls::of(hall)),
            _ => self.issue_to(Class::Independent, Halls::of(0).with(hall.max(1))),
        }
    }

    fn room(&self) -> usize {
        self.stage.post.len() - self.stage.congress.messages
    }

    fn choose_move(&mut self) -> Move {
        let moves = self.mood.moves();
        let mut choice = self
            .chance
            .below(moves.iter().map(|(_, weight)| weight).sum());
        for (chosen, weight) in moves {
            if choice < *weight {
                return *chosen;
            }
            choice -= weight;
        }
        unreachable!("the choice is below the sum of weights")
    }

    /// Whether there was such a move to make.
    fn make_move(&mut self, chosen: Move) -> bool {
        match chosen {
            Move::Issue => self.issue(),
            Move::Deliver => self.deliver(|_| true),
            Move::DeliverRequest => self.deliver(|message| matches!(message, Message::Request(_))),
            Move::DeliverReply => self.deliver(|message| matches!(message, Message::Reply(_))),
            Move::DeliverAgain => self.deliver_any(),
            Move::Work => self.work(),
            Move::DropSpent => self.drop_spent(),
            Move::DropVote => self.drop_vote(),
            Move::Lose => self.lose(),
            Move::Clock => self.clock(),
            Move::StopClock => self.stop_clock(),
        }
    }
}

/// The lines of the script.
impl<P: Page> Maker<P> {
    /// Writes the line, and makes its call if it is one.
    fn line(&mut self, line: &[u8]) {
        self.text.extend(line);
        self.text.push(b'\n');
        if let Ok(Some(call)) = self.reader.read_line(line) {
            let (told, _) = self.stage.make(&call);
            *self.told.entry((call.word(), code(told))).or_default() += 1;
            self.calls += 1;
            self.remember_appointments(&call);
        }
    }

    fn speaker(&mut self) -> Speaker<'_> {
        Speaker {
            chance: &mut self.chance,
            game: self.plan.game,
            signature: self.reader.signature,
        }
    }

    pub fn call(&mut self, call: &Call) {
        let words = self.speaker().call(call);
        let line = self.speaker().line(&words);
        self.line(line.as_bytes());
    }

    pub fn sign_as(&mut self, Signature { grant, token }: Signature) {
        self.line(format!("as {grant} {token}").as_bytes());
    }

    fn remember_appointments(&mut self, call: &Call) {
        let Call::Issue(issue) = call else {
            return;
        };
        for operation in issue.operations {
            let is_appointed = operation.kind == kind::APPOINT && (1..16).contains(&operation.a);
            let signature = Signature {
                grant: operation.a as u8,
                token: operation.c as u32,
            };
            if is_appointed && !self.once_appointed.contains(&signature) {
                self.once_appointed.push(signature);
            }
        }
    }

    fn headings(&mut self, title: &str) {
        self.line(title.as_bytes());
        for line in wild::FIRST_LINES {
            if !self.chance.one_in(3) {
                self.line(line);
            }
        }
        let game = match self.plan.game {
            Game::Chess => "chess",
            Game::Bridge => "bridge",
        };
        self.line(format!("book {game}").as_bytes());
        self.line(format!("chief {}", self.plan.chief_token).as_bytes());
        self.line(format!("post {}", self.plan.places).as_bytes());
        self.line(b"pages");
        self.sign_as(self.plan.chief());
    }

    fn calls_before_the_first_open(&mut self) {
        for line in [
            "work 0",
            "clock 0 5",
            "deliver 0",
            "drop 0",
            "issue 0 single 1",
            "issue 16 single 1",
            "open 0",
            "open 9",
        ] {
            self.line(line.as_bytes());
        }
    }

    /// Also words of calls that are damaged.
    fn odd_line(&mut self) {
        if self.chance.one_in(4) {
            let call = self.any_wild_call();
            let mut words = self.speaker().call(&call);
            self.speaker().damage(&mut words);
            let line = self.speaker().line(&words);
            self.line(line.as_bytes());
        } else {
            let line = self.chance.pick(&wild::LINES);
            self.line(line);
        }
    }
}
